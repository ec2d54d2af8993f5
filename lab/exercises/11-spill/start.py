"""Reads a code and prints the order in which its temporaries are to be spilled."""
import re
import sys

text = "\n".join(line.split("#")[0] for line in sys.stdin)
words = re.findall(r"[A-Za-z_]\w*", text)
labels = set(re.findall(r"(\w+)\s*:", text)) | {"mem", "if", "goto", "return"}
print("\n".join(dict.fromkeys(it for it in words if it not in labels)))
