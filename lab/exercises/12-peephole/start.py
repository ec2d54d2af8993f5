"""Reads an assembly text and writes one that does the same."""
import sys


def shorter(lines):
    """The lines that are left, one window after the other."""
    return lines


sys.stdout.write("".join(shorter(list(sys.stdin))))
