"""Writes a Tiger source in the layout of `tiger format`."""
import sys


def tokens(source):
    """The tokens of a source, without its comments."""
    return source.split()


def layout(tokens):
    """The text of tokens."""
    return " ".join(tokens) + "\n"


sys.stdout.write(layout(tokens(sys.stdin.read())))
