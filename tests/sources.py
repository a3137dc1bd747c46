"""The repository's files, for the tests that read them."""
import os
import re

ROOT = os.path.dirname(os.path.dirname(os.path.abspath(__file__)))


def read(*path):
    with open(os.path.join(ROOT, *path)) as f:
        return f.read()


def without_comments(text):
    """The text without comments, which nest; line breaks stay."""
    text = '\n'.join('' if re.match(r'\s*(--|//)', line) else line for line in text.split('\n'))
    kept, depth, at = [], 0, 0
    while at < len(text):
        two = text[at : at + 2]
        if two in ('{-', '/*'):
            depth, at = depth + 1, at + 2
        elif depth and two in ('-}', '*/'):
            depth, at = depth - 1, at + 2
        else:
            if not depth or text[at] == '\n':
                kept.append(text[at])
            at += 1
    return ''.join(kept)
