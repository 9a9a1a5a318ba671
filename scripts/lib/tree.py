"""The repository: its top, and the texts of its files."""
import os

TOP = os.path.dirname(os.path.dirname(os.path.dirname(os.path.realpath(__file__))))


def text_of(path):
    """Returns the text of a file."""
    with open(path, encoding="utf-8") as it:
        return it.read()
