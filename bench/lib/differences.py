"""The first line in which what was written differs from what is needed."""
import itertools


def first_difference(wanted, written):
    """What is printed of it, if there is one, of the lines of two files or lists; a line after an end is empty."""
    for number, (line, other) in enumerate(itertools.zip_longest(wanted, written, fillvalue=b""), 1):
        if line != other:
            return f"line {number} is {other!r}, not {line!r}"
    return ""
