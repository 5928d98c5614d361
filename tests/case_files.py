"""How the generators collect and store the cases of their test programs.

A case in the input: its kind (one byte), then five numbers and the size of its data, each in a field, then the data. Numbers that a case does not need
are 0; a field that is no number stands for the largest of 32 bits. After each case comes its note as a case of the kind #, whose data are printed as they
stand.
"""
import pathlib

NUMBERS = 5
COLUMNS = 9
LARGEST = 2 ** 32 - 1

# The test programs read no more bytes.
MOST_INPUT = 256000

CASES = []


def case(kind, answer, note, numbers=(), data=b""):
    CASES.append((kind, numbers, data, answer, note))


def number(n):
    assert n < 10 ** COLUMNS or n == LARGEST, "no field holds it"
    return b"-" * COLUMNS if n == LARGEST else b"%*d" % (COLUMNS, n)


def laid_out(kind, numbers=(), data=b""):
    return kind + b"".join(number(n) for n in (*numbers, *[0] * NUMBERS)[:NUMBERS]) + number(len(data)) + data


def store(program):
    """Writes the input and the expected output of a program: each case by its kind, its numbers and its data, and its answer before its note."""
    given, wanted = b"", b""
    for kind, numbers, data, answer, note in CASES:
        text = b" " + note.encode() + b"\n"
        given += laid_out(kind, numbers, data) + laid_out(b"#", data=text)
        wanted += answer + text
    assert len(given) <= MOST_INPUT, "a test program reads no more than its buffer holds"
    here = pathlib.Path(__file__).parent.parent / "crates" / program
    here.mkdir(exist_ok=True)
    (here / "stdin").write_bytes(given)
    (here / "stdout").write_bytes(wanted)
