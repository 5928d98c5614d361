#!/usr/bin/env python3
"""Cases for the writer of a record's sheet, with the answers that request C-11 and document 01 ask for.

Each case has a note: the words of C-11 that decide it (turning: the lower end of an edge comes first; order: low end, high end, form, symbol; vertices: as
numbered; equal bytes: for records that differ in the order of edges and of ends alone; once more: reading what was written and writing it; length: the
answer's last number; beyond: bytes that are not written stay; row 51: the buffer is shorter than the sheet), or document 01's row; for the text of the
program `write_net` also docs/DECISIONS.md, point 99. Running this file writes the input and the expected output of the test program `writer_cases`. Numbers
and sheets are worked out here by hand, those at the limits by how the drawings are made; writer_model.py then works each of them out from the definitions,
and a difference stops the run. None is taken from the program.

The kinds of cases, and what the program prints for each before the note:
  N  a sheet, kept for the cases that follow it: the reader's number and place;
  W  the record written in the agreed order: number, place and length, and from the next line on the whole lent buffer, which held question marks;
  O  the same in the record's own order;
  A  the same of the record that is read back from what was written in the agreed order;
  T  the text of the program for the sheet: how many bytes are written, none where the lent buffer is short; from the next line on these.

The numbers of a case are the size of the lent buffer and, where a record is written, what is altered in it before: a part of it, the place, counted from 0,
and the value.
"""
import copy

from case_files import case, store
from sheets import *
from writer_model import Record

AGREED, OWN, AGAIN = b"W", b"O", b"A"
UNTOUCHED = b"?"
# The longest sheet: 1 + 96 + 192 lines.
MOST_BYTES = 6069

# The parts of a record that a case may alter.
LABEL, SYMBOL, VERTEX_COUNT, EDGE_COUNT, LETTER_COUNT = range(1, 6)

# Under a refusal every number of the record is 0.
EMPTY = Record(line(0, 0, 0, 0, 0))

RECORD = EMPTY  # the model of the sheet in force
ANSWER = None  # and the number and place of its refusal


def net(note, data, refusal=0, place=0):
    global RECORD, ANSWER
    RECORD = EMPTY if refusal else Record(data)
    ANSWER = (refusal, place) if refusal else None
    assert RECORD.is_accepted() == (refusal == 0), note
    case(b"N", field(refusal) + field(place), note, data=data)


def altered(record, part, place, value):
    out = copy.deepcopy(record)
    if part == LABEL:
        out.vertices[place] = (out.vertices[place][0], value)
    elif part == SYMBOL:
        out.edges[place] = (*out.edges[place][:3], value)
    elif part == VERTEX_COUNT:
        out.vertex_count = value
    elif part == EDGE_COUNT:
        out.edge_count = value
    elif part == LETTER_COUNT:
        out.letter_count = value
    return out


def model(kind, record, size):
    """Number and sheet."""
    if not record.is_accepted():
        return 41, b""
    text = {AGREED: record.agreed, OWN: record.own, AGAIN: lambda: Record(record.agreed()).agreed()}[kind]()
    return (51, b"") if size < len(text) else (0, text)


def writing(kind, number, text, note, size, part=0, place=0, value=0):
    """A number and a sheet; under a number there is no sheet, and nothing is written."""
    expected = model(kind, altered(RECORD, part, place, value), size)
    assert (number, text) == expected, (note, expected)
    printed = field(number) + field(0) + field(len(text)) + b"\n" + text + UNTOUCHED * (size - len(text))
    case(kind, printed, note, (size, part, place, value))


def written(text, note, kind=AGREED, beyond=0, **alteration):
    """The sheet, in a buffer of its size and some bytes beyond."""
    writing(kind, 0, text, note, len(text) + beyond, **alteration)


def refused(number, note, size, kind=AGREED, **alteration):
    writing(kind, number, b"", note, size, **alteration)


def program_text(expected, note, size=MOST_BYTES):
    """The program prints the sheet in the agreed order, or the number and the place between two zeros; the call wants room for any sheet."""
    assert expected == (field(0) + field(ANSWER[0]) + field(ANSWER[1]) + field(0) + b"\n" if ANSWER else RECORD.agreed()), note
    assert MOST_BYTES <= size, note
    case(b"T", field(len(expected)) + b"\n" + expected, note, (size,))


def no_text(note, size):
    assert size < MOST_BYTES, note
    case(b"T", field(0) + b"\n", note, (size,))


# Document 01's net, drawn from the top to the bottom.

WORKED_AGREED = b"""\
   1   4   4   1   1
   2   1   0   0   0
   2   2   0   1   0
   2   3   2   0   0
   2   4   1   0   0
   3   1   4   0 103
   3   2   3   1  11
   3   2   3   1 103
   3   3   4   0  11
"""

net("document 01's net: 4 vertices and 4 edges, 9 lines of 21 bytes", WORKED)
written(WORKED_AGREED, "turning: 4 1 becomes 1 4, and its low end is the lowest; length 189; the buffer has no byte more")
written(WORKED_AGREED, "beyond: the last ten bytes of 199 stay", beyond=10)
written(WORKED_AGREED, "beyond: one byte stays", beyond=1)
refused(51, "row 51: 188 bytes are one too few, and none is written", 188)
refused(51, "row 51: room for the header and no more", 21)
refused(51, "row 51: one byte", 1)
refused(51, "row 51: no byte", 0)
written(WORKED_AGREED, "once more: the same bytes", AGAIN, beyond=3)
written(WORKED, "own order: the bytes that were read", OWN)
program_text(WORKED_AGREED, "the text is the sheet in the agreed order, 189 bytes")
program_text(WORKED_AGREED, "the same in a longer buffer", MOST_BYTES + 21)
no_text("one byte less than any sheet may need is short, though this one has 189", MOST_BYTES - 1)
no_text("no byte is short", 0)
written(WORKED, "own order, beyond: the last ten bytes of 199 stay", OWN, beyond=10)
refused(51, "own order, row 51: 188 bytes are one too few, and none is written", 188, OWN)
refused(51, "own order, row 51: no byte", 0, OWN)
net("the same net as it was written", WORKED_AGREED)
written(WORKED_AGREED, "a sheet in the agreed order is written as it stands")
written(WORKED_AGREED, "own order: here it is the agreed one", OWN)

# Few lines.

ONE_VERTEX = b"""\
   1   1   0   0   1
   2   1   0   1   0
"""
NO_EDGES = b"""\
   1   5   0   8   1
   2   1   2   0   0
   2   2   0  18   0
   2   3   1   0   0
   2   4   0   1   0
   2   5   0   0   0
"""

net("one vertex and no edge", ONE_VERTEX)
written(ONE_VERTEX, "V 1 and E 0 are allowed: a header and a vertex line, 42 bytes", beyond=2)
refused(51, "row 51: 41 bytes", 41)
written(ONE_VERTEX, "own order: the same", OWN)
net("five vertices of every role and label, no edge, 8 letters that none of them need use", NO_EDGES)
written(NO_EDGES, "vertices: as numbered, by no order of roles or labels; the letters are those of the header", beyond=1)
refused(51, "row 51: 125 bytes", 125)
written(NO_EDGES, "once more: the same bytes", AGAIN)

# What decides the order. Vertices 3 and 4 are storage vertices, there are two letters.

KINDS = [ZERO, ONE, OUTPUT, STORAGE]
KIND_LINES = b"""\
   2   1   0   0   0
   2   2   0   1   0
   2   3   2   0   0
   2   4   1   0   0
"""

net("edge 1 4 stands behind edge 2 3", sheet(2, KINDS, [(2, 3, N, letter(1)), (1, 4, P, letter(2))]))
written(b"   1   4   2   2   1\n" + KIND_LINES + b"""\
   3   1   4   1  12
   3   2   3   0  11
""", "order, low end: 1 before 2, though high end, form and symbol are higher")
net("edge 1 3 stands behind edge 1 4", sheet(2, KINDS, [(1, 4, N, letter(1)), (1, 3, P, letter(2))]))
written(b"   1   4   2   2   1\n" + KIND_LINES + b"""\
   3   1   3   1  12
   3   1   4   0  11
""", "order, high end: 3 before 4, though form and symbol are higher")
net("the edge of form 0 stands behind that of form 1", sheet(2, KINDS, [(1, 3, P, letter(1)), (1, 3, N, letter(2))]))
written(b"   1   4   2   2   1\n" + KIND_LINES + b"""\
   3   1   3   0  12
   3   1   3   1  11
""", "order, form: 0 before 1, though the symbol is higher")
net("parallel edges of one form under every kind of symbol, falling",
    sheet(2, KINDS, [(1, 3, N, symbol) for symbol in (vertex(4), vertex(3), letter(2), letter(1), 1, 0)]))
written(b"   1   4   6   2   1\n" + KIND_LINES + b"""\
   3   1   3   0   0
   3   1   3   0   1
   3   1   3   0  11
   3   1   3   0  12
   3   1   3   0 103
   3   1   3   0 104
""", "order, symbol: constants, letters, vertices, by their numbers")
net("both transmission gates between 3 and 4 under one letter, drawn from either end",
    sheet(1, KINDS, [(4, 3, P_PRIMED, letter(1)), (3, 4, N_PRIMED, letter(1)), (3, 4, P, letter(1)), (4, 3, N, letter(1))]))
written(b"   1   4   4   1   1\n" + KIND_LINES + b"""\
   3   3   4   0  11
   3   3   4   1  11
   3   3   4   2  11
   3   3   4   3  11
""", "order, form: 0 1 2 3; turning: 4 3 becomes 3 4")
net("two edges whose order changes by turning them", sheet(1, KINDS, [(2, 3, N, letter(1)), (4, 1, N, letter(1))]))
written(b"   1   4   2   1   1\n" + KIND_LINES + b"""\
   3   1   4   0  11
   3   2   3   0  11
""", "turning comes before order: as they stand, 2 3 would be first")
net("one edge, its higher end first", sheet(1, KINDS, [(4, 3, N, letter(1))]))
written(b"   1   4   1   1   1\n" + KIND_LINES + b"   3   3   4   0  11\n", "turning: 4 3 becomes 3 4", beyond=5)
written(b"   1   4   1   1   1\n" + KIND_LINES + b"   3   4   3   0  11\n", "own order: the ends as they stand", OWN, beyond=5)

TWICE = b"""\
   3   1   3   0  11
   3   1   3   0  11
   3   2   3   1  11
   3   2   3   1  11
"""

net("an inverter drawn twice over, one of the n edges the other way round", sheet(1, KINDS, [(2, 3, P, 11), (3, 1, N, 11), (2, 3, P, 11), (1, 3, N, 11)]))
written(b"   1   4   4   1   1\n" + KIND_LINES + TWICE, "equal edges stay, each as often as it was drawn")
written(b"   1   4   4   1   1\n" + KIND_LINES + TWICE, "once more: the same bytes", AGAIN)
net("the inverter with three n edges and one p edge", sheet(1, KINDS, [(2, 3, P, 11), (3, 1, N, 11), (1, 3, N, 11), (1, 3, N, 11)]))
written(b"   1   4   4   1   1\n" + KIND_LINES + TWICE[:21] + TWICE[:42] + TWICE[-21:],
        "equal bytes: only for the same edges, each as often; these are other bytes")

# The NOR latch by several draughtsmen.

net("NOR latch, figure 3.2, gate by gate from 1 down to 0", NOR_LATCH)
written(NOR_LATCH_AGREED, "turning and order", beyond=4)
written(NOR_LATCH, "own order: gate by gate", OWN)
net("the same by a second draughtsman, both sides at once from 0 up to 1", NOR_LATCH_FROM_0)
written(NOR_LATCH_AGREED, "equal bytes: edges and ends in another order", beyond=4)
written(NOR_LATCH_FROM_0, "own order: from 0 up to 1, other bytes", OWN)
program_text(NOR_LATCH_AGREED, "the text is the sheet in the agreed order")
written(NOR_LATCH_AGREED, "once more: the same bytes", AGAIN)
net("the same by a third, the first one's lines from the last to the first", sheet(2, STORED, LATCH[::-1]))
written(NOR_LATCH_AGREED, "equal bytes: edges in another order", beyond=4)
net("the same by a fourth, the first one's lines with every end turned", sheet(2, STORED, [(b, a, form, s) for a, b, form, s in LATCH]))
written(NOR_LATCH_AGREED, "equal bytes: ends in another order", beyond=4)
net("the latch with R where the first n edge had S", sheet(2, STORED, LATCH[:2] + [(3, 1, N, letter(2))] + LATCH[3:]))
written(NOR_LATCH_AGREED.replace(b"   3   1   3   0  11\n", b"   3   1   3   0  12\n"), "equal bytes: not for another symbol")
net("the latch without its output Q bar", sheet(2, [ZERO, ONE, STORAGE] + STORED[3:], LATCH))
written(NOR_LATCH_AGREED.replace(b"   2   3   2   0   0\n", b"   2   3   1   0   0\n"), "equal bytes: not for another role")
net("the latch with a third letter that nothing uses", sheet(3, STORED, LATCH))
written(NOR_LATCH_AGREED.replace(b"   1   6   8   2   1\n", b"   1   6   8   3   1\n"), "equal bytes: not for other counts")

# No record of a sheet: row 41, whatever the buffer.

net("a sheet with an edge from 3 to 3: row 16, the empty record", WORKED[:-21] + line(3, 3, 3, 0, 103), 16, 9)
refused(41, "row 41: the empty record, which no accepted sheet gives", 200)
refused(41, "row 41 comes before row 51", 0)
refused(41, "own order: row 41", 200, OWN)
refused(41, "own order: row 41 comes before row 51", 0, OWN)
refused(41, "once more: nothing was written, and no sheet has no byte", 50, AGAIN)
program_text(b"   0  16   9   0\n", "the text is one line: 0, row 16, its place line 9, and 0")
no_text("short comes before any row of the sheet", MOST_BYTES - 1)
net("no byte: row 11, the empty record", b"", 11)
refused(41, "row 41: the empty record", 21)
program_text(b"   0  11   0   0\n", "a missing file reads as empty: row 11, place 0")
net("a byte more than any sheet has", b"x" * 6070, 11)
program_text(b"   0  11   0   0\n", "row 11, place 0")
net("a header of edition 2", line(1, 1, 0, 0, 2) + line(2, 1, 0, 0, 0), 13, 1)
program_text(b"   0  13   1   0\n", "row 13, place line 1")
net("thirteen key nodes", sheet(0, [ZERO] + [STORAGE] * 13, [(1, v, N, vertex(v)) for v in range(2, 15)]), 22, 14)
program_text(b"   0  22  14   0\n", "row 22, its place the vertex of the thirteenth key node")

# Document 01's net with one number of the record altered after reading.

net("document 01's net again, for records with one number altered", WORKED)
refused(41, "row 41: the label of a vertex place that is not in use", 200, part=LABEL, place=4, value=1)
refused(41, "row 41 comes before row 51", 0, part=LABEL, place=4, value=1)
refused(41, "row 41 comes before row 51: one byte too few", 188, part=LABEL, place=4, value=1)
refused(41, "row 41: the label of the last vertex place", 200, part=LABEL, place=95, value=11)
refused(41, "row 41: the symbol of an edge place that is not in use", 200, part=SYMBOL, place=4, value=1)
refused(41, "row 41 comes before row 51", 0, part=SYMBOL, place=4, value=1)
refused(41, "row 41 comes before row 51: one byte too few", 188, part=SYMBOL, place=4, value=1)
refused(41, "row 41: the symbol of the last edge place", 200, part=SYMBOL, place=191, value=103)
refused(41, "own order: row 41, a vertex place that is not in use", 200, OWN, part=LABEL, place=4, value=1)
refused(41, "own order: row 41 comes before row 51", 0, OWN, part=LABEL, place=4, value=1)
refused(41, "own order: row 41, an edge place that is not in use", 200, OWN, part=SYMBOL, place=4, value=1)
refused(41, "own order: row 41 comes before row 51", 0, OWN, part=SYMBOL, place=4, value=1)
refused(41, "row 41: V is at least 1", 200, part=VERTEX_COUNT, value=0)
refused(41, "row 41: V 97", 6090, part=VERTEX_COUNT, value=97)
refused(41, "row 41: V 255", 200, part=VERTEX_COUNT, value=255)
refused(41, "row 41: E 193", 6090, part=EDGE_COUNT, value=193)
refused(41, "row 41: E 65,535", 200, part=EDGE_COUNT, value=65535)
refused(41, "row 41: L 9", 200, part=LETTER_COUNT, value=9)
refused(41, "row 41 comes before row 51: E 193", 0, part=EDGE_COUNT, value=193)
refused(41, "own order: row 41, E 193", 200, OWN, part=EDGE_COUNT, value=193)
refused(41, "own order: row 41, V 97", 200, OWN, part=VERTEX_COUNT, value=97)
refused(41, "row 41: V 3 leaves the ends and the place of vertex 4", 200, part=VERTEX_COUNT, value=3)
refused(41, "row 41: E 3 leaves the place of the fourth edge", 200, part=EDGE_COUNT, value=3)
refused(41, "row 41: E 5 takes an edge of zeros, and no end is 0", 210, part=EDGE_COUNT, value=5)
refused(41, "row 41: L 0 leaves the symbol of letter 1", 200, part=LETTER_COUNT, value=0)
refused(41, "row 41: letter 2 of a net with one", 200, part=SYMBOL, place=0, value=12)
refused(41, "row 41: the symbol of an input vertex", 200, part=SYMBOL, place=0, value=101)
refused(41, "row 41: a storage vertex with a label", 200, part=LABEL, place=2, value=1)
written(WORKED_AGREED.replace(b"   1   4   4   1   1\n", b"   1   4   4   2   1\n"), "a record of a sheet: two letters", part=LETTER_COUNT, value=2)
written(WORKED_AGREED.replace(b"   1   4   4   1   1\n", b"   1   5   4   1   1\n").replace(
    b"   2   4   1   0   0\n", b"   2   4   1   0   0\n   2   5   0   0   0\n"),
        "a record of a sheet: the place of vertex 5 is that of an input vertex that carries 0", part=VERTEX_COUNT, value=5)
written(WORKED_AGREED.replace(b"   2   1   0   0   0\n", b"   2   1   0  11   0\n"), "a record of a sheet: vertex 1 carries the letter",
        part=LABEL, place=0, value=11)
written(b"   1   4   4   1   1\n" + KIND_LINES + b"""\
   3   1   4   0 103
   3   2   3   1  11
   3   2   3   1 104
   3   3   4   0  11
""", "a record of a sheet: the second edge under vertex 4", part=SYMBOL, place=1, value=104)

net("a transmission gate under letter 1, with an edge under letter 2 beside it",
    sheet(2, KINDS, [(1, 3, N, letter(2))] + pass_on(4, 3, letter(1))))
refused(41, "row 41: by row 21, the partner under another letter", 200, part=SYMBOL, place=1, value=12)
net("two transmission gates side by side, under letters 1 and 2, an edge under letter 1 beside them",
    sheet(2, KINDS, pass_on(4, 3, letter(1)) + pass_on(3, 4, letter(2)) + [(4, 3, N, letter(1))]))
refused(41, "row 41: by row 21, one partner under letter 2 for two", 230, part=SYMBOL, place=1, value=12)
refused(41, "row 41: by row 21, no partner under letter 2", 230, part=SYMBOL, place=2, value=11)
written(b"   1   4   5   2   1\n" + KIND_LINES + b"""\
   3   3   4   0  11
   3   3   4   0  11
   3   3   4   0  12
   3   3   4   3  11
   3   3   4   3  11
""", "a record of a sheet: two pairs under letter 1, by C-13 as many partners", part=SYMBOL, place=3, value=11)
TWELVE = [(1, v, N, vertex(v)) for v in range(2, 14)]
net("twelve key nodes, and an edge under one of them", sheet(0, [ZERO] + [STORAGE] * 13, TWELVE + [(14, 1, N, vertex(2))]))
refused(41, "row 41: by row 22, a thirteenth key node", 600, part=SYMBOL, place=12, value=vertex(14))
EIGHT = [(1, 2, N, letter(j)) for j in range(1, 9)]
net("eight signals, and an edge under one of them", sheet(8, [ZERO, STORAGE], EIGHT + [(1, 2, N, letter(8))]))
refused(41, "row 41: by row 23, a ninth signal", 300, part=SYMBOL, place=8, value=vertex(2))

# At the limits: 96 vertices, 192 edges, 8 letters, 12 key nodes. The edges are made in rising order: from vertex 1 to each storage vertex, from vertex 2
# to each, and the four forms between the last two.

SYMBOLS = [letter(1 + v % 8) for v in range(3, 85)] + [vertex(v) for v in range(3, 15)]
RISING = [(rail, v, form, symbol) for rail, form in ((1, N), (2, P)) for v, symbol in zip(range(3, 97), SYMBOLS)]
RISING += [(95, 96, form, letter(1)) for form in (N, P, N_PRIMED, P_PRIMED)]
MOST_VERTICES = [ZERO, ONE] + [STORAGE] * 93 + [OUTPUT]
MOST_AGREED = sheet(8, MOST_VERTICES, RISING)
MOST_FALLING = sheet(8, MOST_VERTICES, [(b, a, form, symbol) for a, b, form, symbol in RISING[::-1]])
assert len(MOST_AGREED) == MOST_BYTES

net("96 vertices, 192 edges, 8 letters, 12 key nodes; edges falling, every end turned", MOST_FALLING)
written(MOST_AGREED, "turning and order: the edges rising; length 6,069, the most that a sheet has")
program_text(MOST_AGREED, "the longest text")
written(MOST_AGREED, "beyond: 21 bytes stay", beyond=21)
refused(51, "row 51: 6,068 bytes", 6068)
written(MOST_AGREED, "once more: the same bytes", AGAIN)
written(MOST_FALLING, "own order: falling, as read", OWN)
refused(51, "own order, row 51: 6,068 bytes", 6068, OWN)
net("the same drawing in the agreed order", MOST_AGREED)
written(MOST_AGREED, "the edges rise already")
net("the same drawing, its edges taken by turns from both ends, every second one turned",
    sheet(8, MOST_VERTICES, [edge for (a, b, form, symbol), other in zip(RISING[:96], RISING[:95:-1]) for edge in ((b, a, form, symbol), other)]))
written(MOST_AGREED, "equal bytes: edges and ends in another order")
net("two vertices and 192 equal edges", sheet(0, [ZERO, ONE], [(2, 1, N, 0)] * 192))
written(sheet(0, [ZERO, ONE], [(1, 2, N, 0)] * 192), "equal edges stay, each as often as it was drawn; length 4,095")

store("writer_cases")
