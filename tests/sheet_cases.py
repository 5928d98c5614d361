#!/usr/bin/env python3
"""Cases for the reader, the one-line call and the job line, with the answers that document 01 asks for, and document 02 where a request has changed a row.

Each case has a note: the row or sentence that its answer follows from. Running this file writes the input and the expected
output of the test program `sheet_cases`. The expected numbers are worked out here by hand, never taken from a run.

The kinds of cases: S a sheet, L one line of a sheet, whose number the case has, J a job line; s, l and j the same in as many columns a field as the case
says, for the code takes any from 1 to 9; F a number, and in how many columns of a longer buffer it is written. The program prints an answer and the note on a line for each.
"""
from case_files import LARGEST, case, store
from sheets import field, line


def sheet(*lines):
    return b"".join(l if isinstance(l, bytes) else line(*l) for l in lines)


# Document 01's worked example.
HEADER = (1, 4, 4, 1, 1)
VERTICES = [(2, 1, 0, 0, 0), (2, 2, 0, 1, 0), (2, 3, 2, 0, 0), (2, 4, 1, 0, 0)]
EDGES = [(3, 2, 3, 1, 11), (3, 2, 3, 1, 103), (3, 3, 4, 0, 11), (3, 4, 1, 0, 103)]
WORKED = [HEADER] + VERTICES + EDGES


def worked(**changes):
    """The worked sheet with some lines replaced: l1 is its first line."""
    lines = list(WORKED)
    for name, new in changes.items():
        lines[int(name[1:]) - 1] = new
    return sheet(*lines)


def inputs(count, edges, letters):
    """A sheet of input vertices that carry 0, and edges under 0 between the first two."""
    return sheet((1, count, edges, letters, 1), *[(2, v + 1, 0, 0, 0) for v in range(count)], *[(3, 1, 2, 0, 0)] * edges)


def keyed(n):
    """One input vertex and n storage vertices, each the symbol of its own edge to the input vertex."""
    return sheet((1, n + 1, n, 0, 1), (2, 1, 0, 0, 0), *[(2, v + 2, 1, 0, 0) for v in range(n)], *[(3, 1, v + 2, 0, 102 + v) for v in range(n)])


def signalled(*more):
    """One storage vertex, vertex 2, with an edge under each of 8 letters to vertex 1, which carries 0, and more edges."""
    return sheet((1, 3, 8 + len(more), 8, 1), (2, 1, 0, 0, 0), (2, 2, 1, 0, 0), (2, 3, 0, 18, 0), *[(3, 1, 2, 0, 11 + j) for j in range(8)], *more)


def seven(*more):
    """The same with 7 letters on its edges; vertex 3 is an input vertex that carries letter 8."""
    return sheet((1, 3, 7 + len(more), 8, 1), (2, 1, 0, 0, 0), (2, 2, 1, 0, 0), (2, 3, 0, 18, 0), *[(3, 1, 2, 0, 11 + j) for j in range(7)], *more)


def drawn(*edges):
    """Document 01's vertices, and edges by their ends, form and symbol: the first is line 6."""
    return sheet((1, 4, len(edges), 1, 1), *VERTICES, *[(3, *e) for e in edges])


def side_by_side(*forms):
    """Edges of these forms between two storage vertices, under the letter: the first is line 4."""
    return sheet((1, 2, len(forms), 1, 1), (2, 1, 1, 0, 0), (2, 2, 1, 0, 0), *[(3, 1, 2, form, 11) for form in forms])


ONE = line(*HEADER)


def read(number, place, note, data):
    """A sheet's number and place; an accepted record is a record, and the empty one that a refusal gives is none."""
    case(b"S", field(number) + field(place) + field(1 if number == 0 else 0), note, data=data)


def one_line(number, part, note, n, data):
    """The number of the call for line n, and the part that is handed back."""
    case(b"L", field(number) + field(len(part)) + part, note, (n,), data)


def job(answer, note, data):
    case(b"J", b"".join(field(n) for n in answer), note, data=data)


# The buffer that a field is written to.
BUFFER = 12


def line_in(columns, *numbers):
    return b"".join(b"%*d" % (columns, n) for n in numbers) + b"\n"


def sheet_in(columns, *lines):
    return b"".join(l if isinstance(l, bytes) else line_in(columns, *l) for l in lines)


def worked_in(columns, **changes):
    lines = list(WORKED)
    for name, new in changes.items():
        lines[int(name[1:]) - 1] = new
    return sheet_in(columns, *lines)


def read_in(columns, number, place, note, data):
    case(b"s", field(number) + field(place) + field(1 if number == 0 else 0), "%d columns: %s" % (columns, note), (columns,), data)


def one_line_in(columns, part, note, n, data):
    case(b"l", field(len(part)) + part, "%d columns: %s" % (columns, note), (columns, n), data)


def job_in(columns, answer, note, data):
    numbers = b"".join(b"%*d" % (columns, n) + b"?" * (BUFFER - columns) for n in answer)
    case(b"j", numbers or field(46), "%d columns: %s" % (columns, note), (columns,), data)


def written(columns, n, text, note):
    """The text stands in the first columns of the buffer, and the bytes beyond stay as they were."""
    assert len(text) == columns
    case(b"F", text + b"?" * (BUFFER - columns), note, (n, columns))


read(0, 0, "the worked example is accepted", worked())
read(11, 0, "row 11: length 0", b"")
read(11, 0, "row 11: 20 bytes", ONE[:20])
read(11, 0, "row 11: 22 bytes", ONE + b" ")
read(0, 0, "row 11: 6,069 bytes are the limit, 96 vertices and 192 edges", inputs(96, 192, 0))
read(11, 0, "row 11: 6,070 bytes", inputs(96, 192, 0) + b" ")
read(11, 0, "row 11: 6,090 bytes", inputs(96, 192, 0) + ONE)
read(12, 1, "row 12: line 1 without byte 10", worked(l1=ONE[:20] + b" "))
read(12, 5, "a line without its byte 10 counts as not five fields", worked(l5=line(2, 4, 1, 0, 0)[:20] + b" "))
read(12, 5, "a tab is no blank", worked(l5=b"   2\t  4   1   0   0\n"))
read(12, 5, "a sign is no digit", worked(l5=b"   2  +4   1   0   0\n"))
read(12, 5, "a leading zero", worked(l5=b"   2  04   1   0   0\n"))
read(12, 5, "zero is one digit 0", worked(l5=b"   2   4   1  00   0\n"))
read(12, 5, "a blank inside a number", worked(l5=b"   2   4   1 1 0   0\n"))
read(12, 5, "a blank after a number", worked(l5=b"   2  4    1   0   0\n"))
read(12, 5, "an empty field", worked(l5=b"   2   4   1       0\n"))
read(12, 5, "a byte above 127", worked(l5=b"   2   4   1   0   \xb9\n"))
read(12, 5, "a NUL", worked(l5=b"   2   4   1   0\x00  0\n"))
read(13, 1, "row 13: wrong kind of header", worked(l1=(2, 4, 4, 1, 1)))
read(13, 1, "row 13: V is at least 1", sheet((1, 0, 0, 0, 1)))
read(0, 0, "V 1 and E 0 are allowed", inputs(1, 0, 0))
read(13, 1, "row 13: V 97", sheet((1, 97, 0, 0, 1), *[(2, v + 1, 0, 0, 0) for v in range(97)]))
read(13, 1, "row 13: E 193", inputs(2, 193, 0))
read(0, 0, "L 8 is allowed", inputs(2, 1, 8))
read(13, 1, "row 13: L 9", inputs(2, 1, 9))
read(13, 1, "row 13: edition 0", worked(l1=(1, 4, 4, 1, 0)))
read(13, 1, "row 13: edition 2", worked(l1=(1, 4, 4, 1, 2)))
read(14, 0, "row 14: one line short", sheet(*WORKED[:-1]))
read(14, 0, "row 14: one line long", sheet(*WORKED, EDGES[0]))
read(14, 0, "row 14 stands before the later lines' 12", sheet(HEADER, b" " * 20 + b"\n", *VERTICES[1:], *EDGES[:-1]))
read(15, 3, "row 15: wrong kind on a vertex line", worked(l3=(3, 2, 0, 1, 0)))
read(16, 7, "row 16: wrong kind on an edge line", worked(l7=(2, 2, 3, 1, 103)))
read(15, 3, "row 15: vertex numbers are 1 to V in order", worked(l3=(2, 3, 0, 1, 0)))
read(15, 5, "row 15: role 3", worked(l5=(2, 4, 3, 0, 0)))
read(15, 5, "row 15: a vertex line's fifth field is 0", worked(l5=(2, 4, 1, 0, 1)))
for label in (2, 10, 19, 101):
    read(15, 3, "row 15: an input vertex's label is 0, 1 or a letter's symbol, not %d" % label, worked(l3=(2, 2, 0, label, 0)))
read(15, 3, "row 15: letter 2 of a net with one letter", worked(l3=(2, 2, 0, 12, 0)))
read(0, 0, "an input vertex may carry a letter", worked(l3=(2, 2, 0, 11, 0)))
read(15, 5, "row 15: a storage vertex's label is 0", worked(l5=(2, 4, 1, 1, 0)))
read(16, 6, "row 16: end 0", worked(l6=(3, 0, 3, 1, 11)))
read(16, 6, "row 16: end V + 1", worked(l6=(3, 2, 5, 1, 11)))
read(16, 6, "row 16: equal ends", worked(l6=(3, 3, 3, 1, 11)))
read(16, 6, "row 16: form 4", worked(l6=(3, 2, 3, 4, 11)))
for symbol in (2, 10, 19, 100, 197):
    read(16, 6, "row 16: %d is no symbol" % symbol, worked(l6=(3, 2, 3, 1, symbol)))
read(16, 6, "row 16: letter 2 of a net with one letter", worked(l6=(3, 2, 3, 1, 12)))
read(16, 6, "row 16: a vertex that the net has not", worked(l6=(3, 2, 3, 1, 105)))
read(16, 6, "row 16: symbol of an input vertex", worked(l6=(3, 2, 3, 1, 102)))
for form in (2, 3):
    for symbol in (0, 1):
        read(16, 6, "row 16: form %d with symbol %d" % (form, symbol), worked(l6=(3, 2, 3, form, symbol)))
read(0, 0, "forms 0 and 1 may have symbol 0 or 1", worked(l6=(3, 2, 3, 1, 1)))
read(15, 3, "each later line in turn: 15 on line 3 before 12 on line 4", worked(l3=(2, 2, 3, 1, 0), l4=b"x" * 20 + b"\n"))
read(12, 3, "each later line in turn: 12 on line 3 before 15 on line 4", worked(l3=b"x" * 20 + b"\n", l4=(2, 3, 3, 0, 0)))
read(21, 8, "row 21: form 3 without a form 0 edge of the same symbol and ends", worked(l8=(3, 3, 4, 3, 11)))
read(21, 8, "row 21: a partner has the same symbol", worked(l8=(3, 3, 4, 3, 11), l9=(3, 4, 3, 0, 103)))
read(21, 8, "row 21: form 3 needs form 0, not form 1", worked(l8=(3, 3, 4, 3, 11), l9=(3, 4, 3, 1, 11)))

# Document 02, C-13: for two vertices and a symbol there are at most as many edges of form 2 as of form 1, and of form 3 as of form 0. The place is the first line
# with which its form has more edges than the whole sheet has partners. In each sheet below the edges join 3 and 4 unless the note says otherwise.
read(0, 0, "between two vertices: in either order of the ends", drawn((3, 4, 3, 11), (4, 3, 0, 11)))
read(0, 0, "on the whole sheet: a partner after its edge", drawn((3, 4, 3, 11), (3, 4, 0, 11)))
read(0, 0, "on the whole sheet: a partner before its edge", drawn((3, 4, 0, 11), (3, 4, 3, 11)))
read(0, 0, "form 2 does not outnumber form 1", drawn((3, 4, 2, 11), (3, 4, 1, 11)))
read(0, 0, "must not outnumber: as many partners, all of them after, ends in either order", drawn((3, 4, 3, 11), (4, 3, 3, 11), (4, 3, 0, 11), (3, 4, 0, 11)))
read(0, 0, "must not outnumber: more partners than edges of the primed form", drawn((3, 4, 0, 11), (4, 3, 3, 11), (4, 3, 0, 11), (3, 4, 0, 11)))
read(0, 0, "forms 0 and 1 need no partner", drawn((3, 4, 0, 11), (3, 4, 0, 11), (3, 4, 1, 11)))
read(0, 0, "for each symbol: a pair under the letter and one under vertex 3", drawn((3, 4, 3, 11), (3, 4, 3, 103), (3, 4, 0, 11), (4, 3, 0, 103)))
read(0, 0, "both transmission gates: form 2 with form 1, form 3 with form 0", drawn((3, 4, 2, 11), (3, 4, 3, 11), (3, 4, 1, 11), (3, 4, 0, 11)))
read(21, 8, "row 21: one partner does not serve two; the second edge is one too many", worked(l6=(3, 3, 4, 3, 11), l8=(3, 3, 4, 3, 11), l9=(3, 4, 3, 0, 11)))
read(21, 8, "row 21: the third edge of form 3 over two partners", drawn((3, 4, 3, 11), (4, 3, 3, 11), (3, 4, 3, 11), (3, 4, 0, 11), (4, 3, 0, 11)))
read(21, 8, "row 21: the third edge of form 2 over two partners", drawn((3, 4, 2, 11), (4, 3, 2, 11), (3, 4, 2, 11), (3, 4, 1, 11), (4, 3, 1, 11)))
read(21, 7, "row 21: the first line that exceeds its partners, not the last of three over one", drawn((3, 4, 3, 11), (3, 4, 3, 11), (3, 4, 3, 11), (3, 4, 0, 11)))
read(21, 9, "row 21: counted in file order, lines between them not counted",
     drawn((3, 4, 3, 11), (3, 4, 0, 11), (2, 3, 1, 11), (4, 3, 3, 11)))
read(21, 7, "row 21: an edge in the other direction counts too", drawn((3, 4, 3, 11), (4, 3, 3, 11), (3, 4, 0, 11)))
read(21, 7, "row 21: for each symbol, so the second partner is under another", drawn((3, 4, 3, 11), (3, 4, 3, 11), (3, 4, 0, 11), (3, 4, 0, 103)))
read(21, 7, "row 21: between the same two vertices, so the second partner is between 4 and 1", drawn((3, 4, 3, 11), (3, 4, 3, 11), (3, 4, 0, 11), (4, 1, 0, 11)))
read(21, 7, "row 21: form 2 takes form 1 alone, though a form 0 edge is left", drawn((3, 4, 2, 11), (3, 4, 2, 11), (3, 4, 1, 11), (3, 4, 0, 11)))
read(21, 6, "row 21: the first line, where form 3 exceeds and a later form 2 does too", drawn((3, 4, 3, 11), (3, 4, 2, 11)))
read(21, 6, "row 21: the first line, where form 2 exceeds and a later form 3 does too", drawn((3, 4, 2, 11), (3, 4, 3, 11)))
read(21, 6, "row 21: the first line, of two symbols between 2 and 3", worked(l6=(3, 2, 3, 2, 103), l7=(3, 2, 3, 2, 11)))
read(0, 0, "96 pairs between two vertices", side_by_side(*[3] * 96, *[0] * 96))
read(0, 0, "96 pairs between two vertices, half of each kind, line by line", side_by_side(*[3, 2, 1, 0] * 48))
read(21, 99, "row 21: 97 edges over 95 partners, the 96th is one too many", side_by_side(*[3] * 97, *[0] * 95))
read(21, 194, "row 21: 97 edges over 95 partners, all of these before them", side_by_side(*[1] * 95, *[2] * 97))
read(0, 0, "a key node may be the symbol only of an edge between input vertices",
     sheet((1, 3, 1, 0, 1), (2, 1, 0, 0, 0), (2, 2, 0, 1, 0), (2, 3, 1, 0, 0), (3, 1, 2, 0, 103)))
read(0, 0, "twelve key nodes pass", keyed(12))
read(22, 14, "row 22: thirteen key nodes, the vertex of the 13th", keyed(13))
read(0, 0, "eight signals pass", signalled())
read(23, 2, "row 23: nine signals, the ninth a key node", signalled((3, 2, 1, 0, 102)))
read(0, 0, "the letter of an input vertex that is a signal already", signalled((3, 3, 2, 0, 11)))
read(0, 0, "seven letters on the edges and the letter of an input vertex are eight signals", seven((3, 3, 2, 0, 11)))
read(23, 2, "row 23: the ninth signal by an input vertex's letter", seven((3, 3, 2, 0, 102)))
read(23, 3, "row 23: the lowest vertex of any such component", sheet(
    (1, 4, 10, 8, 1), (2, 1, 0, 0, 0), (2, 2, 1, 0, 0), (2, 3, 1, 0, 0), (2, 4, 1, 0, 0),
    *[(3, 1, 4, 0, 11 + j) for j in range(8)], (3, 4, 3, 0, 103), (3, 1, 2, 0, 11)))
read(11, 0, "several faults: 11 comes first", worked(l1=(2, 97, 4, 1, 2)) + b" ")
read(12, 1, "several faults: 12 on line 1 before 13", worked(l1=b"   2  97   4   1  02\n", l5=(2, 4, 3, 0, 0)))
read(21, 29, "several faults: 21 before 22", sheet(
    (1, 15, 14, 0, 1), (2, 1, 0, 0, 0), *[(2, v + 2, 1, 0, 0) for v in range(14)],
    *[(3, 1, v + 2, 0, 102 + v) for v in range(12)], (3, 1, 14, 2, 114), (3, 1, 15, 0, 115)))

one_line(0, b"   2   1   0   0   0\n", "line 2 of nine", 2, worked())
one_line(0, b"   3   4   1   0 103\n", "the last line", 9, worked())
one_line(47, b"", "the first line is 1, so there is no line 0", 0, worked())
one_line(47, b"", "no line 10", 10, worked())
one_line(47, b"", "a line of 20 bytes is not full", 1, ONE[:20])
one_line(0, b"x" * 21, "what the bytes hold is not tested", 1, b"x" * 21)
one_line(47, b"", "a largest number of four columns", 9999, worked())

job((0, 0, 1, 1), "4, A, B, q, 0", line(4, 0, 1, 1, 0))
job((0, 9999, 9999, 9999), "any numbers of four columns", line(4, 9999, 9999, 9999, 0))
job((46, 0, 0, 0), "row 46: 20 bytes", line(4, 0, 1, 1, 0)[:20])
job((46, 0, 0, 0), "row 46: 22 bytes", line(4, 0, 1, 1, 0) + b" ")
job((46, 0, 0, 0), "row 46: no bytes", b"")
job((46, 0, 0, 0), "row 46: kind 3", line(3, 0, 1, 1, 0))
job((46, 0, 0, 0), "row 46: last field 1", line(4, 0, 1, 1, 1))
job((46, 0, 0, 0), "row 46: a leading zero", b"   4  00   1   1   0\n")
job((46, 0, 0, 0), "row 46: without byte 10", b"   4   0   1   1   0 ")

# Other widths than the one in force: rows and places are those of four columns. In six columns a line has 31 bytes.
read_in(6, 0, 0, "the worked example", worked_in(6))
read_in(3, 0, 0, "the worked example in as few columns as hold its symbols", worked_in(3))
read_in(9, 0, 0, "the worked example in the widest fields", worked_in(9))
read_in(1, 0, 0, "one vertex needs no more", b"11001\n21000\n")
read_in(6, 11, 0, "row 11: length 0", b"")
read_in(6, 11, 0, "row 11: the worked example in four columns is no whole number of lines of 31 bytes", worked())
read(11, 0, "row 11: the worked example in six columns is no whole number of lines of 21 bytes", worked_in(6))
read_in(6, 12, 1, "row 12: 31 lines of four columns are 21 lines of 31 bytes, and the first is not five fields", sheet(*[HEADER] * 31))
MOST = [(2, v + 1, 0, 0, 0) for v in range(96)] + [(3, 1, 2, 0, 0)] * 192
read_in(6, 0, 0, "289 lines are the limit, 96 vertices and 192 edges", sheet_in(6, (1, 96, 192, 0, 1), *MOST))
read_in(6, 11, 0, "row 11: 290 lines", sheet_in(6, (1, 96, 193, 0, 1), *MOST, (3, 1, 2, 0, 0)))
read_in(6, 12, 3, "row 12: a leading zero", worked_in(6, l3=b"     2     2     0000001     0\n"))
read_in(6, 12, 3, "row 12: without byte 10", worked_in(6, l3=line_in(6, 2, 2, 0, 1, 0)[:-1] + b" "))
read_in(6, 13, 1, "row 13, and not 12: 999,999 vertices", worked_in(6, l1=(1, 999999, 4, 1, 1)))
read_in(9, 13, 1, "row 13, and not 12: 999,999,999 letters", worked_in(9, l1=(1, 4, 4, 999999999, 1)))
read_in(6, 13, 1, "row 13: 65,540 vertices, which are 4 in 16 bits", worked_in(6, l1=(1, 65540, 4, 1, 1)))
read_in(6, 13, 1, "row 13: edition 65,537", worked_in(6, l1=(1, 4, 4, 1, 65537)))
read_in(6, 14, 0, "row 14: one line short", sheet_in(6, *WORKED[:-1]))
read_in(6, 15, 3, "row 15, and not 12: label 65,537, which is 1 in 16 bits", worked_in(6, l3=(2, 2, 0, 65537, 0)))
read_in(6, 15, 3, "row 15: vertex number 65,538", worked_in(6, l3=(2, 65538, 0, 1, 0)))
read_in(6, 15, 5, "row 15: role 65,537", worked_in(6, l5=(2, 4, 65537, 0, 0)))
read_in(6, 16, 6, "row 16, and not 12: symbol 65,547, which is 11 in 16 bits", worked_in(6, l6=(3, 2, 3, 1, 65547)))
read_in(6, 16, 6, "row 16: end 65,538", worked_in(6, l6=(3, 65538, 3, 1, 11)))
read_in(6, 16, 6, "row 16: form 65,537", worked_in(6, l6=(3, 2, 3, 65537, 11)))
read_in(6, 21, 8, "row 21", worked_in(6, l8=(3, 3, 4, 3, 11)))

one_line_in(6, line_in(6, 2, 1, 0, 0, 0), "line 2 of nine", 2, worked_in(6))
one_line_in(6, line_in(6, 3, 4, 1, 0, 103), "the last line", 9, worked_in(6))
one_line_in(1, b"21000\n", "line 2 of two", 2, b"11001\n21000\n")
one_line_in(6, b"", "no line 0", 0, worked_in(6))
one_line_in(6, b"", "no line 10", 10, worked_in(6))
one_line_in(6, b"", "a line of 30 bytes is not full", 1, line_in(6, *HEADER)[:30])
one_line_in(6, b"", "no line of the largest number", LARGEST, worked_in(6))

job_in(6, (3, 12, 65535), "4, A, B, q, 0", line_in(6, 4, 3, 12, 65535, 0))
job_in(6, (999999, 999999, 999999), "any numbers", line_in(6, 4, 999999, 999999, 999999, 0))
job_in(9, (999999999, 0, 999999999), "any numbers", line_in(9, 4, 999999999, 0, 999999999, 0))
job_in(1, (9, 0, 1), "any numbers", b"49010\n")
job_in(6, (), "row 46: four columns where six are asked for", line(4, 0, 1, 1, 0))
job((46, 0, 0, 0), "row 46: six columns where four are asked for", line_in(6, 4, 0, 1, 1, 0))
job_in(6, (), "row 46: kind 65,540, which is 4 in 16 bits", line_in(6, 65540, 0, 1, 1, 0))

# A field: blanks, then the number without leading zeros; of a number of more digits the last ones.
written(0, 7, b"", "no column: nothing is written")
written(1, 7, b"7", "one column")
written(4, 0, b"   0", "zero is one digit 0")
written(4, 103, b" 103", "a blank before the first digit")
written(4, 9999, b"9999", "a number that fills its field")
written(4, 65535, b"5535", "a number of more digits: the last four")
written(4, 10000, b"0000", "a number of more digits: the last four, zeros too")
written(6, 65535, b" 65535", "six columns")
written(12, LARGEST, b"  4294967295", "twelve columns, the whole buffer")

store("sheet_cases")
