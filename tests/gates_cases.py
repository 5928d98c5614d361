#!/usr/bin/env python3
"""Cases for gate sheets, with the answers that request C-14 asks for.

Each case has a note: the rule of C-14 that decides it (row 11: the length, 525 bytes being the most; row 12: a line is not five fields; row 52: any other
fault of a line, the number of lines being line 1's; row 22: key nodes; vertices: two rails, the outputs, the inner vertices in the order of gates; edges: by
gate, p before n, by symbol, the end nearer to vertex 2 first; formula: an output's excitation is what its gate says), or, for the text of the program
`read_gates`, docs/DECISIONS.md, point 114. Running this file writes the input and the expected output of the test program `gates_cases`. Answers and sheets
are worked out here by hand, those at the limits by how the sheets are made; gates_model.py then works each of them out from the request, settle_model.py
each verdict and each excitation from the net's own definitions, and a difference stops the run. None is taken from the program.

The kinds of cases, and what the program prints for each before the note:
  G  a gate sheet, kept for the cases that follow it: number and place, vertices, edges, letters, and 1 if the record is one that some accepted sheet gives;
  V  the verdict on the record: number and place;
  E  the excitation of one vertex: 0 and the value, or a number and 0;
  T  the text of the program: how many bytes are written, none where the lent buffer is short; from the next line on these.

The numbers of a case are the input state, the key state and the vertex, or the size of the lent buffer.
"""
import gates_model
import settle_model
from case_files import case, store
from gates_model import INVERTER, NAND, NOR
from sheets import *

# Room for any sheet of a net.
MOST_BYTES = 6069
MOST_SIGNALS = 14  # letters and key nodes together, for the model's verdict

BYTES = b""  # the gate sheet in force
NET = None  # and the model of its net; none under a refusal
TEXT = b""  # what the program prints for it


def out(g):
    """The symbol of gate g's output."""
    return 102 + g


def gate_sheet(letters, *gates):
    """Gates by type and symbols; an inverter has one."""
    return line(6, len(gates), letters, 0, 1) + b"".join(
        line(7, kind, out(g), *symbols, *[0] * (2 - len(symbols))) for g, (kind, *symbols) in enumerate(gates, 1))


def reading(note, data, number, place, vertices, edges, letters):
    global BYTES, NET, TEXT
    expected = gates_model.read(data)
    assert (number, place) == expected[:2], (note, expected)
    BYTES, TEXT = data, expected[2] or field(0) + field(number) + field(place) + field(0) + b"\n"
    NET = settle_model.Net(expected[2]) if not number else None
    if NET:
        assert (vertices, edges, letters) == (len(NET.roles), len(NET.edges), NET.letters), note
    case(b"G", b"".join(map(field, (number, place, vertices, edges, letters, int(not number)))), note, data=data)


def accepted(note, data, vertices, edges, letters):
    reading(note, data, 0, 0, vertices, edges, letters)


def refused(number, place, note, data):
    reading(note, data, number, place, 0, 0, 0)


def sound(note):
    """C1 to C3 hold of every gate sheet that is accepted."""
    if NET.letters + len(NET.keys) <= MOST_SIGNALS:
        assert NET.verdict() == (0, 0), note
    case(b"V", field(0) + field(0), note)


def excited(value, note, vertex_number, asked_input=0, asked_key=0):
    expected = NET.excited(asked_input, asked_key, vertex_number)
    assert expected == (0, value), (note, expected)
    case(b"E", field(0) + field(value), note, (asked_input, asked_key, vertex_number))


def program_text(text, note, size=MOST_BYTES):
    assert text == TEXT, (note, TEXT)
    case(b"T", field(len(text)) + b"\n" + text, note, (size,))


def no_text(note, size):
    case(b"T", field(0) + b"\n", note, (size,))


# The three types, alone. Vertex 3 is the output.

accepted("an inverter: rails and output, no inner vertex, two edges", gate_sheet(1, (INVERTER, letter(1))), 3, 2, 1)
program_text(b"""\
   1   3   2   1   1
   2   1   0   0   0
   2   2   0   1   0
   2   3   2   0   0
   3   2   3   1  11
   3   3   1   0  11
""", "edges: p from 2 to the output, n from the output to 1, both under the one symbol")
sound("C1 to C3 hold")
excited(1, "formula: 1 where the letter is 0", 3, 0)
excited(0, "formula: 0 where it is 1", 3, 1)

accepted("a NAND: an inner vertex behind the output, four edges", gate_sheet(2, (NAND, letter(1), letter(2))), 4, 4, 2)
program_text(b"""\
   1   4   4   2   1
   2   1   0   0   0
   2   2   0   1   0
   2   3   2   0   0
   2   4   1   0   0
   3   2   3   1  11
   3   2   3   1  12
   3   3   4   0  11
   3   4   1   0  12
""", "edges: both p edges from 2 to the output; in series output, first symbol, inner vertex, second symbol, 1")
sound("C1 to C3 hold, though the inner vertex is 2 or 3 in some states: it is no output")
excited(1, "formula: letters 0 0", 3, 0)
excited(1, "formula: letters 1 0", 3, 1)
excited(1, "formula: letters 0 1", 3, 2)
excited(0, "formula: letters 1 1", 3, 3)
excited(3, "the inner vertex floats where both are 0", 4, 0)
excited(2, "an n edge carries no firm 1 to it where the first alone is 1", 4, 1)
excited(0, "it is joined to 1 where the second is 1", 4, 2)

accepted("a NOR: an inner vertex behind the output, four edges", gate_sheet(2, (NOR, letter(1), letter(2))), 4, 4, 2)
program_text(b"""\
   1   4   4   2   1
   2   1   0   0   0
   2   2   0   1   0
   2   3   2   0   0
   2   4   1   0   0
   3   2   4   1  11
   3   4   3   1  12
   3   3   1   0  11
   3   3   1   0  12
""", "edges: in series 2, first symbol, inner vertex, second symbol, output; both n edges from the output to 1")
sound("C1 to C3 hold")
excited(1, "formula: letters 0 0", 3, 0)
excited(0, "formula: letters 1 0", 3, 1)
excited(0, "formula: letters 0 1", 3, 2)
excited(0, "formula: letters 1 1", 3, 3)
excited(1, "the inner vertex is joined to 2 where the first is 0", 4, 2)
excited(2, "a p edge carries no firm 0 to it where the second alone is 0", 4, 1)

# The report's networks as gates.

THREE_GATES = gate_sheet(2, (NAND, letter(1), out(2)), (NAND, out(1), out(3)), (NAND, out(2), letter(2)))
LATCH_GATES = gate_sheet(2, (NOR, letter(1), out(2)), (NOR, letter(2), out(1)))

accepted("the three NANDs, figure 6.2: y1 = (a y2)', y2 = (y1 y3)', y3 = (y2 b)'", THREE_GATES, 8, 12, 2)
program_text(THREE_NANDS, "the sheet that settle_cases settles: inner vertices 6 7 8 in the order of gates")
sound("C1 to C3 hold")
excited(0, "formula: y1 at a 1, y2 1", 3, 1, 2)
excited(1, "formula: y3 at y2 1, b 0", 5, 1, 2)
program_text(THREE_NANDS, "the same in a longer buffer", MOST_BYTES + 21)
no_text("one byte less than any sheet may need is short, though this one has 441", MOST_BYTES - 1)
no_text("no byte is short", 0)
accepted("the NOR latch, figure 3.2: Q bar = (S + Q)', Q = (R + Q bar)'", LATCH_GATES, 6, 8, 2)
program_text(NOR_LATCH, "the sheet that settle_cases settles")
sound("C1 to C3 hold: the temporary fights of other drawings do not occur")
excited(0, "formula: Q bar at S 1, whatever Q is", 3, 1, 1)
excited(1, "formula: Q at R 0, Q bar 0", 4, 0, 0)
accepted("figure 6.6, whose third gate is an inverter: inner vertices of the first two alone",
         gate_sheet(2, (NAND, letter(1), letter(2)), (NAND, out(1), out(3)), (INVERTER, out(2))), 7, 10, 2)
program_text(b"""\
   1   7  10   2   1
   2   1   0   0   0
   2   2   0   1   0
   2   3   2   0   0
   2   4   2   0   0
   2   5   2   0   0
   2   6   1   0   0
   2   7   1   0   0
   3   2   3   1  11
   3   2   3   1  12
   3   3   6   0  11
   3   6   1   0  12
   3   2   4   1 103
   3   2   4   1 105
   3   4   7   0 103
   3   7   1   0 105
   3   2   5   1 104
   3   5   1   0 104
""", "edges: by gate, whatever their number")
accepted("an inverter first, a NOR, an inverter, a NAND: inner vertices are 7 and 8",
         gate_sheet(2, (INVERTER, letter(2)), (NOR, out(1), out(4)), (INVERTER, out(2)), (NAND, out(3), letter(1))), 8, 12, 2)
program_text(b"""\
   1   8  12   2   1
   2   1   0   0   0
   2   2   0   1   0
   2   3   2   0   0
   2   4   2   0   0
   2   5   2   0   0
   2   6   2   0   0
   2   7   1   0   0
   2   8   1   0   0
   3   2   3   1  12
   3   3   1   0  12
   3   2   7   1 103
   3   7   4   1 106
   3   4   1   0 103
   3   4   1   0 106
   3   2   5   1 104
   3   5   1   0 104
   3   2   6   1 105
   3   2   6   1  11
   3   6   8   0 105
   3   8   1   0  11
""", "vertices: those of the NOR and of the NAND, in this order, behind all four outputs")
sound("C1 to C3 hold")

# Symbols that are constants, equal, or the gate's own output.

accepted("a NAND that feeds itself by both symbols", gate_sheet(0, (NAND, out(1), out(1))), 4, 4, 0)
sound("C1 to C3 hold: there is no stable state")
excited(1, "formula: at 0 it is excited to 1", 3, 0, 0)
excited(0, "formula: at 1 to 0", 3, 0, 1)
accepted("a NOR that feeds itself by its second symbol", gate_sheet(1, (NOR, letter(1), out(1))), 4, 4, 1)
excited(1, "formula: letter 0, output 0", 3, 0, 0)
excited(0, "formula: letter 0, output 1", 3, 0, 1)
excited(0, "formula: letter 1, output 0", 3, 1, 0)
accepted("an inverter of a constant", gate_sheet(0, (INVERTER, 1)), 3, 2, 0)
excited(0, "formula: the inverse of 1", 3)
accepted("an inverter of the other constant; its last field is 0 as well", gate_sheet(0, (INVERTER, 0)), 3, 2, 0)
excited(1, "formula: the inverse of 0", 3)
accepted("a NOR of the constants", gate_sheet(0, (NOR, 0, 1)), 4, 4, 0)
excited(0, "formula: one of both is 1", 3)
accepted("a NAND of the constants", gate_sheet(0, (NAND, 0, 1)), 4, 4, 0)
excited(1, "formula: one of both is 0", 3)
accepted("a NAND of one letter twice", gate_sheet(1, (NAND, letter(1), letter(1))), 4, 4, 1)
excited(1, "formula: an inverter then, at 0", 3, 0)
excited(0, "formula: and at 1", 3, 1)
accepted("a NOR whose second symbol is constant 0, as is an inverter's last field", gate_sheet(1, (NOR, letter(1), 0)), 4, 4, 1)
excited(1, "formula: the first symbol decides, at 0", 3, 0)
excited(0, "formula: and at 1", 3, 1)
accepted("letters 8 and 1 of eight", gate_sheet(8, (NAND, letter(8), letter(1))), 4, 4, 8)
excited(0, "formula: letter 8 weighs 128", 3, 129)
excited(1, "formula: without it", 3, 127)
accepted("letters that no gate uses are allowed", gate_sheet(8, (INVERTER, 0)), 3, 2, 8)
accepted("a later gate's output is a symbol too", gate_sheet(1, (INVERTER, out(2)), (INVERTER, letter(1))), 4, 4, 1)

# Row 11.

GOOD = THREE_GATES
refused(11, 0, "row 11: no byte", b"")
program_text(field(0) + field(11) + field(0) + field(0) + b"\n", "a refusal's text is one line of four fields: 0, the number, its place, 0")
case(b"V", field(41) + field(0), "the empty record is none that an accepted sheet gives")
refused(11, 0, "row 11: 20 bytes are no multiple of 21", b" " * 20)
refused(11, 0, "row 11: a byte is missing at the end", GOOD[:-1])
refused(11, 0, "row 11: one byte more, an empty line", GOOD + b"\n")
refused(11, 0, "row 11: lines end with one byte; with two they are no multiple of 21", GOOD.replace(b"\n", b"\r\n"))
accepted("525 bytes are the limit: 24 NANDs, 24 inner vertices, 96 edges", gate_sheet(8, *[(NAND, 0, 1)] * 24), 50, 96, 8)
sound("C1 to C3 hold")
excited(1, "formula: the last gate's output is vertex 26", 26)
program_text(sheet(8, [ZERO, ONE] + [OUTPUT] * 24 + [STORAGE] * 24, [edge for g in range(24) for edge in nand(3 + g, 27 + g, 0, 1)]),
             "gate g's inner vertex is 26 + g where all have one: 147 lines")
refused(11, 0, "row 11: 546 bytes, though the header asks for no more than 24 gates", gate_sheet(8, *[(NAND, 0, 1)] * 24) + line(7, 2, 127, 0, 1))
refused(11, 0, "row 11: 546 bytes, a header for 25 gates and a line for each", gate_sheet(8, *[(NAND, 0, 1)] * 25))
refused(11, 0, "row 11 comes before row 12: 546 blanks", b" " * 546)
refused(11, 0, "row 11: a net's sheet may have 546 bytes, a gate sheet may not", sheet(0, [ZERO] * 25, []))

# Row 12 of line 1, then row 52 of line 1.

refused(12, 1, "row 12: line 1 without byte 10", GOOD[:20] + b" " + GOOD[21:])
refused(12, 1, "row 12: a leading zero", b"   6   3   2   0  01\n" + GOOD[21:])
refused(12, 1, "row 12: a sign", b"   6  +3   2   0   1\n" + GOOD[21:])
refused(12, 1, "row 12: an empty field", b"   6   3       0   1\n" + GOOD[21:])
refused(12, 1, "row 12 of line 1 comes before its row 52: the kind is 1 and a field is no number", b"   1   3   2   0   x\n" + GOOD[21:])
refused(52, 1, "row 52: kind 1 is that of a net", line(1, 3, 2, 0, 1) + GOOD[21:])
refused(52, 1, "row 52: kind 7 is that of a gate", line(7, 3, 2, 0, 1) + GOOD[21:])
refused(52, 1, "row 52: no gate, and so no gate lines", line(6, 0, 2, 0, 1))
refused(52, 1, "row 52: no gate, with three gate lines", line(6, 0, 2, 0, 1) + GOOD[21:])
refused(52, 1, "row 52: two gates and three lines; a wrong number of lines is line 1's", line(6, 2, 2, 0, 1) + GOOD[21:])
refused(52, 1, "row 52: four gates and three lines", line(6, 4, 2, 0, 1) + GOOD[21:])
refused(52, 1, "row 52: a header alone", line(6, 1, 2, 0, 1))
refused(52, 1, "row 52: 25 gates", line(6, 25, 2, 0, 1) + GOOD[21:])
refused(52, 1, "row 52: 9,999 gates", line(6, 9999, 2, 0, 1) + GOOD[21:])
refused(52, 1, "row 52: 9 letters", line(6, 3, 9, 0, 1) + GOOD[21:])
refused(52, 1, "row 52: 258 letters, which a byte would hold as 2", line(6, 3, 258, 0, 1) + GOOD[21:])
refused(52, 1, "row 52: the fourth field is 0", line(6, 3, 2, 1, 1) + GOOD[21:])
refused(52, 1, "row 52: the fifth field is 1", line(6, 3, 2, 0, 2) + GOOD[21:])
refused(52, 1, "row 52: the fifth field is 1, not 0", line(6, 3, 2, 0, 0) + GOOD[21:])
program_text(field(0) + field(52) + field(1) + field(0) + b"\n", "a refusal's text: number 52 at line 1")

# Lines in turn: 12, then 52, with the line.


def with_lines(*lines):
    """Three gates, the first lines given."""
    return line(6, 3, 2, 0, 1) + b"".join(lines) + GOOD[21 * (1 + len(lines)):]


BLANKS = b" " * 20 + b"\n"
SECOND = GOOD[42:63]

refused(52, 1, "row 52 of line 1 comes before row 12 of line 2", line(6, 2, 2, 0, 1) + BLANKS + GOOD[42:])
refused(52, 2, "row 52 of line 2 comes before row 12 of line 3", with_lines(line(3, 2, out(1), 11, out(2)), BLANKS))
refused(12, 2, "row 12 of line 2 comes before row 52 of line 3", with_lines(BLANKS, line(3, 2, out(2), out(1), out(3))))
refused(12, 3, "row 12: a tab is no blank", with_lines(GOOD[21:42], SECOND.replace(b" 103", b"\t103")))
refused(12, 4, "row 12: the last line ends with a blank", GOOD[:-1] + b" ")
refused(52, 4, "row 52: the last line, whose kind is 6", GOOD[:63] + line(6, 2, out(3), out(2), 12))
refused(52, 2, "row 52: kind 6 below line 1", with_lines(line(6, 2, out(1), 11, out(2))))
refused(52, 2, "row 52: kind 2, a vertex of a net", with_lines(line(2, 2, out(1), 11, out(2))))
refused(52, 2, "row 52: type 0", with_lines(line(7, 0, out(1), 11, out(2))))
refused(52, 2, "row 52: type 4", with_lines(line(7, 4, out(1), 11, out(2))))
refused(52, 3, "row 52: gate 2 with the output of gate 1", with_lines(GOOD[21:42], line(7, 2, out(1), out(1), out(3))))
refused(52, 2, "row 52: gate 1 with the output of gate 2", with_lines(line(7, 2, out(2), 11, out(2))))
refused(52, 3, "row 52: the output by its vertex, 4, in place of 104", with_lines(GOOD[21:42], line(7, 2, 4, out(1), out(3))))
refused(52, 2, "row 52: the output below all symbols", with_lines(line(7, 2, 0, 11, out(2))))

# Symbols: 0, 1, letters of the header, outputs.

for symbol, note in [
        (2, "2 is no constant"), (10, "below the letters"), (13, "letter 3 of two"), (18, "letter 8 of two"), (19, "above the letters"),
        (100, "below the vertices"), (101, "vertex 1, a rail"), (102, "vertex 2, a rail"), (106, "vertex 6, an inner vertex"),
        (126, "output 24 of three"), (196, "the last vertex that a net may have"), (197, "above the vertices"), (359, "103 and 256 more"), (9999, "none")]:
    refused(52, 2, f"row 52: first symbol {symbol}: {note}", with_lines(line(7, 2, out(1), symbol, out(2))))
    refused(52, 2, f"row 52: second symbol {symbol}: {note}", with_lines(line(7, 2, out(1), 11, symbol)))
refused(52, 2, "row 52: a letter where there is none", gate_sheet(0, (INVERTER, letter(1))))
refused(52, 2, "row 52: an inverter with two symbols", line(6, 1, 1, 0, 1) + line(7, 1, out(1), 11, 11))
refused(52, 2, "row 52: an inverter's last field is 0, and not a constant", line(6, 1, 1, 0, 1) + line(7, 1, out(1), 11, 1))
refused(52, 2, "row 52: an inverter of an inner vertex of another gate", line(6, 2, 0, 0, 1) + line(7, 1, out(1), 105, 0) + line(7, 2, out(2), 0, 1))

# Row 22, after all lines.


def ring(n):
    """Inverters, each with the next one's output for its symbol."""
    return gate_sheet(0, *[(INVERTER, out(g % n + 1)) for g in range(1, n + 1)])


accepted("twelve key nodes pass: a ring of twelve inverters", ring(12), 14, 24, 0)
sound("C1 to C3 hold")
refused(22, 15, "row 22: the thirteenth key node of a ring of thirteen is vertex 15", ring(13))
program_text(field(0) + field(22) + field(15) + field(0) + b"\n", "a refusal's text: number 22 at vertex 15")
refused(22, 15, "row 22: the place is the thirteenth, however many there are", ring(24))
refused(52, 14, "row 52 comes before row 22: the last of fourteen lines has type 4", ring(13)[:-21] + line(7, 4, out(13), out(1), 0))
refused(22, 26, "row 22: of 24 gates the last thirteen are symbols",
        gate_sheet(0, *[(INVERTER, 0)] * 11, *[(INVERTER, out(36 - g)) for g in range(12, 25)]))
refused(22, 26, "row 22: thirteen key nodes over 24 gates, every other and the last; the place goes by vertices, not by where they are symbols",
        gate_sheet(0, *[(INVERTER, out(symbol)) for symbol in (24, *range(23, 0, -2))], *[(INVERTER, 1)] * 11))
accepted("24 gates of which twelve are symbols pass", gate_sheet(0, *[(INVERTER, out(g % 12 + 13)) for g in range(24)]), 26, 48, 0)
accepted("outputs that no edge has for its symbol are no key nodes: 24 NORs of letters",
         gate_sheet(8, *[(NOR, letter(g % 8 + 1), letter(8 - g % 8)) for g in range(24)]), 50, 96, 8)
sound("C1 to C3 hold")
excited(0, "formula: gate 24 is the NOR of letters 8 and 1", 26, 1)

store("gates_cases")
