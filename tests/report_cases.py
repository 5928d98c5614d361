#!/usr/bin/env python3
"""Cases for the program's text, with the text that document 01 and the readings ask for.

Each case has a note: the sentence or row that its text follows from. Running this file writes the input and the expected output of the test program
`report_cases`. The expected text is worked out here by hand; settle_model.py then works it out from the definitions, for every sheet that the reader
accepts, and a difference stops the run. None is taken from the program.

The kinds of cases, and what the program prints for each before the note:
  N  a sheet, kept for the cases that follow it: the first line of the output;
  J  the bytes of `jobs`: the lines of the jobs, from all pieces;
  M  the bytes of `jobs` as a repetition: for each piece how many bytes its text has, its first line and its last;
  O  the first line in a buffer of some size: what is written, how many bytes that is, with `last` before it if nothing is to follow, or `short`, and
     how many bytes of the buffer are untouched;
  P  the lines of a piece in a buffer of some size: the same.
The first number of a case is the size of the jobs (M) or of the buffer (O, P), the second the number of the piece's first job (P). The test program goes
from piece to piece as the program `settle` does. What it reads of its files is not tested here.
"""
import settle_model
import case_files
from case_files import LARGEST, CASES, store
from sheets import *

NET = None  # the model of the sheet in force; none under a number of the reader
WIDTH = 0  # its h

# The program's limits, in bytes where nothing else is said.
LINE = 21
MOST_SHEET = 6069
MOST_JOBS = 9999  # jobs
PIECE_JOBS = 3333  # jobs
OPENING_ROOM = 17
PIECE_ROOM = 143319  # as many lines of 43 bytes, those of twelve key nodes


def case(kind, answer, note, numbers=(), data=b""):
    case_files.case(kind, answer.encode(), note, numbers, data)


def opening(refusal, place, h):
    return "%4d%4d%4d%4d\n" % (0, refusal, place, h)


def net(note, data, refusal=0, place=0, h=0):
    """The first line has a number with its place, and h. Numbers below 30 are the reader's."""
    global NET, WIDTH
    NET, WIDTH = None if 0 < refusal < 30 else settle_model.Net(data), h
    if NET:
        assert (refusal, place, h) == (*NET.verdict(), len(NET.keys)), (note, NET.verdict())
    case(b"N", opening(refusal, place, h), note, data=data)


def held(note, lines, jobs, first=1):
    """Holds lines to the model."""
    model = NET.text(jobs, first) if NET else []
    assert lines == model, (note, lines, model)


def ran(old, new, start, steps, more_steps, r, t):
    return job(old, new, start), "   0%4d%4d %s %s\n" % (steps, more_steps, r, t)


def refused(refusal, data):
    return data, "%4d   0   0 %s %s\n" % (refusal, "-" * WIDTH, "-" * WIDTH)


def jobs(note, *rows):
    """Each row has the bytes of a job, and its line after the job's number."""
    data, lines = b"".join(row[0] for row in rows), ["%4d%s" % (n, row[1]) for n, row in enumerate(rows, 1)]
    held(note, lines, data)
    case(b"J", "".join(lines), note, data=data)


def unread(note, data):
    """Jobs of which nothing is printed."""
    held(note, [], data)
    case(b"J", "", note, data=data)


def many(note, data, size, *pieces):
    """Each piece by the bytes of its text, its first line and its last."""
    lines = NET.text((data * (size // len(data) + 1))[:size], 1)
    texts = [lines[i:i + PIECE_JOBS] for i in range(0, len(lines), PIECE_JOBS)]
    assert [(n, first + "\n", last + "\n") for n, first, last in pieces] == [(sum(map(len, text)), text[0], text[-1]) for text in texts], note
    case(b"M", "".join("%d\n%s\n%s\n" % piece for piece in pieces), note, (size,), data)


def in_buffer(kind, note, text, size, room, first=0, data=b"", last=""):
    """A text in a buffer that is long enough, or a short one that stays as it is."""
    answer = "short %d" % size if size < room else "%s%s%d %d" % (text, last, len(text), size - len(text))
    case(kind, answer, note, (size, first), data)


def lent_opening(note, text, size):
    """After a number of the reader, or any verdict but 0, 32 or 33, the program ends."""
    in_buffer(b"O", note, text, size, OPENING_ROOM, last="" if int(text[4:8]) in (0, 32, 33) else "last ")


def lent_piece(note, lines, size, first, data):
    held(note, lines, data, first)
    in_buffer(b"P", note, "".join(lines), size, PIECE_ROOM, first, data)


# Document 01's worked net and its four jobs.

X = ran("0", "1", "1", 1, 0, "X", "X")
STAYS = ran("0", "0", "1", 0, 0, "1", "1")

net("document 01's net: 0, verdict 0, place 0, one key node", WORKED, h=1)
jobs("document 01's four jobs, as it prints them", X, STAYS, refused(44, job("1", "0", "1")), refused(42, job(2, "0", "1")))
assert CASES[-1][3] == b"   1   0   1   0 X X\n   2   0   0   0 1 1\n   3  44   0   0 - -\n   4  42   0   0 - -\n"
unread("an empty file of jobs: no line", b"")
jobs("one job", STAYS)

# What is no job line, and bytes after the last full line.

jobs("an empty line after the last job is a short last piece: one more job", STAYS, refused(46, b"\n"))
jobs("one CR after the last job", STAYS, refused(46, b"\r"))
jobs("a last line without its byte 10: 20 bytes are a short piece", STAYS, refused(46, X[0][:20]))
jobs("a file of one byte", refused(46, b"\n"))
jobs("two lines that end with CR and byte 10: each piece of 21 bytes is shifted, and two bytes are left",
     refused(46, X[0][:20] + b"\r"), refused(46, b"\n" + STAYS[0][:20]), refused(46, b"\r\n"))
jobs("an empty line between two jobs shifts what follows", X, refused(46, b"\n" + STAYS[0][:20]), refused(46, b"\n"))
jobs("an empty line and a line that is one byte short are 21 bytes together: the next job is in place again",
     X, refused(46, b"\n   4   0   0   1  0\n"), STAYS)
jobs("a line of kind 5, one of kind 3, and one whose last field is not 0",
     refused(46, line(5, 0, 1, 1, 0)), refused(46, line(3, 0, 1, 1, 0)), refused(46, line(4, 0, 1, 1, 1)), X)
jobs("blanks for a number, a tab, a sign, a leading zero",
     refused(46, b"   4   0   1       0\n"), refused(46, b"   4\t  0   1   1   0\n"),
     refused(46, b"   4   0  +1   1   0\n"), refused(46, b"   4   0  01   1   0\n"))
jobs("42, 43 and 44 between jobs that run: hyphens for r and t, and the later jobs run",
     X, refused(42, job(2, 0, 1)), STAYS, refused(43, job(0, 0, 2)), X, refused(44, job("1", "0", "1")), STAYS, refused(42, job(0, 9999, 1)), X)
jobs("the rows of a job in order: 46 before 42, 42 before 43, 43 before 44",
     refused(46, line(5, 9999, 9999, 9999, 0)), refused(42, job(9999, 9999, 9999)), refused(43, job(1, 0, 9999)), refused(44, job(1, 0, 1)))

# Pieces: jobs are numbered through, and those past 9,999 stay unread. A line of this net has 21 bytes.

FULL = [(69993, "   1   0   1   0 X X", "3333   0   1   0 X X"), (69993, "3334   0   1   0 X X", "6666   0   1   0 X X"),
        (69993, "6667   0   1   0 X X", "9999   0   1   0 X X")]

many("9,999 jobs: three full pieces", X[0], LINE * MOST_JOBS, *FULL)
many("10,000 jobs: the last stays unread", X[0], LINE * (MOST_JOBS + 1), *FULL)
many("9,999 jobs and one byte: the short piece is job 10,000", X[0], LINE * MOST_JOBS + 1, *FULL)
many("9,998 jobs and one byte: the short piece is job 9,999", X[0], LINE * (MOST_JOBS - 1) + 1, *FULL[:2],
     (69993, "6667   0   1   0 X X", "9999  46   0   0 - -"))
many("3,333 jobs: one full piece", X[0], LINE * PIECE_JOBS, FULL[0])
many("3,334 jobs: the second piece has one job", X[0], LINE * (PIECE_JOBS + 1), FULL[0], (21, "3334   0   1   0 X X", "3334   0   1   0 X X"))
many("3,333 jobs and one byte: the second piece is a short one", X[0], LINE * PIECE_JOBS + 1, FULL[0], (21, "3334  46   0   0 - -", "3334  46   0   0 - -"))
many("3,332 jobs and 20 bytes: a short piece within the first piece", X[0], LINE * PIECE_JOBS - 1, (69993, "   1   0   1   0 X X", "3333  46   0   0 - -"))
many("6,666 jobs: two full pieces", X[0], LINE * 2 * PIECE_JOBS, *FULL[:2])
many("6,667 jobs, two lines by turns: an odd job runs, an even one is refused", X[0] + job(2, 0, 1), LINE * (2 * PIECE_JOBS + 1),
     FULL[0], (69993, "3334  42   0   0 - -", "6666  42   0   0 - -"), (21, "6667   0   1   0 X X", "6667   0   1   0 X X"))
many("1,000 jobs: a number of four digits fills its columns", STAYS[0], LINE * 1000, (21000, "   1   0   0   0 1 1", "1000   0   0   0 1 1"))
many("21 lines that end with CR and byte 10 are 22 pieces, and none is a job line", X[0][:20] + b"\r\n", 22 * LINE,
     (462, "   1  46   0   0 - -", "  22  46   0   0 - -"))
many("9,999 times a byte that is no digit: every job is refused", b"x", LINE * MOST_JOBS, (69993, "   1  46   0   0 - -", "3333  46   0   0 - -"),
     (69993, "3334  46   0   0 - -", "6666  46   0   0 - -"), (69993, "6667  46   0   0 - -", "9999  46   0   0 - -"))

# Lent buffers: a call asks for its room, and changes nothing beyond what it writes.

lent_opening("a buffer of no bytes is short", opening(0, 0, 1), 0)
lent_opening("a buffer one byte shorter than the first line stays as it is", opening(0, 0, 1), OPENING_ROOM - 1)
lent_opening("just enough room", opening(0, 0, 1), OPENING_ROOM)
lent_opening("what comes after the first line stays", opening(0, 0, 1), OPENING_ROOM + 4)
lent_piece("a buffer one byte shorter than the longest text stays as it is, though this text is short", ["   1" + X[1]], PIECE_ROOM - 1, 1, X[0])
lent_piece("and though there is no text at all", [], PIECE_ROOM - 1, 1, b"")
lent_piece("no jobs in just enough room", [], PIECE_ROOM, 1, b"")
lent_piece("just enough room: what comes after the text stays", ["   1" + X[1]], PIECE_ROOM, 1, X[0])
lent_piece("more room", ["3334" + X[1], "3335" + STAYS[1]], PIECE_ROOM + 4, 3334, X[0] + STAYS[0])
lent_piece("a piece that begins with job 9,999: the next one stays unread", ["9999" + STAYS[1]], PIECE_ROOM, 9999, STAYS[0] + X[0])
lent_piece("a piece that begins with job 10,000: nothing is read", [], PIECE_ROOM, 10000, STAYS[0])
lent_piece("a piece that begins with the largest number of 32 bits", [], PIECE_ROOM, LARGEST, STAYS[0])

# h = 0: four fields and two blanks. h = 12: the longest lines, which just fill a piece's room.

net("NOR gate, figure 2.2: no key node", NOR_GATE)
jobs("with h = 0 a line is four fields and two blanks, refused or not",
     ran("00", "11", 0, 0, 0, "", ""), refused(42, job(4, 0, 0)), refused(43, job(0, 0, 1)), refused(46, b"\n"))
many("9,999 such jobs: 19 bytes a line", job("00", "11", 0), LINE * MOST_JOBS, (63327, "   1   0   0   0  ", "3333   0   0   0  "),
     (63327, "3334   0   0   0  ", "6666   0   0   0  "), (63327, "6667   0   0   0  ", "9999   0   0   0  "))

CHAIN = inverter(3, letter(1)) + [edge for y in range(4, 16) for edge in inverter(y, vertex(y - 1))]
UP, DOWN, ALL_X = "101010101010", "010101010101", "XXXXXXXXXXXX"

net("letter 1 and twelve key nodes, 3 to 14, each the inverse of the one before; output 15", sheet(1, [ZERO, ONE] + [STORAGE] * 12 + [OUTPUT], CHAIN), h=12)
jobs("key node 1 first; twelve steps in each pass; twelve hyphens twice under a refusal",
     ran("0", "1", UP, 12, 12, ALL_X, DOWN), ran("1", "0", DOWN, 12, 12, ALL_X, UP), ran("1", "1", DOWN, 0, 0, DOWN, DOWN),
     refused(44, job("0", "1", DOWN)), refused(43, job(0, 1, 4096)), refused(42, job(2, 0, 0)), refused(46, b"4"))
many("9,999 such jobs: 43 bytes a line, as much as a piece has room for", job("0", "1", UP), LINE * MOST_JOBS,
     (PIECE_ROOM, "   1   0  12  12 %s %s" % (ALL_X, DOWN), "3333   0  12  12 %s %s" % (ALL_X, DOWN)),
     (PIECE_ROOM, "3334   0  12  12 %s %s" % (ALL_X, DOWN), "6666   0  12  12 %s %s" % (ALL_X, DOWN)),
     (PIECE_ROOM, "6667   0  12  12 %s %s" % (ALL_X, DOWN), "9999   0  12  12 %s %s" % (ALL_X, DOWN)))

# The report's examples as the program prints them.

net("three NANDs, figure 6.2", THREE_NANDS, h=3)
jobs("section 6: both examples of algorithms A and B; 11 with 010 is stable; 00 with 010 is not",
     ran("11", "00", "010", 2, 2, "XXX", "101"), ran("10", "01", "011", 2, 1, "XXX", "1XX"), ran("11", "11", "010", 0, 0, "010", "010"),
     refused(44, job("00", "00", "010")))
net("pessimism, figure 6.6", PESSIMISM, h=3)
jobs("section 6: XXX and 1XX", ran("01", "10", "101", 3, 1, "XXX", "1XX"))
net("NOR latch, figure 3.2: letters S R, key nodes Q bar and Q", NOR_LATCH, h=2)
jobs("document 01: 10 to 00 from 01, and 11 to 00 from 00; example 3.1: row 5 to row 4, and row 5 to row 3",
     ran("10", "00", "01", 0, 0, "01", "01"), ran("11", "00", "00", 1, 0, "XX", "XX"), ran("11", "10", "00", 1, 1, "0X", "01"),
     ran("11", "01", "00", 1, 1, "X0", "10"))
net("oscillator, figure 3.4(a)", OSCILLATOR, h=1)
jobs("no stable state: every start is refused", refused(44, job(0, 0, 0)), refused(44, job(0, 0, 1)), refused(42, job(1, 0, 0)))

# Verdicts: 31 ends the program after the first line, which still shows h; after 32 and 33 the jobs run.

net("figure 3.4(c): C1 is broken at y2, vertex 4; h is 2", NOT_WELL_FORMED, 31, 4, 2)
unread("after 31 no line of jobs", job("000", "000", "10"))
unread("nor for what is no job line", b"\n")
many("nor for 9,999 jobs", job("000", "000", "10"), LINE * MOST_JOBS)
lent_opening("the first line after 31, in just enough room", opening(31, 4, 2), OPENING_ROOM)
lent_piece("after 31 a piece writes nothing", [], PIECE_ROOM, 1, job("000", "000", "10"))
lent_piece("and a short buffer is still short", [], PIECE_ROOM - 1, 1, job("000", "000", "10"))
net("figure 4.4: C1 is broken at y3, vertex 5; h is 3", TEMPORARY_FIGHT, 31, 5, 3)
unread("example 4.4: rejected, though a 1 ends in a stable state", job("1", "1", "010"))
net("the NOR latch, and vertex 7 joined to 0 under Q hat and to 1 under Q bar hat: C2 is broken, place 0", sheet(
    2, STORED + [STORAGE], LATCH + [(1, 7, P, vertex(4)), (7, 2, P, vertex(3))]), 32, 0, 2)
jobs("after 32 the jobs run", ran("11", "10", "00", 1, 1, "0X", "01"), refused(44, job("00", "00", "00")), ran("10", "00", "01", 0, 0, "01", "01"))
lent_opening("the first line after 32: jobs may follow", opening(32, 0, 2), OPENING_ROOM)
net("the NOR latch with y2 as an output: C3 is broken at vertex 6", sheet(2, STORED[:5] + [OUTPUT], LATCH), 33, 6, 2)
jobs("after 33 the jobs run", ran("11", "01", "00", 1, 1, "X0", "10"), ran("11", "00", "00", 1, 0, "XX", "XX"))
lent_opening("the first line after 33: jobs may follow", opening(33, 6, 2), OPENING_ROOM)
net("an edge between the rails: 32 without any key node", sheet(0, [ZERO, ONE], [(1, 2, N, 1)]), 32, 0, 0)
jobs("its jobs run", ran(0, 0, 0, 0, 0, "", ""))

# Numbers of the reader: the first line is all, and its h is 0.

LINES = [WORKED[i:i + LINE] for i in range(0, len(WORKED), LINE)]


def with_line(n, new):
    return b"".join(LINES[:n - 1] + [new] + LINES[n:])


LARGEST = line(1, 96, 192, 0, 1) + b"".join(line(2, v, 0, 0, 0) for v in range(1, 97)) + line(3, 1, 2, 0, 0) * 192
TWENTY_ONE = sheet(0, [ZERO, ONE], [(1, 2, N, 0)] * 18)
assert len(LARGEST) == MOST_SHEET and len(TWENTY_ONE) == 21 * LINE

net("an empty or missing net", b"", 11)
unread("after a number of the reader no line of jobs", X[0])
lent_opening("its first line, in a buffer one byte too short", opening(11, 0, 0), OPENING_ROOM - 1)
lent_opening("its first line, in just enough room", opening(11, 0, 0), OPENING_ROOM)
lent_piece("a piece writes nothing", [], PIECE_ROOM, 1, X[0])
lent_piece("a short buffer is still short", [], PIECE_ROOM - 1, 1, X[0])
net("6,069 bytes are the limit", LARGEST)
jobs("its jobs run, with h = 0", ran(0, 0, 0, 0, 0, "", ""))
net("a net of one byte more", LARGEST + b"\n", 11)
unread("no line of jobs", X[0])
net("a net whose nine lines end with CR and byte 10: 198 bytes are no multiple of 21", WORKED.replace(b"\n", b"\r\n"), 11)
net("a net whose 21 lines end so: 462 bytes, and line 1 lacks its byte 10", TWENTY_ONE.replace(b"\n", b"\r\n"), 12, 1)
net("a net without its last byte 10", WORKED[:-1], 11)
net("a net with an empty line after it", WORKED + b"\n", 11)
net("a net in whose place the jobs stand", X[0], 13, 1)
net("line 5 with a tab", with_line(5, b"   2\t  4   1   0   0\n"), 12, 5)
net("a header of edition 2", with_line(1, line(1, 4, 4, 1, 2)), 13, 1)
net("one line too few", b"".join(LINES[:-1]), 14)
net("a vertex of role 3 on line 4", with_line(4, line(2, 3, 3, 0, 0)), 15, 4)
net("an edge of form 4 on line 9", with_line(9, line(3, 4, 1, 4, 103)), 16, 9)
net("a form 3 edge without its partner on line 8", with_line(8, line(3, 3, 4, 3, 11)), 21, 8)
net("thirteen key nodes, 3 to 15: the thirteenth is named, and h is 0", sheet(
    1, [ZERO, ONE] + [STORAGE] * 13 + [OUTPUT], inverter(3, letter(1)) + [edge for y in range(4, 17) for edge in inverter(y, vertex(y - 1))]), 22, 15)
unread("after 22 no line of jobs", X[0])
net("a component with nine signals, eight letters and vertex 3: h is 0", sheet(
    8, [ZERO, ONE, STORAGE], [(3, 1, N, letter(j)) for j in range(1, 9)] + [(2, 3, P, vertex(3))]), 23, 3)
unread("after 23 no line of jobs", X[0])

if __name__ == "__main__":
    store("report_cases")
