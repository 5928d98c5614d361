#!/usr/bin/env python3
"""Cases for settling and for batches, with the answers that document 01 and the report ask for.

Each case has a note: the report's row or sentence, or document 01's, that its answer follows from. Running this file writes the input and the
expected output of the test program `settle_cases`. The expected answers are worked out here by hand; settle_model.py then works each of them out
from the definitions, and a difference stops the run. None is taken from the program.

The kinds of cases, and what the program prints for each before the note:
  N  a sheet, kept for the cases that follow it: the reader's number and place;
  S  settling: number, place, both step counts, r, t; the buffers whole, a character a byte;
  B  a batch: number, place, the result buffer whole, a character a byte, and the answer buffer whole, four columns a byte;
  T  a batch: number and place alone, for the benchmark.
A buffer holds bytes 9 before the call, so that a 9 is a byte left alone. The byte of an unknown is printed as X.

The five numbers of a case are the old input state, the new one, the start, the size of the first buffer and the size of the second; its data are a
sheet or jobs. States are written here as in the papers, the first letter or key node first, or as numbers where they are
no states. The two bench examples on the NOR gate's inner vertex ask for an excitation, and stand in verdict_cases.py.
"""
import settle_model
from case_files import LARGEST, case, store
from sheets import *

UNTOUCHED = settle_model.UNTOUCHED
NET = None  # the model of the sheet in force


def net(note, data, refusal=0, place=0):
    global NET
    NET = None if refusal else settle_model.Net(data)
    case(b"N", field(refusal) + field(place), note, data=data)


def settling(answer, old, new, start, note):
    sizes = len(answer[4]), len(answer[5])
    asked = number(old), number(new), number(start)
    model = settle_model.settle(NET, *asked, *sizes)
    assert answer == model, (note, answer, model)
    shown = b"".join(field(n) for n in answer[:4]) + " {} {}".format(*answer[4:]).encode()
    case(b"S", shown, note, asked + sizes)


def settles(old, new, start, r, first, t, second, note):
    """r in so many first steps, then t in so many second ones; each is its buffer whole."""
    settling((0, 0, first, second, r, t), old, new, start, note)


def refuses(refusal, old, new, start, note, sizes, place=0):
    settling((refusal, place, 0, 0, UNTOUCHED * sizes[0], UNTOUCHED * sizes[1]), old, new, start, note)


def batch(answer, jobs, note):
    sizes = len(answer[2]), len(answer[3])
    model = settle_model.batch(NET, jobs, *sizes)
    assert answer == model, (note, answer, model)
    shown = field(answer[0]) + field(answer[1]) + (" %s " % answer[2]).encode() + b"".join(field(n) for n in answer[3])
    case(b"B", shown, note, (0, 0, 0) + sizes, jobs)


def runs(jobs, note, results_tail="", answers_tail=0):
    """Jobs by their bytes, their own result bytes and their three answer bytes, each with its reason."""
    results = "".join(own for _, own, _, _ in jobs) + results_tail
    answers = [n for _, _, three, _ in jobs for n in three] + [int(UNTOUCHED)] * answers_tail
    batch((0, 0, results, answers), b"".join(j for j, _, _, _ in jobs), note)


def refuses_all(refusal, jobs, note, sizes, place=0):
    batch((refusal, place, UNTOUCHED * sizes[0], [int(UNTOUCHED)] * sizes[1]), jobs, note)


# Document 01's worked net: y = (a y)'. Its four jobs, first one by one, then as a batch.

FOUR = [
    (job("0", "1", "1"), "XX", (0, 1, 0), "at a X the gate gives (X 1)' = X, and at a 1 it gives (1 X)' = X"),
    (job("0", "0", "1"), "11", (0, 0, 0), "nothing changes: (0 1)' = 1"),
    (job("1", "0", "1"), "99", (44, 0, 0), "at a 1 the gate gives (1 1)' = 0: not stable"),
    (job(2, "0", "1"), "99", (42, 0, 0), "one letter: input states 0 and 1"),
]

net("document 01's net of the program `settle`: letter a, key node 3", WORKED)
settles("0", "1", "1", "X", 1, "X", 0, "job 1 of document 01: X in 1 step, X in 0")
settles("0", "0", "1", "1", 0, "1", 0, "job 2 of document 01: 1 in 0 steps, 1 in 0")
refuses(44, "1", "0", "1", "job 3 of document 01: 44", (1, 1))
refuses(42, 2, "0", "1", "job 4 of document 01: 42", (1, 1))
settles("0", "1", "1", "X9", 1, "X", 0, "settling writes h bytes to each buffer and nothing beyond: a longer first buffer")
settles("0", "1", "1", "X", 1, "X999", 0, "a longer second buffer")
runs(FOUR, "the four jobs of document 01 as a batch: r then t in each job's own 2h bytes")
runs(FOUR, "the same in longer buffers: their tails stay", results_tail="999", answers_tail=2)

# The report's three NANDs: y1 = (a y2)', y2 = (y1 y3)', y3 = (y2 b)'.

NANDS = [
    (job("11", "00", "010"), "XXX101", (0, 2, 2), "section 6, algorithms A and B, first example"),
    (job("10", "01", "011"), "XXX1XX", (0, 2, 1), "section 6, algorithms A and B, second example"),
]

net("three NANDs, figure 6.2: letters a b, key nodes y1 3, y2 4, y3 5", THREE_NANDS)
settles("11", "00", "010", "XXX", 2, "101", 2, "section 6: r from 010 by X1X to XXX, t from XXX by 1X1 to 101")
settles("10", "01", "011", "XXX", 2, "1XX", 1, "section 6: r from 011 by X1X to XXX, t from XXX to 1XX")
settles("11", "11", "010", "010", 0, "010", 0, "section 6: 11 with 010 is stable, and nothing changes")
settles("00", "00", "101", "101", 0, "101", 0, "section 6: the network ends up in the stable key state 101")
refuses(44, "01", "01", "100", "section 6: 100 lies on the cycle of figure 6.4", (3, 3))
refuses(44, "00", "00", "010", "section 6: under 00 only 101 is stable", (3, 3))
runs(NANDS, "both examples as a batch")

# The same with the loops cut: letters u1, u2, u3 stand where the gates had y1, y2, y3, so the first pass is one application of H, and each line of the
# report's traces can be seen. Letters in the order a b u1 u2 u3.

net("the three NANDs with the loops cut: letters a b u1 u2 u3, y1 = (a u2)', y2 = (u1 u3)', y3 = (u2 b)', each with an inverter to make it a key node", sheet(
    5, [ZERO, ONE] + [STORAGE] * 6 + [OUTPUT] * 3,
    nand(3, 6, letter(1), letter(4)) + nand(4, 7, letter(3), letter(5)) + nand(5, 8, letter(4), letter(2))
    + inverter(9, vertex(3)) + inverter(10, vertex(4)) + inverter(11, vertex(5))))
settles("11010", "00010", "010", "X1X", 1, "111", 1, "first example, A (3): H(XX, 010) = X1X; then H(00, 010) = 111")
settles("11010", "00111", "010", "XXX", 1, "101", 1, "A (5): H(XX, X1X) = XXX; then H(00, 111) = 101")
settles("11010", "00101", "010", "XXX", 1, "101", 1, "A (7): H(XX, XXX) = XXX; then H(00, 101) = 101")
settles("00010", "00101", "111", "1X1", 1, "101", 1, "B (2): H(00, XXX) = 1X1; then H(00, 101) = 101")
settles("00101", "00111", "101", "101", 0, "101", 0, "B (4): H(00, 1X1) = 101, where the start is already; then H(00, 111) = 101")
settles("00101", "00101", "101", "101", 0, "101", 0, "B (6): H(00, 101) = 101")
settles("10011", "01011", "011", "X1X", 1, "110", 1, "second example, A (3): H(XX, 011) = X1X; then H(01, 011) = 110")
settles("10011", "01110", "011", "XXX", 1, "110", 1, "A (5): H(XX, X1X) = XXX; then H(01, 110) = 110")
settles("10011", "01100", "011", "XXX", 1, "111", 1, "A (7): H(XX, XXX) = XXX; then H(01, 100) = 111")
settles("01011", "01100", "110", "1XX", 1, "111", 1, "B (2): H(01, XXX) = 1XX; then H(01, 100) = 111")
settles("01101", "01110", "101", "1XX", 1, "110", 1, "B (4): H(01, 1XX) = 1XX; then H(01, 110) = 110")

# Figure 6.5: the NAND of two letters x, y. A pair of input states gives each entry of the table; the second pass then gives the entry of the new state.

net("a NAND of letters x y: key node 3, inner vertex 4, output 5", sheet(
    2, [ZERO, ONE, STORAGE, STORAGE, OUTPUT], nand(3, 4, letter(1), letter(2)) + inverter(5, vertex(3))))
settles("00", "00", "1", "1", 0, "1", 0, "figure 6.5: N(0, 0) = 1")
settles("00", "10", "1", "1", 0, "1", 0, "figure 6.5: N(X, 0) = 1; N(1, 0) = 1")
settles("10", "00", "1", "1", 0, "1", 0, "figure 6.5: N(X, 0) = 1; N(0, 0) = 1")
settles("10", "10", "1", "1", 0, "1", 0, "figure 6.5: N(1, 0) = 1")
settles("00", "01", "1", "1", 0, "1", 0, "figure 6.5: N(0, X) = 1; N(0, 1) = 1")
settles("01", "00", "1", "1", 0, "1", 0, "figure 6.5: N(0, X) = 1; N(0, 0) = 1")
settles("00", "11", "1", "X", 1, "0", 1, "figure 6.5: N(X, X) = X; N(1, 1) = 0")
settles("11", "00", "0", "X", 1, "1", 1, "figure 6.5: N(X, X) = X; N(0, 0) = 1")
settles("10", "01", "1", "X", 1, "1", 1, "figure 6.5: N(X, X) = X; N(0, 1) = 1, as before the change")
settles("01", "10", "1", "X", 1, "1", 1, "figure 6.5: N(X, X) = X; N(1, 0) = 1, as before the change")
settles("10", "11", "1", "X", 1, "0", 1, "figure 6.5: N(1, X) = X; N(1, 1) = 0")
settles("11", "10", "0", "X", 1, "1", 1, "figure 6.5: N(1, X) = X; N(1, 0) = 1")
settles("01", "01", "1", "1", 0, "1", 0, "figure 6.5: N(0, 1) = 1")
settles("01", "11", "1", "X", 1, "0", 1, "figure 6.5: N(X, 1) = X; N(1, 1) = 0")
settles("11", "01", "0", "X", 1, "1", 1, "figure 6.5: N(X, 1) = X; N(0, 1) = 1")
settles("11", "11", "0", "0", 0, "0", 0, "figure 6.5: N(1, 1) = 0")

# Figure 6.6: y1 = (ab)', y2 = (y1 y3)', y3 = y2'.

net("pessimism, figure 6.6: letters a b, key nodes y1 3, y2 4, y3 5", PESSIMISM)
settles("01", "10", "101", "XXX", 3, "1XX", 1, "section 6: outputs XXX and 1XX; r by X01 and XX1, then N(1, 0) = 1 holds y1 alone")
settles("01", "01", "101", "101", 0, "101", 0, "section 6: stable at a 0 b 1")
settles("10", "10", "101", "101", 0, "101", 0, "section 6: stable at a 1 b 0")
settles("01", "00", "101", "101", 0, "101", 0, "only b changes: N(0, X) = 1, and nothing follows")

# The report's NOR latch: Q bar = (S + Q)', Q = (R + Q bar)'. The five stable states of example 3.1, to each input state. The NOR of X and 1 is 0; of X and
# 0, and of X and X, it is X.

TRANSITIONS = [
    # S R 00, Q bar Q 01
    ("00", "00", "01", "01", 0, "01", 0, "row 1 of example 3.1: stable"),
    ("00", "10", "01", "01", 0, "01", 0, "row 1 to row 4: Q 1 holds Q bar at 0"),
    ("00", "01", "01", "XX", 2, "10", 2, "row 1 to row 3: r by 0X, t by X0"),
    ("00", "11", "01", "XX", 2, "00", 1, "row 1 to row 5: r by 0X, then S and R pull both to 0"),
    # S R 00, Q bar Q 10
    ("00", "00", "10", "10", 0, "10", 0, "row 2 of example 3.1: stable"),
    ("00", "01", "10", "10", 0, "10", 0, "row 2 to row 3: Q bar 1 holds Q at 0"),
    ("00", "10", "10", "XX", 2, "01", 2, "row 2 to row 4: r by X0, t by 0X"),
    ("00", "11", "10", "XX", 2, "00", 1, "row 2 to row 5: r by X0"),
    # S R 01, Q bar Q 10
    ("01", "01", "10", "10", 0, "10", 0, "row 3 of example 3.1: stable"),
    ("01", "00", "10", "10", 0, "10", 0, "row 3 to row 2: Q bar 1 holds Q at 0"),
    ("01", "11", "10", "X0", 1, "00", 1, "row 3 to row 5: R 1 holds Q at 0"),
    ("01", "10", "10", "XX", 2, "01", 2, "row 3 to row 4, both inputs change: r by X0, t by 0X"),
    # S R 10, Q bar Q 01
    ("10", "10", "01", "01", 0, "01", 0, "row 4 of example 3.1: stable"),
    ("10", "00", "01", "01", 0, "01", 0, "row 4 to row 1, the bench example of document 01: 01 and 01, 0 steps each"),
    ("10", "11", "01", "0X", 1, "00", 1, "row 4 to row 5: S 1 holds Q bar at 0"),
    ("10", "01", "01", "XX", 2, "10", 2, "row 4 to row 3, both inputs change: r by 0X, t by X0"),
    # S R 11, Q bar Q 00
    ("11", "11", "00", "00", 0, "00", 0, "row 5 of example 3.1: stable"),
    ("11", "10", "00", "0X", 1, "01", 1, "row 5 to row 4: S 1 holds Q bar at 0, and Q becomes 1"),
    ("11", "01", "00", "X0", 1, "10", 1, "row 5 to row 3: R 1 holds Q at 0, and Q bar becomes 1"),
    ("11", "00", "00", "XX", 1, "XX", 0, "the bench example of document 01: XX in 1, XX in 0; example 5.1: not deterministic"),
]
TWENTY = [(job(old, new, start), r + t, (0, first, second), note) for old, new, start, r, first, t, second, note in TRANSITIONS]

net("NOR latch, figure 3.2: letters S R, key nodes Q bar 3 and Q 4", NOR_LATCH)
for transition in TRANSITIONS:
    settles(*transition)
refuses(44, "00", "00", "00", "example 3.1 has no such row: both key nodes go to 1", (2, 2))
refuses(44, "00", "10", "11", "example 3.1 has no such row: both key nodes go to 0", (2, 2))
refuses(44, "10", "00", "00", "example 3.1 has no such row: Q goes to 1", (2, 2))
refuses(44, "01", "01", "01", "example 3.1 has no such row: R 1 pulls Q to 0", (2, 2))
runs(TWENTY, "these twenty as a batch")

# Settling does not need C2 or C3.

net("the NOR latch, and vertex 7 joined to 0 under Q hat and to 1 under Q bar hat", sheet(
    2, STORED + [STORAGE], LATCH + [(1, 7, P, vertex(4)), (7, 2, P, vertex(3))]))
settles("11", "10", "00", "0X", 1, "01", 1, "C2 is broken in row 5, where 7 is joined to 0 and to 1; the latch settles as before")
net("the NOR latch with y2 as an output", sheet(2, STORED[:5] + [OUTPUT], LATCH))
settles("11", "01", "00", "X0", 1, "10", 1, "C3 is broken in row 5, where y2 is 2; the latch settles as before")
runs(TWENTY[-4:], "the last four of the twenty, as a batch")

# The report's other networks.

net("oscillator, figure 3.4(a): key node and output 3", OSCILLATOR)
refuses(44, 0, 0, "0", "section 3: no stable states", (1, 1))
refuses(44, 0, 0, "1", "section 3: no stable states", (1, 1))
refuses(42, 0, 1, "0", "without letters the one input state is 0", (1, 1))

net("selector, figure 4.1: letters a b c, key node y2 3, which is excited to b if a = 0 and to c if a = 1", SELECTOR)
settles("011", "111", "1", "1", 0, "1", 0, "example 4.1: b and c are both 1, so a does not matter")
settles("000", "100", "0", "0", 0, "0", 0, "example 4.1: b and c are both 0")
settles("010", "110", "1", "X", 1, "0", 1, "example 4.1: from b 1 to c 0")
settles("001", "101", "0", "X", 1, "1", 1, "example 4.1: from b 0 to c 1")
settles("010", "011", "1", "1", 0, "1", 0, "example 4.1: at a 0 the letter c does not matter")
settles("011", "100", "1", "X", 1, "0", 1, "example 4.1: all change; c is 0 at the end")

net("D flip-flop, figure 4.2: letters c D, key nodes y 3 and Q bar 4; Q 5", FLIP_FLOP)
settles("11", "01", "10", "10", 0, "10", 0, "example 4.2: c falls with D 1; D and (Q bar)' are both 1 all the while")
settles("10", "00", "01", "01", 0, "01", 0, "example 4.2: c falls with D 0")
settles("00", "01", "01", "01", 0, "01", 0, "example 4.2: at c 0 the letter D does not matter")
settles("01", "11", "01", "XX", 2, "10", 2, "example 4.2: c rises with D 1 on a stored 0; r by X1, t by 1X")
settles("10", "11", "01", "XX", 2, "10", 2, "example 4.2: D rises at c 1; r by X1, t by 1X")
settles("11", "00", "10", "XX", 2, "XX", 0, "example 4.2: D falls as c falls; r by X0, and at c 0 the loop keeps what it got")

# The trap of document 01: X must not be worked through a formula gate by gate. For (ab + a'b)' at a X, b 1 both completions give 0.

net("(ab + a'b)' of letters a b: key node 3, output 4; the edges of a' are primed", sheet(
    2, [ZERO, ONE, STORAGE, OUTPUT, STORAGE, STORAGE, STORAGE],
    [(3, 5, N, letter(1)), (5, 1, N, letter(2))] + pass_off(3, 6, letter(1)) + [(6, 1, N, letter(2))]
    + [(2, 7, P, letter(1)), (2, 7, P, letter(2))] + pass_on(7, 3, letter(1)) + [(7, 3, P, letter(2))] + inverter(4, vertex(3))))
settles("01", "11", "0", "0", 0, "0", 0, "a trap of document 01: at a X, b 1 every completion gives 0")
settles("11", "01", "0", "0", 0, "0", 0, "the same from a 1 to a 0")
settles("00", "10", "1", "1", 0, "1", 0, "at a X, b 0 every completion gives 1")
settles("01", "10", "0", "X", 1, "1", 1, "both change: at b X the completions differ")

net("the same with a' as a key node: 3 = a', 4 = (ab + 3 b)', output 5", sheet(
    2, [ZERO, ONE, STORAGE, STORAGE, OUTPUT, STORAGE, STORAGE, STORAGE],
    inverter(3, letter(1)) + [(4, 6, N, letter(1)), (6, 1, N, letter(2)), (4, 7, N, vertex(3)), (7, 1, N, letter(2))]
    + [(2, 8, P, letter(1)), (2, 8, P, letter(2)), (8, 4, P, vertex(3)), (8, 4, P, letter(2))] + inverter(5, vertex(4))))
settles("01", "11", "10", "XX", 2, "00", 1, "completions are of signals, and 3 is one of its own: r by X0, as 1 b held 4 at 0; then a b holds 4 at 0")
settles("11", "01", "00", "XX", 1, "10", 2, "back: 3 is still 0 as a becomes X, so 4 has nothing that holds it; t by 1X")

# Key nodes are numbered in vertex order, whatever drives them and whatever lies between.

net("key nodes 4 = a' and 6 = 4', between other vertices", sheet(
    1, [ZERO, ONE, OUTPUT, STORAGE, OUTPUT, STORAGE], inverter(4, letter(1)) + inverter(6, vertex(4)) + inverter(3, vertex(6)) + inverter(5, vertex(4))))
settles("0", "1", "10", "XX", 2, "01", 2, "r by X0, t by 0X: 4 is key node 1 and 6 key node 2")
net("key nodes 3 = 4' and 4 = a': the second drives the first", sheet(
    1, [ZERO, ONE, STORAGE, STORAGE, OUTPUT], inverter(3, vertex(4)) + inverter(4, letter(1)) + inverter(5, vertex(3))))
settles("0", "1", "01", "XX", 2, "10", 2, "r by 0X, t by X0")
net("key node 4 is the symbol only of an edge between two input vertices, beside key node 3 = a'", sheet(
    1, [ZERO, ONE, STORAGE, STORAGE, OUTPUT, ZERO],
    inverter(3, letter(1)) + inverter(4, letter(1)) + inverter(5, vertex(3)) + [(1, 6, N, vertex(4))]))
settles("0", "1", "11", "XX", 1, "00", 1, "a key node is a storage vertex that is some edge's symbol, of any edge")

# The largest counts: twelve key nodes, eight letters, eight signals.


def gate_of_letters(y, count, inner):
    """y is the NAND of the first letters; the n edges go through the inner vertices."""
    vertices = [y] + inner + [1]
    return [(2, y, P, letter(j + 1)) for j in range(count)] + [(vertices[j], vertices[j + 1], N, letter(j + 1)) for j in range(count)]


CHAIN = gate_of_letters(3, 8, list(range(16, 23))) + [edge for y in range(4, 16) for edge in inverter(y, vertex(y - 1))]
TWELVE = "XXXXXXXXXXXX"
ALTERNATING = ["101010101010", "010101010101"]

net("twelve key nodes, 3 to 14: the NAND of all eight letters, and each of the others the inverse of the one before; output 15", sheet(
    8, [ZERO, ONE] + [STORAGE] * 12 + [OUTPUT] + [STORAGE] * 7, CHAIN))
settles("00000000", "11111111", ALTERNATING[0], TWELVE, 12, ALTERNATING[1], 12, "every letter changes: the X goes down the chain a key node a step, and then the 0 or 1")
settles("11111111", "00000000", ALTERNATING[1], TWELVE, 12, ALTERNATING[0], 12, "and back")
settles("11111110", "11111111", ALTERNATING[0], TWELVE + "9", 12, ALTERNATING[1] + "9999", 12, "one letter is enough; longer buffers")
settles("00000001", "11111110", ALTERNATING[0], TWELVE, 12, ALTERNATING[0], 12, "no letter stays and the end is the start: X while the letters change, as all of them may be 1")
settles("01111111", "00000000", ALTERNATING[0], ALTERNATING[0], 0, ALTERNATING[0], 0, "a letter that stays 0 holds the gate")
refuses(45, "00000000", "11111111", ALTERNATING[0], "a buffer of h - 1 bytes gives 45: the first", (11, 12))
refuses(45, "00000000", "11111111", ALTERNATING[0], "a buffer of h - 1 bytes gives 45: the second", (12, 11))
refuses(42, 256, "11111111", ALTERNATING[0], "2^8 is no input state", (12, 12))
refuses(43, "00000000", "11111111", 4096, "2^12 is no key state", (12, 12))
refuses(44, "11111111", "11111111", "111111111111", "the last states of all, not stable", (12, 12))
runs([
    (job("00000000", "11111111", ALTERNATING[0]), TWELVE + ALTERNATING[1], (0, 12, 12), "as above"),
    (job("11111111", "00000000", ALTERNATING[0]), UNTOUCHED * 24, (44, 0, 0), "3 goes to 0: not stable"),
    (job("11111111", "00000000", ALTERNATING[1]), TWELVE + ALTERNATING[0], (0, 12, 12), "as above"),
], "three of them as a batch: 24 bytes a job", results_tail="9", answers_tail=1)

net("thirteen key nodes, 3 to 15, each the inverse of the one before", sheet(
    1, [ZERO, ONE] + [STORAGE] * 13 + [OUTPUT], inverter(3, letter(1)) + [edge for y in range(4, 17) for edge in inverter(y, vertex(y - 1))]), 22, 15)
refuses(41, "0", "1", 0, "a refused sheet gives the empty record", (13, 13))
net("a NAND of seven letters and of itself: eight signals, key node 3", sheet(
    7, [ZERO, ONE, STORAGE] + [STORAGE] * 7,
    gate_of_letters(3, 7, list(range(4, 10)))[:-1] + [(9, 10, N, letter(7)), (10, 1, N, vertex(3)), (2, 3, P, vertex(3))]))
settles("0000000", "1111111", "1", "X", 1, "X", 0, "as in the worked net: X, and X")
settles("0111111", "0000000", "1", "1", 0, "1", 0, "a letter that stays 0 holds the gate at 1")
net("a NAND of eight letters and of itself: nine signals", sheet(
    8, [ZERO, ONE, STORAGE] + [STORAGE] * 8,
    gate_of_letters(3, 8, list(range(4, 11)))[:-1] + [(10, 11, N, letter(8)), (11, 1, N, vertex(3)), (2, 3, P, vertex(3))]), 23, 3)
refuses(41, 0, 0, 0, "a refused sheet gives the empty record", (1, 1))

# No key node: with h = 0 settling writes nothing.

net("NOR gate, figure 2.2: letters a b, no key node", NOR_GATE)
settles("00", "11", 0, "", 0, "", 0, "with h = 0 settling writes nothing, and buffers of no bytes are long enough")
settles("10", "01", 0, "99", 0, "9", 0, "the same with longer buffers")
refuses(42, 4, "00", 0, "2^2 is no input state", (0, 0))
refuses(43, "00", "11", 1, "2^0 is no key state", (0, 0))
runs([
    (job("00", "11", 0), "", (0, 0, 0), "nothing to write but the answer"),
    (job("00", "11", 1), "", (43, 0, 0), "2^0 is no key state"),
    (b"\n", "", (46, 0, 0), "a short last piece"),
], "a batch with h = 0: no result bytes", answers_tail=1)
refuses_all(45, job("00", "11", 0), "a batch with h = 0 still needs three answer bytes a job", (0, 2))
net("tally network, figure 4.3: letters a b, no key node", TALLY)
settles("00", "11", 0, "", 0, "9", 0, "nothing is written")
net("one vertex, no letter, no edge", sheet(0, [ZERO], []))
settles(0, 0, 0, "9", 0, "9", 0, "the one state is stable")
refuses(42, 0, 1, 0, "2^0 is no input state", (1, 1))

# The rows of settling in order: 41, 31, 42, 43, 45, 44. Each is tried with all later ones wrong too.

net("no bytes", b"", 11, 0)
refuses(41, LARGEST, LARGEST, LARGEST, "41 first", (0, 0))
refuses(41, 0, 0, 0, "41 alone", (2, 2))
net("figure 3.4(c): letters a b c, key nodes y1 3 and y2 4", NOT_WELL_FORMED)
refuses(31, 8, 8, 4, "31 before 42, 43 and 45; section 3: y2 violates C1", (0, 0), place=4)
refuses(31, "000", "000", "10", "31 alone, though the start is stable", (2, 2), place=4)
net("figure 4.4: letter a, key nodes y1 3, y2 4, y3 5", TEMPORARY_FIGHT)
refuses(31, "1", "1", "010", "31 alone; example 4.4: y3 is 2 for a while, though the start is stable", (3, 3), place=5)
net("key node 3 floats at a 1", sheet(1, [ZERO, ONE, STORAGE, OUTPUT], [(2, 3, P, letter(1))] + inverter(4, vertex(3))))
refuses(31, "0", "0", "1", "31: no key node is ever excited to 3 either", (1, 1), place=3)
net("document 01's net again", WORKED)
refuses(42, 2, 1, 2, "42 for the old state, before 43 and 45", (0, 0))
refuses(42, 1, 2, 2, "42 for the new state, before 43 and 45", (0, 0))
refuses(42, 2, 2, 1, "42 for both, before 44", (1, 1))
refuses(43, 1, 0, 2, "43 before 45", (0, 0))
refuses(43, 1, 0, 2, "43 alone", (1, 1))
refuses(45, 1, 0, 1, "45 before 44: the first buffer", (0, 1))
refuses(45, 1, 0, 1, "45 before 44: the second buffer", (1, 0))
refuses(45, 0, 1, 1, "45 alone: both buffers", (0, 0))
refuses(44, 1, 0, 1, "44 last", (1, 1))
refuses(44, 0, 0, 0, "at a 0 the key node goes to 1", (4, 3))
for wrong in (256, 65536, LARGEST):
    refuses(42, wrong, 0, 1, "the old state %d, whose low bits may be an input state's" % wrong, (1, 1))
    refuses(42, 0, wrong, 1, "the new state %d" % wrong, (1, 1))
    refuses(43, 0, 1, wrong, "the start %d" % wrong, (1, 1))

# The rows of a batch in order: 41, 31, 45, and then for each job 46, 42, 43, 44.

EVERY = [
    (job(0, 1, 1), "XX", (0, 1, 0), "a job that runs"),
    (line(5, 0, 1, 1, 0), "99", (46, 0, 0), "the first field is not 4"),
    (line(4, 0, 1, 1, 1), "99", (46, 0, 0), "the last field is not 0"),
    (b"   4  00   1   1   0\n", "99", (46, 0, 0), "a leading zero"),
    (b"   4       1   1   0\n", "99", (46, 0, 0), "a field of blanks"),
    (b"   4   0  -1   1   0\n", "99", (46, 0, 0), "a sign"),
    (b"   4   0   1   1   0 ", "99", (46, 0, 0), "the line does not end with byte 10"),
    (line(5, 2, 2, 2, 0), "99", (46, 0, 0), "46 before 42 and 43"),
    (job(2, 0, 1), "99", (42, 0, 0), "the old state"),
    (job(0, 2, 1), "99", (42, 0, 0), "the new state"),
    (job(9999, 9999, 9999), "99", (42, 0, 0), "42 before 43"),
    (job(1, 1, 9999), "99", (43, 0, 0), "43"),
    (job(1, 0, 1), "99", (44, 0, 0), "not stable"),
    (job(0, 0, 1), "11", (0, 0, 0), "a later job runs"),
    (b"   4   0   1   1   0", "99", (46, 0, 0), "a short last piece is a job too: all but its byte 10"),
]

runs(EVERY, "jobs of every refusal in one batch: their 2h bytes stay, their three bytes are the number, 0 and 0, and the later jobs run")
runs([(b"4", "99", (46, 0, 0), "a short last piece")], "one byte is a job", results_tail="9", answers_tail=3)
runs([(job(0, 1, 1), "XX", (0, 1, 0), "a job that runs"), (b"\n", "99", (46, 0, 0), "a short last piece")], "one byte after a full job is one more job")
batch((0, 0, "", []), b"", "an empty batch answers 0 and needs no bytes")
batch((0, 0, "999", [9, 9]), b"", "an empty batch writes nothing")
refuses_all(45, job(0, 1, 1) * 3, "45: one result byte too few", (5, 9))
refuses_all(45, job(0, 1, 1) * 3, "45: one answer byte too few", (6, 8))
refuses_all(45, job(0, 1, 1) * 3 + b"4", "45 counts a short last piece too", (6, 9))
refuses_all(45, job(2, 2, 2), "45 before any job is looked at", (1, 3))
refuses_all(45, b"4", "45 for a lone short piece without room", (2, 0))
runs([(job(0, 1, 1), "XX", (0, 1, 0), "a job that runs")] * 3, "just enough bytes in both buffers")
net("figure 3.4(c) again", NOT_WELL_FORMED)
refuses_all(31, job("000", "000", "10"), "31 before 45", (3, 2), place=4)
refuses_all(31, b"", "31 for an empty batch too", (1, 1), place=4)
net("no bytes", b"", 11, 0)
refuses_all(41, job(0, 0, 0), "41 before 45", (0, 0))
refuses_all(41, b"", "41 for an empty batch too", (1, 1))
refuses_all(41, job(0, 0, 0), "41 with room enough", (2, 3))

if __name__ == "__main__":
    store("settle_cases")
