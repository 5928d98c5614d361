#!/usr/bin/env python3
"""Cases for the verdict, for the number of key nodes and for the excitation of one vertex, with the answers that documents 01 and 02 and the report ask for.

Each case has a note: the report's row or sentence, or a document's, that its answer follows from. Where the report says 2 of a vertex connected to both
values, document 02, C-15, has 5. Running this file writes the input and the
expected output of the test program `verdict_cases`. The expected answers are worked out here by hand; settle_model.py then works each of them out from
the definitions, except the verdict on a net that has too many states for it, and a difference stops the run. None is taken from the program.

The kinds of cases, and what the program prints for each before the note:
  N  a sheet, kept for the cases that follow it: the reader's number and place;
  V  the verdict: number and place;
  K  the number of key nodes: the number of the answer, and h;
  E  the excitation of one vertex: 0 and the value, or a number and 0;
  S  a state: the excitation of every vertex in order, one character each, a hyphen for an input vertex.

The numbers of a case are the input state, the key state and the vertex; its data are a sheet. The report's networks stand in sheets.py; the notes say which sentence of the report a sheet is made to satisfy.
"""
import settle_model
from case_files import LARGEST, case, store
from sheets import *

NET = None  # the model of the sheet in force; none under a refusal
MOST_SIGNALS = 14  # letters and key nodes together, for the model's verdict


def net(note, data, refusal=0, place=0):
    global NET
    NET = None if refusal else settle_model.Net(data)
    case(b"N", field(refusal) + field(place), note, data=data)


def verdict(refusal, place, note):
    if NET is None or NET.letters + len(NET.keys) <= MOST_SIGNALS:
        model = NET.verdict() if NET else (41, 0)
        assert (refusal, place) == model, (note, model)
    case(b"V", field(refusal) + field(place), note)


def key_nodes(refusal, count, note):
    model = (0, len(NET.keys)) if NET else (41, 0)
    assert (refusal, count) == model, (note, model)
    case(b"K", field(refusal) + field(count), note)


def excitation(refusal, value, note, asked_input, asked_key, asked_vertex):
    model = NET.excited(asked_input, asked_key, asked_vertex) if NET else (41, 0)
    assert (refusal, value) == model, (note, model)
    case(b"E", field(refusal) + field(value), note, (asked_input, asked_key, asked_vertex))


def state(characters, note, asked_input, asked_key=0):
    model = [NET.excited(asked_input, asked_key, y) for y in NET.roles]
    assert characters == "".join("-" if refusal else str(value) for refusal, value in model), (note, model)
    case(b"S", characters.encode(), note, (asked_input, asked_key))


# The report's networks.

net("NOR gate, figure 2.2: letters a b, output z 3, inner vertex y 4", NOR_GATE)
state("--11", "a 0 b 0: z = (a + b)' is 1; y has a p-connection to 1", 0)
state("--01", "a 1 b 0: z is 0; y is still joined to 1 by the upper p edge", 1)
state("--02", "a 0 b 1: z is 0; y has no connection to 1 and a mixed one to 0, so 2", 2)
state("--03", "a 1 b 1: z is 0; y is connected to nothing, it floats", 3)
excitation(0, 2, "the bench example of document 01: the inner vertex at a 0 b 1", 2, 0, 4)
excitation(0, 3, "the bench example of document 01: the inner vertex at a 1 b 1", 3, 0, 4)
verdict(0, 0, "z is always connected to 0 or to 1 but not to both, and y is neither key node nor output")
key_nodes(0, 0, "no storage vertex is a symbol: h is 0")
net("the NOR gate with y as an output too", sheet(2, [ZERO, ONE, OUTPUT, OUTPUT], GATE))
verdict(33, 4, "y is 2 at a 0 b 1; with no key node every state is stable")
net("figure 7.1(a): the NOR gate with its n edge under a always closed",
    sheet(2, [ZERO, ONE, OUTPUT, STORAGE], GATE[:2] + [(3, 1, N, 1)] + GATE[3:]))
excitation(0, 5, "section 7: for a = b = 0 the excitation of z is 2, from connections to both values: by C-15 5", 0, 0, 3)
state("--55", "the same with y, which is joined to z by a closed edge", 0)
verdict(32, 0, "at a = b = 0 z is joined to 1 and to 0: a fight, and 32 comes before the 33 of z at 5")
net("figure 7.1(b): the NOR gate with its p edge under a always open",
    sheet(2, [ZERO, ONE, OUTPUT, STORAGE], GATE[:1] + [(4, 3, P, 1)] + GATE[2:]))
excitation(0, 3, "section 7: for a = b = 0 z floats", 0, 0, 3)
state("--31", "the same with y, which is joined to 1 as before", 0)
state("--03", "section 7: a 0 b 1 comes first in the test sequence and gives z 0, as in the gate without the fault", 2)
state("--01", "a 1 b 0 is as before", 1)
verdict(0, 0, "C3 allows an output at 3")

net("NOR latch, figure 3.2: letters S R, key nodes and outputs Q bar 3 and Q 4, inner vertices y1 5 and y2 6", NOR_LATCH)
key_nodes(0, 2, "Q bar and Q are symbols, the inner vertices are not: h is 2")
state("--0111", "example 3.1, row 1: S 0 R 0, Q bar 0 Q 1, stable", 0, 2)
state("--1011", "example 3.1, row 2: S 0 R 0, Q bar 1 Q 0, stable", 0, 1)
state("--1013", "example 3.1, row 3: S 0 R 1, Q bar 1 Q 0, stable, y2 floats", 2, 1)
state("--0131", "example 3.1, row 4: S 1 R 0, Q bar 0 Q 1, stable, y1 floats", 1, 2)
state("--0022", "example 3.1, row 5: S 1 R 1, Q bar 0 Q 0, stable, y1 and y2 have a mixed connection to 0 alone", 3, 0)
state("--1111", "no row: S 0 R 0 from 00 both key nodes go to 1, not stable", 0, 0)
state("--0011", "no row: S 0 R 0 from 11 both key nodes go to 0, not stable; with 00 the oscillation of example 5.1", 0, 3)
state("--0121", "no row: S 1 R 0 from 00 Q goes to 1, not stable", 1, 0)
state("--0021", "no row: S 1 R 0 from 10 Q bar goes to 0, not stable", 1, 1)
state("--0031", "no row: S 1 R 0 from 11 both go to 0, not stable", 1, 3)
state("--1012", "no row: S 0 R 1 from 00 Q bar goes to 1, not stable", 2, 0)
state("--0012", "no row: S 0 R 1 from 01 Q goes to 0, not stable", 2, 2)
state("--0013", "no row: S 0 R 1 from 11 both go to 0, not stable", 2, 3)
state("--0023", "no row: S 1 R 1 from 10 Q bar goes to 0, not stable", 3, 1)
state("--0032", "no row: S 1 R 1 from 01 Q goes to 0, not stable", 3, 2)
state("--0033", "no row: S 1 R 1 from 11 both go to 0, not stable; example 5.1: the key nodes are 00 from anywhere", 3, 3)
verdict(0, 0, "after example 3.1: the graph of figure 3.2 is well formed; y1 and y2 may be 2, they are no outputs")
net("the NOR latch with y2 as an output", sheet(2, STORED[:5] + [OUTPUT], LATCH))
verdict(33, 6, "row 5 of example 3.1 is stable and has y2 at 2")
net("the NOR latch with y1 and y2 as outputs", sheet(2, STORED[:4] + [OUTPUT, OUTPUT], LATCH))
verdict(33, 5, "row 5 has both at 2: the lower one is named")
net("the NOR latch, and vertex 7 joined to 0 under Q and to 1 under Q bar", sheet(
    2, STORED + [STORAGE], LATCH + [(1, 7, N, vertex(4)), (7, 2, N, vertex(3))]))
state("--00115", "S 0 R 0, both at 1: vertex 7 is joined to 0 and to 1, a fight; not stable", 0, 3)
verdict(0, 0, "C2 is about stable states, and no row of example 3.1 has Q bar 1 and Q 1")
net("the NOR latch, and vertex 7 joined to 0 under Q hat and to 1 under Q bar hat", sheet(
    2, STORED + [STORAGE], LATCH + [(1, 7, P, vertex(4)), (7, 2, P, vertex(3))]))
state("--00225", "row 5, stable: vertex 7 is joined to 0 and to 1, weakly to 0; y1 and y2 stay at 2", 3, 0)
verdict(32, 0, "row 5 has Q bar 0 and Q 0: a fight in a stable state")
net("the NOR latch, and an edge under Q from the 0-vertex to the 1-vertex", sheet(2, STORED, LATCH + [(1, 2, N, vertex(4))]))
verdict(32, 0, "row 1 has Q 1: one edge can be a fight")

net("transmission gates, figure 2.3: letters a b, 3 carries b; output 4 by the gate of a, output 5 by the gate of a'", sheet(
    2, [ZERO, ONE, carries(2), OUTPUT, OUTPUT], pass_on(3, 4, letter(1)) + pass_off(3, 5, letter(1))))
state("---30", "a 0 b 0: the gate of a is open, that of a' passes the 0", 0)
state("---03", "a 1 b 0: the other way round", 1)
state("---31", "a 0 b 1: the gate of a' passes the 1", 2)
state("---13", "a 1 b 1: the gate of a passes the 1", 3)
verdict(0, 0, "both values are passed firmly, and an open gate leaves its vertex at 3")

net("multiplexer, figure 2.4: letters a b c, output z 3; 4 carries b and 5 carries c", MULTIPLEXER)
for letters, value in (("000", 0), ("100", 0), ("010", 0), ("110", 1), ("001", 1), ("101", 0), ("011", 1), ("111", 1)):
    state("--%d--" % value, "z = ab + a'c at abc %s" % letters, number(letters))
verdict(0, 0, "z is always b or c, by a transmission gate that carries both values firmly")

net("oscillator, figure 3.4(a): key node and output 3", OSCILLATOR)
state("--1", "key 0: the key node goes to 1, not stable", 0, 0)
state("--0", "key 1: the key node goes to 0, not stable", 0, 1)
verdict(0, 0, "section 3: well formed without any stable state; document 01: such a net meets C2 and C3")
excitation(42, 0, "row 42: without letters the one input state is 0", 1, 0, 3)

net("combinational network, figure 3.4(b): letters a b c, outputs z1 3 and z2 4, inner vertex 5", COMBINATIONAL)
state("--113", "z1 = (ab)', z2 = (ac)' at abc 000: 11; the inner vertex floats", 0)
state("--110", "abc 100: 11; the inner vertex is pulled to 0", 1)
state("--112", "abc 010: 11; the inner vertex has an n edge and then a p edge to 1, mixed", 2)
state("--010", "abc 110: 01", 3)
state("--112", "abc 001: 11; mixed", 4)
state("--100", "abc 101: 10", 5)
state("--112", "abc 011: 11; mixed twice", 6)
state("--000", "abc 111: 00", 7)
verdict(0, 0, "section 3: the graph of figure 3.4(b) is well formed")
excitation(43, 0, "row 43: without key nodes the one key state is 0", 0, 1, 3)

# Letters a b c, and what example 4.1 selects: b if a = 0, c if a = 1.
SELECTED = (("000", 0), ("100", 0), ("010", 1), ("110", 0), ("001", 0), ("101", 1), ("011", 1), ("111", 1))

net("figure 3.4(c): letters a b c, y1 3, y2 4, output 5; 6 carries b and 7 carries c", NOT_WELL_FORMED)
state("--121--", "a b c y1 y2 all 0: the excitation of y2 is 2, since both its connections to 0 are p-connections, not stable", 0, 0)
for letters, value in SELECTED:
    y1 = 1 - int(letters[0])
    state("--%d%d%d--" % (y1, value, 1 - value), "section 4: only while y1 has not followed a; at abc %s with y1 = a' y2 is clean, stable" % letters,
          number(letters), y1 + 2 * value)
verdict(31, 4, "section 3: not well formed, key node y2 violates C1; y1 is a' and clean")

net("selector, figure 4.1, the T-graph of figure 3.4(c): letters a b c, y2 3, output 4; 5 carries b and 6 carries c", SELECTOR)
for letters, value in SELECTED:
    state("--%d%d--" % (value, 1 - value), "y2 is excited to b if a = 0, to c if a = 1: abc %s, y2 at that value, stable" % letters, number(letters), value)
for letters, value in SELECTED:
    state("--%d%d--" % (value, value), "abc %s from y2 at the other value: not stable" % letters, number(letters), 1 - value)
verdict(0, 0, "example 4.1: well formed")

net("D flip-flop, figure 4.2: letters c D, y 3, Q bar 4, Q 5; 6 carries D", FLIP_FLOP)
state("--111-", "c 0 D 0, y 0 Q bar 0: y goes to (Q bar)', Q bar to y', not stable", 0, 0)
state("--101-", "c 0 D 0, y 1 Q bar 0: kept, stable", 0, 1)
state("--010-", "c 0 D 0, y 0 Q bar 1: kept, stable", 0, 2)
state("--000-", "c 0 D 0, y 1 Q bar 1: both go to 0, not stable", 0, 3)
state("--111-", "c 0 D 1, y 0 Q bar 0: D does not matter at c 0, not stable", 2, 0)
state("--101-", "c 0 D 1, y 1 Q bar 0: D does not matter at c 0, stable", 2, 1)
state("--010-", "c 0 D 1, y 0 Q bar 1: D does not matter at c 0, stable", 2, 2)
state("--000-", "c 0 D 1, y 1 Q bar 1: D does not matter at c 0, not stable", 2, 3)
state("--011-", "c 1 D 0, y 0 Q bar 0: y to D, Q bar to y', not stable", 1, 0)
state("--001-", "c 1 D 0, y 1 Q bar 0: y to D, not stable", 1, 1)
state("--010-", "c 1 D 0, y 0 Q bar 1: stable", 1, 2)
state("--000-", "c 1 D 0, y 1 Q bar 1: both go to 0, not stable", 1, 3)
state("--111-", "c 1 D 1, y 0 Q bar 0: both go to 1, not stable", 3, 0)
state("--101-", "c 1 D 1, y 1 Q bar 0: stable", 3, 1)
state("--110-", "c 1 D 1, y 0 Q bar 1: y to D, not stable", 3, 2)
state("--100-", "c 1 D 1, y 1 Q bar 1: Q bar to y', not stable", 3, 3)
verdict(0, 0, "example 4.2: evidently well formed")

net("tally network, figure 4.3: letters a b, inner vertices 3 and 4, outputs z0 5, z1 6, z2 7", TALLY)
state("--10100", "example 4.3: a 0 b 0, none is 1, z0", 0)
state("--01010", "example 4.3: a 1 b 0, one is 1, z1", 1)
state("--10010", "example 4.3: a 0 b 1, one is 1, z1", 2)
state("--01001", "example 4.3: a 1 b 1, two are 1, z2", 3)
verdict(0, 0, "example 4.3: well formed")

net("figure 4.4: letter a, y1 3, y2 4, y3 5, y4 6", TEMPORARY_FIGHT)
state("--0050", "example 4.4: a 1, y1 y2 y3 101, the excitation of y3 is 2, for a fight: 5; not stable", 1, 5)
state("--0150", "example 4.4: y1 has gone to 0, 001, the fight at y3 goes on, not stable", 1, 4)
state("--0100", "example 4.4: y2 has gone to 1, 011, the fight is over and y3 goes to 0, not stable", 1, 6)
state("--0101", "example 4.4: the state at which a 1 ends, y1 y2 y3 y4 0101, stable", 1, 2)
state("--1131", "a 0, y1 y2 y3 010: both edges of y3 are open, not stable", 0, 2)
verdict(31, 5, "example 4.4: rejected for a temporary fight, at y3")

def inner(upper, lower):
    """The vertex between the n edges of a NAND: 0 where the lower is closed; else mixed through the upper, or floating."""
    return "0" if lower == "1" else "2" if upper == "1" else "3"


def nands(a, b, y1, y2, y3):
    """Figure 6.2's excitation equations, and the inner vertices."""
    pairs = (a, y2), (y1, y3), (y2, b)
    return "--" + "".join("0" if pair == ("1", "1") else "1" for pair in pairs) + "".join(inner(*pair) for pair in pairs)


net("three NANDs, figure 6.2: letters a b, key nodes y1 3, y2 4, y3 5, inner vertices 6 7 8", THREE_NANDS)
state("--010030", "section 6: ab 11 with 010 is stable", 3, 2)
state("--011002", "section 6: ab 10 with 011 is stable", 1, 6)
state("--111032", "section 6: ab 00 from 010, all go to 1, not stable", 0, 2)
state("--101303", "section 6: ab 00 ends in 101, stable", 0, 5)
state("--110000", "section 6: ab 01 from 011, y1 and y3 are racing, not stable", 2, 6)
state("--101300", "section 6: ab 01 with 101, one of two stable key states", 2, 5)
state("--110020", "section 6: ab 01 with 110, the other one", 2, 3)
state("--111320", "section 6: ab 01 with 100, half of the oscillation, not stable", 2, 1)
state("--100000", "section 6: ab 01 with 111, the other half, not stable", 2, 7)
for letters in ("00", "10", "01", "11"):
    for keys in ("000", "100", "010", "110", "001", "101", "011", "111"):
        state(nands(*letters, *keys), "figure 6.2: (a y2)', (y1 y3)', (y2 b)' at ab %s from %s" % (letters, keys), number(letters), number(keys))
verdict(0, 0, "each gate is of the complementary design of figure 3.1, so proposition 3.3 holds")

net("pessimism, figure 6.6: letters a b, y1 = (ab)' 3, y2 = (y1 y3)' 4, y3 = y2' 5, inner vertices 6 7", PESSIMISM)
state("--10100", "section 6: a 0 b 1 with 101 is stable", 2, 5)
state("--10120", "section 6: a 1 b 0 with 101 is stable too", 1, 5)
state("--00100", "a 1 b 1 on the way pulls y1 to 0, the hazard that the ternary model sees, not stable", 3, 5)
verdict(0, 0, "gates of the complementary design: proposition 3.3")

# The counterexample to the converse half of proposition 3.2.

net("key node 1 with a p edge always closed to the 1-vertex 2, and a p edge under itself to the 0-vertex 3",
    sheet(0, [STORAGE, ONE, ZERO], [(1, 2, P, 0), (1, 3, P, vertex(1))]))
state("5--", "key 0: joined to 1 and, weakly, to 0: 5, though it has a p-path to 1 and no n-path to 0, not stable", 0, 0)
state("1--", "key 1: a p-connection to 1 alone, stable", 0, 1)
verdict(31, 1, "f0 is the complement of f1 here, yet C1 is broken: n-paths and p-paths alone do not decide it")

# Document 01: the worked net, the forms, the values; those of a fight by document 02, C-15.

net("document 01's net of the program `settle`: letter a, key node 3 = (a y)', inner vertex 4", WORKED)
state("--10", "a 0 with 1: stable, job 2 starts there", 0, 1)
state("--13", "a 0 with 0: the inner vertex floats, not stable", 0, 0)
state("--00", "a 1 with 1: not stable, job 3 gets 44", 1, 1)
state("--12", "a 1 with 0: not stable; an n edge and a p edge to 1 are a mixed connection", 1, 0)
verdict(0, 0, "the program prints 0 and place 0 for it")

net("the four forms under letter a: 3 by form 1 to 1, 4 by form 0 to 0, 5 by forms 2 and 1 to 0, 6 by forms 0 and 3 to 1", sheet(
    1, [ZERO, ONE, OUTPUT, OUTPUT, OUTPUT, OUTPUT],
    [(2, 3, P, letter(1)), (4, 1, N, letter(1))] + pass_off(1, 5, letter(1)) + pass_on(2, 6, letter(1))))
state("--1303", "a 0: forms 1 and 2 are closed, form 2 is of type n", 0)
state("--3031", "a 1: forms 0 and 3 are closed, form 3 is of type p", 1)
verdict(0, 0, "an output is 0, 1 or 3")

VALUES = [(3, 1, N, 1), (4, 1, P, 0), (5, 2, N, 1), (6, 2, P, 0), (7, 1, N, 1), (7, 1, P, 0), (8, 2, N, 1), (8, 2, P, 0), (9, 1, N, 1), (9, 2, P, 0),
          (10, 1, P, 0), (10, 2, N, 1), (11, 12, N, 1), (12, 2, P, 0), (13, 14, N, 1), (15, 1, N, 0), (15, 2, P, 1),
          (16, 17, N, 1), (16, 17, P, 0), (17, 2, P, 0), (18, 19, P, 0), (19, 1, N, 1)]

net("constant edges to the 0-vertex and to the 1-vertex", sheet(0, [ZERO, ONE] + [STORAGE] * 17, VALUES))
excitation(0, 0, "n to 0: 0", 0, 0, 3)
excitation(0, 2, "p to 0: a connection, but no firm one", 0, 0, 4)
excitation(0, 2, "n to 1: a path of n edges is no firm 1", 0, 0, 5)
excitation(0, 1, "p to 1: 1", 0, 0, 6)
excitation(0, 0, "n and p to 0: one n-connection is enough", 0, 0, 7)
excitation(0, 1, "n and p to 1: one p-connection is enough", 0, 0, 8)
excitation(0, 5, "n to 0 and p to 1: connections to both, both firm", 0, 0, 9)
excitation(0, 5, "p to 0 and n to 1: connections to both, both weak", 0, 0, 10)
excitation(0, 2, "n and then p to 1: mixed", 0, 0, 11)
excitation(0, 3, "joined only to a storage vertex that is joined to nothing", 0, 0, 13)
excitation(0, 3, "a form 0 edge under 0 and a form 1 edge under 1 are open", 0, 0, 15)
excitation(0, 1, "n and p side by side and then p to 1: there is a p-connection", 0, 0, 16)
excitation(0, 2, "p and then n to 0: mixed", 0, 0, 18)
state("--02210155213331120", "all of them", 0)
verdict(32, 0, "vertices 9 and 10 carry fights; no output, no key node")

# C-15: a fight is told from a weak drive.

PAIR = [ZERO, ONE]
PULLED = [ZERO, ONE, STORAGE]
UP = [(2, 3, P, 0)]

MIXED = [(3, 1, N, 1), (3, 2, N, 1), (4, 1, P, 0), (4, 2, P, 0), (5, 1, P, 0), (5, 6, N, 1), (6, 2, P, 0), (7, 8, P, 0), (8, 1, N, 1), (7, 9, N, 1), (9, 2, P, 0),
         (10, 11, N, 1), (11, 1, N, 1), (11, 2, P, 0), (12, 1, P, 0), (13, 2, N, 1), (14, 12, N, 1)]

net("constant edges: one value or both, each firm or weak", sheet(0, [ZERO, ONE] + [STORAGE] * 12, MIXED))
excitation(0, 5, "a firm 0 and a weak 1: connected to both values, so no 0", 0, 0, 3)
excitation(0, 5, "a weak 0 and a firm 1: connected to both values, so no 1", 0, 0, 4)
excitation(0, 5, "a weak 0, and a 1 through vertex 6 by edges of both types", 0, 0, 5)
excitation(0, 5, "vertex 6 has a firm 1, and through vertex 5 a weak 0", 0, 0, 6)
excitation(0, 5, "mixed paths to both values, through vertices 8 and 9", 0, 0, 7)
excitation(0, 5, "a fight only through inner vertex 11: no edge joins vertex 10 to an input vertex", 0, 0, 10)
excitation(0, 5, "the inner vertex itself", 0, 0, 11)
excitation(0, 2, "a weak 0 alone stays 2", 0, 0, 12)
excitation(0, 2, "a weak 1 alone stays 2", 0, 0, 13)
excitation(0, 2, "a path of both types to 0 stays 2", 0, 0, 14)
state("--555555555222", "all of them", 0)
verdict(32, 0, "with no key node the one state is stable, and it has fights")

net("output 3 between vertices that carry a and b", sheet(2, [carries(1), carries(2), OUTPUT], [(3, 1, N, 1), (3, 1, P, 0), (3, 2, N, 1), (3, 2, P, 0)]))
state("--0", "a 0 b 0: two input vertices, one value", 0)
state("--5", "a 1 b 0: both values", 1)
state("--5", "a 0 b 1: both values", 2)
state("--1", "a 1 b 1: two input vertices, one value", 3)
verdict(32, 0, "5 at an output in a stable state is a fight: 32, and not 33")
net("output 3 joined firmly to 0 and, where a is 1, weakly to 1", sheet(1, [ZERO, ONE, OUTPUT], [(3, 1, N, 1), (3, 2, N, letter(1))]))
state("--0", "a 0", 0)
state("--5", "a 1", 1)
verdict(32, 0, "one weak side is enough for a fight")
net("output 3 joined weakly to 1, and output 4 to 0 and, where a is 0, to 1", sheet(
    1, [ZERO, ONE, OUTPUT, OUTPUT], [(3, 2, N, 1), (4, 1, N, 1), (4, 2, P, letter(1))]))
state("--25", "a 0", 0)
state("--20", "a 1", 1)
verdict(32, 0, "the fight at 4 comes before the 2 of the lower output: 32 and not 33")
net("the same without the p edge", sheet(1, [ZERO, ONE, OUTPUT, OUTPUT], [(3, 2, N, 1), (4, 1, N, 1)]))
state("--20", "a 0", 0)
verdict(33, 3, "a weak drive without a fight is 33")
net("key node 3 always pulled to 1; output 4 joined to 0 under 3 hat and to 1; output 5 joined weakly to 1 under 3", sheet(
    0, PULLED + [OUTPUT, OUTPUT], UP + [(4, 1, P, vertex(3)), (4, 2, P, 0), (5, 2, N, vertex(3))]))
state("--153", "key 0: a fight at output 4, not stable", 0, 0)
state("--112", "key 1: stable", 0, 1)
verdict(33, 5, "the lower output is at 5 in an unstable state only, so 33 names the one at 2")
net("key node 3 = a', with one more edge to 0, a p edge under b", sheet(
    2, [ZERO, ONE, STORAGE, STORAGE], inverter(3, letter(1)) + [(1, 3, P, letter(2)), (1, 4, N, vertex(3))]))
state("--53", "a 0 b 0, key 0: the edge under b is closed, 3 is joined to 1 and weakly to 0, not stable", 0, 0)
state("--13", "a 0 b 1, key 0: 3 is joined to 1 alone, not stable", 2, 0)
verdict(31, 3, "5 at a key node breaks C1: 31 comes before 32")

# C2: fights.

net("an n edge under 1 from the 0-vertex to the 1-vertex", sheet(0, PAIR, [(1, 2, N, 1)]))
verdict(32, 0, "one edge can be a fight; there is no storage vertex at all")
net("a p edge under 0 from the 1-vertex to the 0-vertex", sheet(0, PAIR, [(2, 1, P, 0)]))
verdict(32, 0, "a fight is any connection, of either type")
net("an n edge under 0 and a p edge under 1 between them", sheet(0, PAIR, [(1, 2, N, 0), (1, 2, P, 1)]))
verdict(0, 0, "both are always open")
net("an edge under a letter between them", sheet(1, PAIR, [(1, 2, N, letter(1))]))
verdict(32, 0, "closed at letter 1")
net("a transmission gate under letter 8 between them", sheet(8, PAIR, pass_off(1, 2, letter(8))))
verdict(32, 0, "closed where letter 8 is 0")
net("closed edges between vertices that both carry 0, and between vertices that carry one letter", sheet(
    1, [ZERO, ZERO, carries(1), carries(1)], [(1, 2, N, 1), (3, 4, P, 0), (3, 4, N, letter(1))]))
verdict(0, 0, "a fight needs the values 0 and 1; these pairs never differ")
net("a closed edge between vertices that carry two letters", sheet(2, [carries(1), carries(2)], [(1, 2, P, 0)]))
verdict(32, 0, "at letters 0 and 1 the values differ")
net("an edge under a from the 0-vertex to a vertex that carries a", sheet(1, [ZERO, carries(1)], [(1, 2, N, letter(1))]))
verdict(32, 0, "closed at a 1, where the values are 0 and 1")
net("an edge under a hat from the 0-vertex to a vertex that carries a", sheet(1, [ZERO, carries(1)], [(1, 2, P, letter(1))]))
verdict(0, 0, "closed only at a 0, where both are 0")
net("an edge between the rails under key node 3, which is always pulled to 1", sheet(0, PULLED, UP + [(1, 2, N, vertex(3))]))
state("--1", "key 1: stable; the rails are joined, yet 3 is joined to the 1-vertex alone: no inner vertex may be an input vertex", 0, 1)
verdict(32, 0, "the edge is closed in the stable state; walking through a rail would wrongly give 31")
net("the same under key node 3 hat", sheet(0, PULLED, UP + [(1, 2, P, vertex(3))]))
state("--1", "key 0: not stable, and the rails are joined", 0, 0)
verdict(0, 0, "a fight only in an unstable state")
net("an oscillator's key node as the symbol of an edge between the rails", sheet(0, [ZERO, ONE, OUTPUT], inverter(3, vertex(3)) + [(1, 2, N, vertex(3))]))
verdict(0, 0, "a net with no stable state meets C2 and C3")
net("key node 3 = a'; an edge under it from the 1-vertex to vertex 4, which carries a", sheet(
    1, [ZERO, ONE, STORAGE, carries(1)], inverter(3, letter(1)) + [(2, 4, N, vertex(3))]))
verdict(32, 0, "at a 0 the stable key state closes the edge, with 1 and 0 at its ends")
net("the same under key node 3 hat", sheet(1, [ZERO, ONE, STORAGE, carries(1)], inverter(3, letter(1)) + [(2, 4, P, vertex(3))]))
verdict(0, 0, "where it is closed and its ends differ, a is 0 and the key node 0: not stable")
net("key node 3 = a'; output 4 joined to 0 under it, and to 1 by a transmission gate under a", sheet(
    1, [ZERO, ONE, STORAGE, OUTPUT], inverter(3, letter(1)) + [(1, 4, N, vertex(3))] + pass_on(2, 4, letter(1))))
state("--01", "a 1 with 0: stable", 1, 0)
state("--10", "a 0 with 1: stable", 0, 1)
state("--05", "a 1 with 1: a fight through the output, which is 5, but not stable", 1, 1)
state("--13", "a 0 with 0: the output floats, not stable", 0, 0)
verdict(0, 0, "C2 and C3 are about stable states alone")
net("3 joined firmly to the 1-vertex, which is joined to 4, which is joined to the 0-vertex; 3 is the symbol of an edge that is open in the stable state", sheet(
    0, [ZERO, ONE, STORAGE, STORAGE], [(2, 3, P, 0), (2, 4, P, 0), (4, 1, N, 1), (1, 4, P, vertex(3))]))
state("--15", "the walk from 3 to 0 would go through the 1-vertex, so 3 is 1 and only 4 is 5; stable", 0, 1)
verdict(32, 0, "C1 holds at 3; the fight goes through 4, a storage vertex")
net("3 joined to vertex 4, which carries a, and that to vertex 5, which carries b", sheet(
    2, [ZERO, ONE, OUTPUT, carries(1), carries(2)], [(4, 3, N, 1), (4, 3, P, 0), (4, 5, N, 1)]))
state("--1--", "a 1 b 0: 3 is joined to a alone", 1)
state("--0--", "a 0 b 1: 3 is joined to a alone", 2)
verdict(32, 0, "a and b fight where they differ; 3 itself is never 5")

# C3: outputs.

net("output 3 joined to the 1-vertex by an n edge", sheet(0, [ZERO, ONE, OUTPUT], [(2, 3, N, 1)]))
verdict(33, 3, "an n-connection to 1 is 2")
net("the same with a storage vertex that is no output", sheet(0, PULLED, [(2, 3, N, 1)]))
verdict(0, 0, "C3 is about outputs")
net("output 3 with no edge", sheet(0, [ZERO, ONE, OUTPUT], []))
state("--3", "no connection", 0)
verdict(0, 0, "3 is allowed")
net("3 output at 1, 4 no output at 2, 5 and 6 outputs at 2", sheet(
    0, [ZERO, ONE, OUTPUT, STORAGE, OUTPUT, OUTPUT], [(2, 3, P, 0), (2, 4, N, 1), (2, 6, N, 1), (1, 5, P, 0)]))
verdict(33, 5, "the lowest offending output")
net("output 3 at 2 only at a 1, output 4 at 2 only at a 0", sheet(
    1, [ZERO, ONE, OUTPUT, OUTPUT], [(2, 3, N, letter(1)), (1, 4, P, letter(1))]))
state("--32", "a 0", 0)
state("--23", "a 1", 1)
verdict(33, 3, "the lowest output over all stable states, not the first one met")
net("key node 3 = a'; output 4 joined to 0 by a p edge under 3", sheet(
    1, [ZERO, ONE, STORAGE, OUTPUT], inverter(3, letter(1)) + [(1, 4, P, vertex(3))]))
state("--02", "a 1 with 0: stable, the output is 2", 1, 0)
verdict(33, 4, "2 in a stable state")
net("key node 3 always pulled to 1; output 4 joined to 0 by a p edge under 3", sheet(0, PULLED + [OUTPUT], UP + [(1, 4, P, vertex(3))]))
state("--12", "key 0: the output is 2, not stable", 0, 0)
verdict(0, 0, "2 only in an unstable state")

# C1, and the order of 31, 32, 33.

net("storage vertex 3 is output and key node, and has no edge but one that it is the symbol of", sheet(
    0, [ZERO, ONE, OUTPUT, STORAGE], [(1, 4, N, vertex(3))]))
state("--33", "key 0: not stable", 0, 0)
verdict(31, 3, "a key node excited to 3 breaks C1, though C3 allows an output at 3")
net("storage vertex 3 is output and key node, joined to 1 by an n edge", sheet(0, [ZERO, ONE, OUTPUT, STORAGE], [(2, 3, N, 1), (1, 4, N, vertex(3))]))
verdict(31, 3, "2 at a key node is 31 before it is 33; a key node at 2 is never stable")
net("storage vertex 3 is output and key node, pulled to 0", sheet(0, [ZERO, ONE, OUTPUT], [(1, 3, N, 1), (2, 3, P, 1), (1, 3, N, vertex(3))]))
state("--0", "key 0: stable", 0, 0)
state("--0", "key 1: not stable", 0, 1)
verdict(0, 0, "clean in both states")
RIGHT = [(1, 2, N, 1), (2, 4, N, 1), (1, 5, N, vertex(3))]
net("key node 3 floats at a 1; the rails are joined; output 4 is at 2", sheet(
    1, [ZERO, ONE, STORAGE, OUTPUT, STORAGE], [(2, 3, P, letter(1))] + RIGHT))
verdict(31, 3, "31 comes before 32 and 33, though the state at a 0 is stable and breaks both")
net("the same with key node 3 always pulled to 1", sheet(1, [ZERO, ONE, STORAGE, OUTPUT, STORAGE], [(2, 3, P, 0)] + RIGHT))
verdict(32, 0, "32 comes before 33")
net("the same without the edge between the rails", sheet(1, [ZERO, ONE, STORAGE, OUTPUT, STORAGE], [(2, 3, P, 0)] + RIGHT[1:]))
verdict(33, 4, "33 is left")
net("key node 3 = a', key node 4 floats at a 1, key node 5 floats at a 0", sheet(
    1, [ZERO, ONE, STORAGE, STORAGE, STORAGE, STORAGE],
    [(1, 6, N, vertex(5)), (1, 6, N, vertex(4)), (1, 6, N, vertex(3)), (5, 1, N, letter(1)), (2, 4, P, letter(1))] + inverter(3, letter(1))))
state("--1133", "a 0, all key nodes 0: 5 floats, not stable", 0, 0)
state("--0300", "a 1, all key nodes 1: 4 floats, not stable", 1, 7)
verdict(31, 4, "the lowest offending key vertex, not the first one met nor the first on the sheet")

# The largest counts.

CHAIN = inverter(3, letter(8)) + [edge for y in range(4, 16) for edge in inverter(y, vertex(y - 1))]

net("letter 8 and twelve key nodes, 3 to 14, each the inverse of the one before; output 15", sheet(8, [ZERO, ONE] + [STORAGE] * 12 + [OUTPUT], CHAIN))
key_nodes(0, 12, "twelve pass: h is 12")
state("--0101010101010", "letter 8 at 1: key 2730 is stable", 128, 2730)
state("--1010101010101", "letter 8 at 0, all others at 1: key 1365 is stable", 127, 1365)
state("--0000000000000", "input 255 and key 4095 are the last ones, not stable", 255, 4095)
state("--1111111111111", "input 0 and key 0, not stable", 0, 0)
excitation(42, 0, "row 42: 2^8", 256, 0, 3)
excitation(43, 0, "row 43: 2^12", 0, 4096, 3)
verdict(0, 0, "gates of the complementary design")


def long_chain(forms):
    """Vertex 1 carries 1; 95 storage vertices in a row, joined under letter 1; the far edges come first on the sheet. Vertex 96 is an output."""
    return sheet(1, [ONE] + [STORAGE] * 94 + [OUTPUT], [(v, v + 1, forms(v), letter(1)) for v in range(95, 0, -1)])


net("a row of 95 storage vertices, joined by p edges to a 1-vertex", long_chain(lambda v: P))
excitation(0, 1, "letter 0: a p-connection of 95 edges", 0, 0, 96)
excitation(0, 3, "letter 1: all are open", 1, 0, 96)
excitation(48, 0, "row 48: vertex 97 of 96", 0, 0, 97)
verdict(0, 0, "the output is 1 or 3")
net("the same row, its edge between 48 and 49 always closed and of type n", sheet(
    1, [ONE] + [STORAGE] * 94 + [OUTPUT], [(v, v + 1, P, letter(1)) if v != 48 else (v, v + 1, N, 1) for v in range(95, 0, -1)]))
excitation(0, 1, "letter 0: 48 has a p-connection", 0, 0, 48)
excitation(0, 2, "letter 0: from 49 on the connection is mixed", 0, 0, 49)
verdict(33, 96, "the output at the far end is 2")

# Numbers: 41, 42, 43, 48 and their order.

net("no bytes", b"", 11, 0)
verdict(41, 0, "row 41: a refused sheet gives the empty record, which no accepted sheet gives")
key_nodes(41, 0, "row 41, and counts are 0 under a number")
excitation(41, 0, "row 41", 0, 0, 1)
excitation(41, 0, "41 before 42, 43 and 48", LARGEST, LARGEST, LARGEST)
net("a sheet with a form 3 edge that has no partner", sheet(1, [ZERO, ONE, OUTPUT, STORAGE], [(2, 3, P_PRIMED, letter(1))]), 21, 6)
verdict(41, 0, "row 41: refused by the graph rows, the record is empty too")
key_nodes(41, 0, "row 41")
excitation(41, 0, "row 41: vertex 3 was storage on the sheet", 0, 0, 3)

net("the NOR latch again: two letters, two key nodes, storage vertices 3 to 6", NOR_LATCH)
excitation(0, 0, "input 3 and key 3 are the last ones", 3, 3, 4)
excitation(42, 0, "row 42: 2^L", 4, 0, 3)
excitation(42, 0, "row 42: 256, whose low byte is an input state", 256, 0, 3)
excitation(42, 0, "row 42: 65536, whose low half is an input state", 65536, 0, 3)
excitation(42, 0, "row 42: the largest number of 32 bits", LARGEST, 0, 3)
excitation(43, 0, "row 43: 2^h", 0, 4, 3)
excitation(43, 0, "row 43: 256, whose low byte is a key state", 0, 256, 3)
excitation(43, 0, "row 43: 65536, whose low half is a key state", 0, 65536, 3)
excitation(43, 0, "row 43: the largest number of 32 bits", 0, LARGEST, 3)
excitation(48, 0, "row 48: vertex 0", 0, 0, 0)
excitation(48, 0, "row 48: an input vertex", 0, 0, 1)
excitation(48, 0, "row 48: the other input vertex", 0, 0, 2)
excitation(0, 1, "vertex V is storage", 0, 0, 6)
excitation(48, 0, "row 48: vertex V + 1", 0, 0, 7)
excitation(48, 0, "row 48: 256 + 3, whose low byte is a storage vertex", 0, 0, 259)
excitation(48, 0, "row 48: 65536 + 3, whose low half is a storage vertex", 0, 0, 65539)
excitation(48, 0, "row 48: the largest number of 32 bits", 0, 0, LARGEST)
excitation(42, 0, "42 before 43 and 48", 4, 4, 0)
excitation(42, 0, "42 before 48", 4, 0, 7)
excitation(43, 0, "43 before 48", 0, 4, 0)

store("verdict_cases")
