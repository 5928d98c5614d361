"""How the generators of the test programs write sheets and jobs, and the sheets of the report's networks and of document 01's worked net.

Where the report's drawing is lost, the sheet is made so that the report's sentences on it hold. Vertex 1 carries 0 and vertex 2 carries 1 unless
said otherwise; beside each net stand its letters in order and its other vertices.
"""

ZERO, ONE, STORAGE, OUTPUT = (0, 0), (0, 1), (1, 0), (2, 0)
N, P, N_PRIMED, P_PRIMED = 0, 1, 2, 3


def field(n):
    return b"%4d" % n


def line(*numbers):
    return b"".join(field(n) for n in numbers) + b"\n"


def letter(j):
    return 10 + j


def vertex(v):
    return 100 + v


def carries(j):
    """An input vertex with a letter."""
    return (0, letter(j))


def sheet(letters, vertices, edges):
    """Vertices are given by role and label, edges by their ends, form and symbol."""
    return (line(1, len(vertices), len(edges), letters, 1)
            + b"".join(line(2, v + 1, role, label, 0) for v, (role, label) in enumerate(vertices))
            + b"".join(line(3, *edge) for edge in edges))


def number(state):
    """The first letter or key node weighs 1."""
    return state if isinstance(state, int) else sum(int(bit) << i for i, bit in enumerate(state))


def job(old, new, start):
    return line(4, number(old), number(new), number(start), 0)


def inverter(y, symbol):
    """y is pulled to 0 by vertex 1 where the symbol is 1, and to 1 by vertex 2 where it is 0."""
    return [(y, 1, N, symbol), (2, y, P, symbol)]


def pass_on(x, y, symbol):
    """A transmission gate, closed where the symbol is 1."""
    return [(x, y, N, symbol), (x, y, P_PRIMED, symbol)]


def pass_off(x, y, symbol):
    """A transmission gate, closed where the symbol is 0."""
    return [(x, y, N_PRIMED, symbol), (x, y, P, symbol)]


def nand(y, inner, one, two):
    """y is the NAND of two symbols; the inner vertex lies between the two n edges."""
    return [(2, y, P, one), (2, y, P, two), (y, inner, N, one), (inner, 1, N, two)]


# NOR gate, figure 2.2: letters a b; output z 3, inner vertex y 4.
GATE = [(2, 4, P, letter(2)), (4, 3, P, letter(1)), (3, 1, N, letter(1)), (3, 1, N, letter(2))]
NOR_GATE = sheet(2, [ZERO, ONE, OUTPUT, STORAGE], GATE)

# Multiplexer, figure 2.4: letters a b c; output z 3; 4 carries b and 5 carries c.
MULTIPLEXER = sheet(3, [ZERO, ONE, OUTPUT, carries(2), carries(3)], pass_on(4, 3, letter(1)) + pass_off(5, 3, letter(1)))

# NOR latch, figure 3.2: letters S R; key nodes and outputs Q bar 3 and Q 4, inner vertices y1 5 and y2 6.
STORED = [ZERO, ONE, OUTPUT, OUTPUT, STORAGE, STORAGE]
LATCH = [(2, 5, P, letter(1)), (5, 3, P, vertex(4)), (3, 1, N, letter(1)), (3, 1, N, vertex(4)),
         (2, 6, P, letter(2)), (6, 4, P, vertex(3)), (4, 1, N, letter(2)), (4, 1, N, vertex(3))]
NOR_LATCH = sheet(2, STORED, LATCH)

# The same net by another draughtsman: both gates at once, from vertex 1 up to vertex 2.
NOR_LATCH_FROM_0 = sheet(
    2, STORED,
    [(1, 4, N, vertex(3)), (1, 3, N, vertex(4)), (1, 4, N, letter(2)), (1, 3, N, letter(1)),
     (4, 6, P, vertex(3)), (3, 5, P, vertex(4)), (6, 2, P, letter(2)), (5, 2, P, letter(1))])

# Both in the agreed order of request C-11, by hand.
NOR_LATCH_AGREED = b"""\
   1   6   8   2   1
   2   1   0   0   0
   2   2   0   1   0
   2   3   2   0   0
   2   4   2   0   0
   2   5   1   0   0
   2   6   1   0   0
   3   1   3   0  11
   3   1   3   0 104
   3   1   4   0  12
   3   1   4   0 103
   3   2   5   1  11
   3   2   6   1  12
   3   3   5   1 104
   3   4   6   1 103
"""

# Oscillator, figure 3.4(a): key node and output 3.
OSCILLATOR = sheet(0, [ZERO, ONE, OUTPUT], inverter(3, vertex(3)))

# Combinational network, figure 3.4(b): letters a b c; outputs z1 3 and z2 4, inner vertex 5.
COMBINATIONAL = sheet(
    3, [ZERO, ONE, OUTPUT, OUTPUT, STORAGE],
    [(2, 3, P, letter(1)), (2, 3, P, letter(2)), (3, 5, N, letter(2)), (2, 4, P, letter(1)), (2, 4, P, letter(3)), (4, 5, N, letter(3)),
     (5, 1, N, letter(1))])

# Not well formed, figure 3.4(c): letters a b c; key nodes y1 3 and y2 4, output 5; 6 carries b and 7 carries c.
NOT_WELL_FORMED = sheet(
    3, [ZERO, ONE, STORAGE, STORAGE, OUTPUT, carries(2), carries(3)],
    inverter(3, letter(1)) + [(6, 4, N, vertex(3)), (6, 4, P, letter(1)), (7, 4, N, letter(1)), (7, 4, P, vertex(3))] + inverter(5, vertex(4)))

# Selector, figure 4.1: letters a b c; key node y2 3, output 4; 5 carries b and 6 carries c.
SELECTOR = sheet(
    3, [ZERO, ONE, STORAGE, OUTPUT, carries(2), carries(3)],
    pass_off(5, 3, letter(1)) + pass_on(6, 3, letter(1)) + inverter(4, vertex(3)))

# D flip-flop, figure 4.2: letters c D; key nodes y 3 and Q bar 4, Q 5; 6 carries D.
FLIP_FLOP = sheet(
    2, [ZERO, ONE, STORAGE, OUTPUT, OUTPUT, carries(2)],
    inverter(4, vertex(3)) + inverter(5, vertex(4)) + pass_on(6, 3, letter(1)) + pass_off(5, 3, letter(1)))

# Tally network, figure 4.3: letters a b; inner vertices 3 and 4, outputs z0 5, z1 6, z2 7.
TALLY = sheet(
    2, [ZERO, ONE, STORAGE, STORAGE, OUTPUT, OUTPUT, OUTPUT],
    pass_off(2, 3, letter(1)) + pass_on(1, 3, letter(1)) + pass_off(1, 4, letter(1)) + pass_on(2, 4, letter(1))
    + pass_off(3, 5, letter(2)) + pass_on(1, 5, letter(2)) + pass_off(4, 6, letter(2)) + pass_on(3, 6, letter(2))
    + pass_off(1, 7, letter(2)) + pass_on(4, 7, letter(2)))

# A temporary fight, figure 4.4: letter a; key nodes y1 3, y2 4, y3 5, and y4 6.
TEMPORARY_FIGHT = sheet(
    1, [ZERO, ONE, STORAGE, STORAGE, STORAGE, STORAGE],
    inverter(3, letter(1)) + inverter(4, vertex(3)) + [(5, 1, N, letter(1)), (2, 5, P, vertex(4))] + inverter(6, vertex(5)))

# Three NANDs, figure 6.2: letters a b; key nodes y1 3, y2 4, y3 5, inner vertices 6 7 8.
THREE_NANDS = sheet(
    2, [ZERO, ONE, OUTPUT, OUTPUT, OUTPUT, STORAGE, STORAGE, STORAGE],
    nand(3, 6, letter(1), vertex(4)) + nand(4, 7, vertex(3), vertex(5)) + nand(5, 8, vertex(4), letter(2)))

# Pessimism, figure 6.6: letters a b; key nodes y1 = (ab)' 3, y2 = (y1 y3)' 4, y3 = y2' 5, inner vertices 6 7.
PESSIMISM = sheet(
    2, [ZERO, ONE, OUTPUT, OUTPUT, OUTPUT, STORAGE, STORAGE],
    nand(3, 6, letter(1), letter(2)) + nand(4, 7, vertex(3), vertex(5)) + inverter(5, vertex(4)))

# Document 01's net of the program `settle`: letter a; key node 3 = (a y)', inner vertex 4.
WORKED = sheet(1, [ZERO, ONE, OUTPUT, STORAGE], nand(3, 4, letter(1), vertex(3)))
