"""A plain model of request C-14, to check the gate sheets that are read by hand: number and place of a refusal, or the sheet of the net."""
from sheets import N, ONE, OUTPUT, P, STORAGE, ZERO, sheet

FIELDS, COLUMNS = 5, 4
LINE = FIELDS * COLUMNS + 1
MOST_BYTES, MOST_GATES, MOST_LETTERS, MOST_KEY_NODES = 525, 24, 8, 12
HEADER, GATE = 6, 7
INVERTER, NAND, NOR = 1, 2, 3


def five_fields(line):
    """The numbers of a line, or None: blanks, digits to the last column, no zero in front of another digit, and byte 10 behind the five."""
    if line[-1:] != b"\n":
        return None
    numbers = []
    for i in range(FIELDS):
        digits = line[i * COLUMNS:(i + 1) * COLUMNS].lstrip(b" ")
        if not digits or any(b not in b"0123456789" for b in digits) or digits[:1] == b"0" and len(digits) > 1:
            return None
        numbers.append(int(digits))
    return numbers


def is_symbol(s, gates, letters):
    return s in (0, 1) or 11 <= s <= 10 + letters or 103 <= s <= 102 + gates


def edges_of(kind, output, inner, first, second):
    """The p edges, then the n edges; each edge's end nearer to vertex 2 first."""
    if kind == INVERTER:
        return [(2, output, P, first), (output, 1, N, first)]
    if kind == NAND:
        return [(2, output, P, first), (2, output, P, second), (output, inner, N, first), (inner, 1, N, second)]
    return [(2, inner, P, first), (inner, output, P, second), (output, 1, N, first), (output, 1, N, second)]


def read(data):
    """(0, 0, the net's sheet), or (number, place, nothing)."""
    if not data or len(data) % LINE or len(data) > MOST_BYTES:
        return 11, 0, b""
    lines = [five_fields(data[i:i + LINE]) for i in range(0, len(data), LINE)]
    if lines[0] is None:
        return 12, 1, b""
    kind, gates, letters, fourth, fifth = lines[0]
    if kind != HEADER or not 1 <= gates <= MOST_GATES or letters > MOST_LETTERS or fourth != 0 or fifth != 1 or len(lines) != 1 + gates:
        return 52, 1, b""
    inners, edges = 0, []
    for g in range(1, gates + 1):
        if lines[g] is None:
            return 12, g + 1, b""
        kind, gate, output, first, second = lines[g]
        last = second == 0 if gate == INVERTER else is_symbol(second, gates, letters)
        if kind != GATE or not INVERTER <= gate <= NOR or output != 102 + g or not is_symbol(first, gates, letters) or not last:
            return 52, g + 1, b""
        edges += edges_of(gate, 2 + g, 2 + gates + inners + 1, first, second)
        inners += gate != INVERTER
    keys = [v for v in range(3, 3 + gates) if any(symbol == 100 + v for *_, symbol in edges)]
    if len(keys) > MOST_KEY_NODES:
        return 22, keys[MOST_KEY_NODES], b""
    return 0, 0, sheet(letters, [ZERO, ONE] + [OUTPUT] * gates + [STORAGE] * inners, edges)
