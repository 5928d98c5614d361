"""Nets for the benchmark, each as the bytes of a sheet. Nothing is random: the same nets are made every time."""
import sheets
from sheets import N, P, N_PRIMED, P_PRIMED

ZERO, ONE = 1, 2  # the two input vertices that carry 0 and 1


class Net:
    def __init__(self, letters):
        self.letters = letters
        self.vertices = [sheets.ZERO, sheets.ONE]
        self.edges = []
        self.gates = {}  # the groups of each vertex that is pulled, by its number

    def vertex(self, role):
        self.vertices.append((role, 0))
        return len(self.vertices)

    def edge(self, end, other, form, symbol):
        self.edges.append((end, other, form, symbol))

    def pulls(self, y, groups):
        """y is 0 where all symbols of some group are 1, and 1 where every group has a symbol that is 0."""
        self.gates[y] = groups
        for group in groups:
            at = y
            for symbol in group[:-1]:
                inner = self.vertex(1)
                self.edge(at, inner, N, symbol)
                at = inner
            self.edge(at, ZERO, N, group[-1])
        at = ONE
        for i, group in enumerate(groups):
            to = y if i == len(groups) - 1 else self.vertex(1)
            for symbol in group:
                self.edge(at, to, P, symbol)
            at = to

    def follows(self, y, symbol):
        """y is driven to the value of a symbol, firmly both ways."""
        self.edge(y, ONE, N, symbol)
        self.edge(y, ONE, P_PRIMED, symbol)
        self.edge(y, ZERO, P, symbol)
        self.edge(y, ZERO, N_PRIMED, symbol)

    def key_nodes(self):
        return [v for v in range(1, len(self.vertices) + 1) if any(edge[3] == symbol(v) for edge in self.edges)]

    def sheet(self):
        return sheets.sheet(self.letters, self.vertices, self.edges)


symbol = sheets.vertex


def letter(j):
    """By turns each of eight letters, the first at 0."""
    return sheets.letter(1 + j % 8)


def groups(symbols):
    """Three groups, the last one the shortest."""
    return [symbols[0:3], symbols[3:6], symbols[6:]] if len(symbols) > 6 else [symbols[0:3], symbols[3:]]


def small():
    """Three NANDs in a ring of two latches."""
    net = Net(2)
    y1, y2, y3 = (net.vertex(2) for _ in range(3))
    net.pulls(y1, [[letter(0), symbol(y2)]])
    net.pulls(y2, [[symbol(y1), symbol(y3)]])
    net.pulls(y3, [[symbol(y2), letter(1)]])
    return net


def limits():
    """96 vertices, 192 edges, 8 letters, 12 key nodes; eleven components of 8 signals and one of 6."""
    net = Net(8)
    keys = [net.vertex(2) for _ in range(12)]
    for i, y in enumerate(keys):
        near = [symbol(keys[(i + d) % 12]) for d in (1, 11, 3)]
        count = 5 if i < 11 else 3
        net.pulls(y, groups(near + [letter(2 * i + j) for j in range(count)]))
    for end, other, form, s in [e for e in net.edges if e[2] == N][-4:]:
        net.edge(other, end, P_PRIMED, s)
    return net


def rest(net, keys):
    """Gates of 8 signals for the edges that are left, and floating outputs for the vertices."""
    i = 0
    while len(net.edges) < 192:
        size = min(8, (192 - len(net.edges)) // 2)
        symbols = [symbol(keys[(i + 5 * j) % 12]) for j in range((size + 1) // 2)] + [letter(i + j) for j in range(size // 2)]
        net.pulls(net.vertex(2), groups(symbols) if size > 3 else [symbols])
        i += 1
    while len(net.vertices) < 96:
        net.vertex(2)
    return net


def stable():
    """Twelve key nodes that hold themselves: all 2 ^ 20 clean states are stable, and nothing is to be searched."""
    net = Net(8)
    keys = [net.vertex(2) for _ in range(12)]
    for y in keys:
        net.follows(y, symbol(y))
    return rest(net, keys)


def unstable_fights():
    """Ten such key nodes and two that copy their neighbour; fights and outputs at 2 exist, in unstable states only."""
    net = Net(8)
    keys = [net.vertex(2) for _ in range(12)]
    for i, y in enumerate(keys):
        net.follows(y, symbol(y if i < 10 else keys[i - 1]))
    for a, b in ((keys[9], keys[11]), (keys[11], keys[9])):
        both = net.vertex(1)
        net.edge(ZERO, both, N, symbol(a))
        net.edge(both, ONE, P, symbol(b))
        weak, inner = net.vertex(2), net.vertex(1)
        net.edge(ONE, inner, N, symbol(a))
        net.edge(inner, weak, P, symbol(b))
    return rest(net, keys)


def zigzag(links):
    """Links 0, 2, 1, 4, 3 and so on: whichever way a sweep runs, it gets on by a link or two."""
    swapped = list(links)
    for i in range(1, len(links) - 1, 2):
        swapped[i], swapped[i + 1] = links[i + 1], links[i]
    return swapped


def chain(order):
    """92 storage vertices in series between 0 and a key node; the edge lines stand in the order into which `order` puts the links, counted from 0's end."""
    net = Net(8)
    inner = [net.vertex(1) for _ in range(92)]
    y, z = net.vertex(2), net.vertex(2)
    links, at = [], ZERO
    for i, v in enumerate(inner + [y]):
        links.append([(at, v, N, letter(i))] + ([(at, v, P_PRIMED, letter(i))] if i < 89 else []))
        at = v
    for link in order(links):
        net.edges.extend(link)
    net.gates[y] = [[letter(j) for j in range(8)]]
    for j in range(8):
        net.edge(y, ONE, P, letter(j))
    net.edge(z, ONE, P, symbol(y))
    net.edge(z, ZERO, N, symbol(y))
    return net


def key_chain():
    """Twelve key nodes in a row, the first the NAND of eight letters, each later one the inverse of the one before: passes of twelve steps."""
    net = Net(8)
    keys = [net.vertex(1) for _ in range(12)]
    net.pulls(keys[0], [[letter(j) for j in range(8)]])
    for before, y in zip(keys, keys[1:] + [net.vertex(2)]):
        net.pulls(y, [[symbol(before)]])
    return net


def pairs():
    """96 pairs between two storage vertices under one letter, all partners last: the most that row 21 has to count."""
    net = Net(1)
    x, y = net.vertex(1), net.vertex(1)
    for form in (P_PRIMED, N):
        for _ in range(96):
            net.edge(x, y, form, letter(0))
    return net


NETS = {
    "small": small(),
    "limits": limits(),
    "stable": stable(),
    "unstable fights": unstable_fights(),
    "chain": chain(lambda links: links[::-1]),
    "chain, other order": chain(list),
    "chain, zigzag": chain(zigzag),
    "key chain": key_chain(),
    "pairs": pairs(),
}
