"""A plain model of request C-11, to check the sheets that are written out by hand: a record, whether some accepted sheet gives it, and its sheet in the
agreed order and in its own. It reads no sheet that the reader refuses.
"""
from collections import Counter

import settle_model
from sheets import sheet

MOST_VERTICES, MOST_EDGES, MOST_LETTERS, MOST_KEY_NODES, MOST_SIGNALS = 96, 192, 8, 12, 8
INPUT = 0
ROLES = 3
FORMS = 4
# A primed form, and the form of its partners.
PARTNER = {2: 1, 3: 0}


class Record:
    """The three counts, and every vertex place and edge place; those that are not in use are zero."""

    def __init__(self, data):
        header, *rows = [[int(row[i:i + 4]) for i in range(0, 20, 4)] for row in data.decode().splitlines()]
        _, self.vertex_count, self.edge_count, self.letter_count, _ = header
        vertices, edges = rows[:self.vertex_count], rows[self.vertex_count:]
        self.vertices = [tuple(row[2:4]) for row in vertices] + [(0, 0)] * (MOST_VERTICES - len(vertices))
        self.edges = [tuple(row[1:]) for row in edges] + [(0, 0, 0, 0)] * (MOST_EDGES - len(edges))

    def own(self):
        """The sheet in the record's own order."""
        return sheet(self.letter_count, self.vertices[:self.vertex_count], self.edges[:self.edge_count])

    def agreed(self):
        """The sheet in the agreed order."""
        turned = [(min(a, b), max(a, b), form, symbol) for a, b, form, symbol in self.edges[:self.edge_count]]
        return sheet(self.letter_count, self.vertices[:self.vertex_count], sorted(turned))

    def is_accepted(self):
        """Is it the record of an accepted sheet? The rows are those of document 01, as request C-13 has row 21; what is not in use is zero."""
        return (1 <= self.vertex_count <= MOST_VERTICES and self.edge_count <= MOST_EDGES and self.letter_count <= MOST_LETTERS
                and all(self.allows_vertex(*v) for v in self.vertices[:self.vertex_count])
                and all(self.allows_edge(*e) for e in self.edges[:self.edge_count])
                and not any(map(any, self.vertices[self.vertex_count:] + self.edges[self.edge_count:]))
                and self.is_paired() and self.allows_signals())

    def is_label(self, symbol):
        return symbol in (0, 1) or 11 <= symbol <= 10 + self.letter_count

    def is_symbol(self, symbol):
        return self.is_label(symbol) or 101 <= symbol <= 100 + self.vertex_count and self.vertices[symbol - 101][0] != INPUT

    def allows_vertex(self, role, label):
        return role < ROLES and (self.is_label(label) if role == INPUT else label == 0)

    def allows_edge(self, a, b, form, symbol):
        return (a != b and all(1 <= v <= self.vertex_count for v in (a, b)) and form < FORMS and self.is_symbol(symbol)
                and not (form in PARTNER and symbol in (0, 1)))

    def is_paired(self):
        """Between any two vertices and for each symbol, a primed form does not outnumber its partners (request C-13)."""
        drawn = Counter((frozenset((a, b)), symbol, form) for a, b, form, symbol in self.edges[:self.edge_count])
        return all(many <= drawn.get((ends, symbol, PARTNER[form]), 0) for (ends, symbol, form), many in drawn.items() if form in PARTNER)

    def allows_signals(self):
        net = settle_model.Net(self.own())
        return len(net.keys) <= MOST_KEY_NODES and all(len(net.component_signals(y)) <= MOST_SIGNALS for y in net.storage)
