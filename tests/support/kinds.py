"""The table of the kinds of tokens and nodes, `crates/rap_base/kinds.txt`."""
import sys

from support import TOP

GROUPS = ('punctuation', 'reserved', 'reserved-2018', 'reserved-2024', 'contextual', 'token', 'node')
WORDS = GROUPS[1:5]


class Kind:
    """A row of the table: the number and the name of a kind, its group, and how it is written or what `T!` calls it."""

    def __init__(self, number, name, group, text=''):
        self.number, self.name, self.group, self.text = int(number), name, group, text

    @property
    def has_text(self):
        return self.group not in ('token', 'node')

    @property
    def pattern(self):
        """The text as `T!` takes it: a bracket is in quotes."""
        return f"'{self.text}'" if self.text in tuple('(){}[]') else self.text


def read_kinds():
    """The kinds in the order of their numbers. Stops where the table is none."""
    with open(f'{TOP}/crates/rap_base/kinds.txt', encoding='utf-8') as file:
        rows = [line.split() for line in file if not line.startswith('#')]
    kinds = [Kind(*row) for row in rows if row]
    nodes = [it.group == 'node' for it in kinds]
    faults = [it.name for at, it in enumerate(kinds) if it.number != at or it.group not in GROUPS
              or it.has_text != bool(it.text) and it.group != 'token' or it.name.endswith('_KW') != (it.group in WORDS)]
    faults += [] if nodes == sorted(nodes) else ['a token among the nodes']
    for values in ([it.name for it in kinds], [it.text for it in kinds if it.text]):
        faults += sorted({it for it in values if values.count(it) > 1})
    if faults:
        sys.exit(f'kinds.txt: wrong rows: {", ".join(faults)}')
    return kinds
