"""The kinds of tokens: their texts, the tokens that an operator is written with, and the operators' powers."""
from grammar_page.antt import Library

CLOSING = {'L_PAREN': 'R_PAREN', 'L_BRACK': 'R_BRACK', 'L_CURLY': 'R_CURLY'}


def read(path):
    with open(path, encoding='utf-8') as file:
        return file.read()


def elements(term):
    """The elements of a list."""
    return [] if term == ('name', '[]') else [term[2], *elements(term[3])]


class Kinds:
    """What is known of the kinds of tokens in the crates of a folder."""

    def __init__(self, crates):
        rows = [line.split() for line in read(f'{crates}/rap_base/kinds.txt').split('\n')]
        rows = [row for row in rows if row and row[0] != '#']
        self.texts = {row[1]: row[3] for row in rows if row[2] not in ('token', 'node')}
        self.order = {row[1]: int(row[0]) for row in rows}
        self.tokens = frozenset(row[1] for row in rows if row[2] != 'node')
        self.nodes = frozenset(row[1] for row in rows if row[2] == 'node') | {'ERROR'}
        self.weak = frozenset(row[1] for row in rows if row[2] == 'contextual')
        self.parts, self.powers = {}, {}
        self.read_operators(Library(f'{crates}/rap_events/specs'))

    def read_operators(self, library):
        """Reads the table of the operators, and of what else is written with more than one token."""
        (_, operators), = library.clauses_of(library.find_in('OperatorTable', 'operators'))
        (_, others), = library.clauses_of(library.find_in('OperatorTable', 'others'))
        for _, (first, rows) in elements(operators):
            for _, (kind, power, rest) in elements(rows):
                parts = [first[1], *(it[1] for it in elements(rest))]
                if len(parts) > 1:
                    self.parts[kind[1]] = parts
                if power[1]:
                    self.powers[kind[1]] = power[1]
        for _, (kind, parts) in elements(others):
            self.parts[kind[1]] = [it[1] for it in elements(parts)]

    def sorted(self, kinds):
        """Kinds in the order of their numbers, the end of the input last."""
        return sorted(kinds, key=lambda it: (it == 'EOF', self.order[it]))

    def text(self, kind):
        """A kind as it is written in a rule: its text as code, or its name if it has no single text."""
        if kind == 'EOF':
            return 'the end of the input'
        return f'`{self.texts[kind]}`' if kind in self.texts else kind

    def identifiers(self):
        """Identifiers and keywords, those that are read as one by their place included."""
        return frozenset(it for it in self.tokens if it == 'IDENT' or it.endswith('_KW'))
