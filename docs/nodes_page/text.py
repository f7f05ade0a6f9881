"""The shapes of nodes as text."""
import re
from typing import NamedTuple

from core_page.text import Kinds
from nodes_page.shapes import Shapes

# The parts of shapes that are written out where they stand. The others stand by their names.
WRITTEN_OUT = {'visible', 'typed', 'bounded', 'default_type', 'default_value', 'generic', 'where_clause', 'member'}

# How tightly a text holds together: ways, what stands in order, and one thing.
WAYS, ORDER, ONE = range(3)

LEAF, NODE = ('call', ('name', 'leaf_of')), ('call', ('name', 'node_of'))

# The row of a kind, and the words above it.
ROW = re.compile(r'^ *-- (.+)\n    (?:∷ )?\((\w+) has', re.MULTILINE)


class Text(NamedTuple):
    """A text, and how tightly it holds together."""
    words: str
    holds: int = ONE

    def within(self, holds: int) -> str:
        """The text where something must hold so tightly."""
        return self.words if self.holds >= holds else f'({self.words})'


class Group(NamedTuple):
    """A part of the table: its title, and the rows: the kind, what it is, and its shape."""
    title: str
    rows: list[tuple[str, str, str]]


class Writer:
    """Writes the shapes of a table, and keeps the names of the parts that it writes."""

    def __init__(self, shapes: Shapes, kinds: Kinds) -> None:
        self.library, self.module = shapes.terms.library, shapes.module
        # A token without a text of its own stands by the name of its kind.
        texts = {it: kinds.texts[it] for it in kinds.tokens if kinds.texts[it][0] == '`'}
        self.texts = {name: texts.get(number, name) for number, name in kinds.names.items()}
        self.used: set[str] = set()
        # the lists of kinds of which a part is one
        self.parts_of = {body[2][0][1]: it.name for it in self.named('Shape') if not it.parameters
                         for _, body in [self.body(it.name)] if body[:2] in (LEAF, NODE) and body[2][0][0] == 'name'}

    def named(self, result):
        """The definitions of this type."""
        return [it for it in self.module.definitions.values() if it.result == result]

    def body(self, name):
        """The parameters of a definition, and its body."""
        [(patterns, body)] = self.library.clauses_of(self.module.definitions[name])
        return [it for _, it in patterns], body

    def text(self, term, given):
        """A shape as text, where parameters stand for what is given."""
        if term[0] == 'op':
            return self.put_together(term, given)
        name = term[1] if term[0] == 'name' else term[1][1]
        if name in given:
            return given[name]
        if name in ('leaf_of', 'node_of'):
            return self.one_of(self.kinds(term[2][0], given))
        if name == 'any_of':
            return Text(self.text(term[2][0], given).within(ONE) + '*')
        if name == 'any_leaf':
            return Text('TOKEN')
        if term[0] == 'name' and name not in WRITTEN_OUT:
            self.used.add(name)
            return Text(name)
        parameters, body = self.body(name)
        return self.text(body, dict(zip(parameters, (self.argument(it, given) for it in term[2:] and term[2]))))

    def argument(self, term, given):
        """What a parameter stands for: a kind or a shape."""
        return Text(term[1]) if term[0] == 'name' and term[1] in self.texts else self.text(term, given)

    def put_together(self, term, given):
        """Shapes in order, or one of two."""
        _, operator, first, second = term
        left = self.text(first, given)
        if second == ('name', 'nothing'):
            return Text(left.within(ONE) + '?')
        right = self.text(second, given)
        if operator == 'or':
            return Text(f'{left.words} | {right.words}', WAYS)
        return Text(f'{left.within(ORDER)} {right.within(ORDER)}', ORDER)

    def kinds(self, term, given):
        """The kinds of a list, where the tail of it may be another part's."""
        if term[0] == 'op':
            first, second = term[2:]
            return [*(self.kinds(first, given) if term[1] == '++' else [self.argument(first, given).words]),
                    *self.tail(second, given)]
        if term[1] in self.module.definitions:
            return self.kinds(self.body(term[1])[1], {})
        return [] if term[1] == '[]' else [given[term[1]].words]

    def tail(self, term, given):
        """The kinds of what stands behind others in a list."""
        if term[1] not in self.parts_of:
            return self.kinds(term, given)
        self.used.add(self.parts_of[term[1]])
        return [self.parts_of[term[1]]]

    def one_of(self, kinds):
        """A leaf or a node of one of these kinds."""
        return Text(' | '.join(self.texts.get(it, it) for it in kinds), ONE if len(kinds) == 1 else WAYS)

    def groups(self):
        """The parts of the table."""
        for it in self.named('List (ℕ × Shape)'):
            if it.name != 'shapes':
                words = {kind: said for lines in it.clauses for said, kind in ROW.findall('\n'.join(lines))}
                rows = list(rows_of(self.body(it.name)[1]))
                if [kind for kind, _ in rows] != list(words):
                    raise ValueError(f'{it.name}: above each shape one line says what its kind is')
                yield Group(it.comment, [(kind, words[kind], self.text(shape, {}).words) for kind, shape in rows])

    def parts(self):
        """The parts with names that were written, each with its text."""
        written = {}
        while self.used - set(written):
            for name in self.used - set(written):
                written[name] = self.text(self.body(name)[1], {}).words
        return [(it, written[it]) for it in self.module.definitions if it in written]


def rows_of(term):
    """The rows of a part of the table, each its kind and its shape."""
    while term[0] == 'op' and term[1] == '∷':
        _, _, (_, operator, kind, shape), term = term
        assert operator == 'has'
        yield kind[1], shape
