"""crates/rap_fields/specs/Rows.antt, PlacedRows.antt and Found.antt: the fields of nodes that are found by their kinds
alone, those that are found by their places too, and the kinds of all that fields find, for the law that shapes fill
them."""
import re
import sys
import textwrap
from typing import Iterable

from views.fields import Field, Node, Views, shapes

WIDTH = 120
# The fields that have a row of their own in Place.antt.
COMMON = {'attrs': 'attributes', 'doc_comments': 'documentation'}
# Which part of the children a place means, of the first and of the last child of a field; and where that child is
# looked for before the first child of another field.
CUTS = {('before', 'first'): 'until', ('before', 'last'): 'until_last', ('only_before', 'first'): 'only_until',
        ('after', 'first'): 'behind', ('past', 'first'): 'past'}
BEFORE = {('before', 'last'): 'until_last_before', ('past', 'first'): 'past_before'}
WHICH = {'first': 'First', 'last': 'Last', 'all': 'All'}
AMOUNTS = {(1, 1): 'exactly_one', (0, 1): 'at_most_one', (0, None): 'any_number', (1, None): 'at_least_one'}


def filled(head: str, words: list[str]) -> str:
    """Words behind a head, in its line or in lines below it. A space inside a word is a NUL."""
    line = ' '.join([head, *words])
    if len(line) > WIDTH:
        line = head + '\n' + textwrap.fill(' '.join(words), WIDTH, initial_indent='    ', subsequent_indent='    ',
                                           break_long_words=False, break_on_hyphens=False)
    return line.replace('\0', ' ')


class Writer:
    """Writes definitions, and keeps the names of kinds and lists that it writes."""

    def __init__(self, views: Views) -> None:
        self.views = views
        self.known = {frozenset(it): name for it, name in shapes().kind_sets().items() if len(it) > 1}
        self.kinds: set[str] = set()
        self.lists: set[str] = set()

    def listed(self, kinds: Iterable[int]) -> str:
        """A list of kinds, which ends in the largest that has a name in Shapes.antt. A space inside it is a NUL."""
        wanted = frozenset(kinds)
        inside = [it for it in self.known if len(it) > 2 and it <= wanted]
        largest = max(inside, key=len, default=frozenset())
        end = self.known[largest] if largest else '[]'
        self.lists.update([end] if largest else [])
        rest = self.views.kind_names(wanted - largest)
        self.kinds.update(rest)
        return '(' + '\0∷\0'.join([*rest, end]) + ')' if rest or not largest else end

    def field(self, field: Field) -> str:
        amount = AMOUNTS.get((field.fewest, field.most))
        if amount:
            return f'{amount}\0{self.listed(field.kinds)}'
        most = 'None' if field.most is None else f'(Some\0{field.most})'
        return f'between\0{field.fewest}\0{most}\0{self.listed(field.kinds)}'

    def cut(self, node: Node, field: Field) -> str:
        """The part of a node's children in which a field is looked for."""
        [place] = field.places
        mark = node.field(place.field)
        if not mark.places:
            return f'{CUTS[place.word, mark.how]}\0{self.mark(mark)}'
        [outer] = mark.places
        other = node.field(outer.field)
        if (outer.word, other.how, other.places) != ('before', 'first', ()):
            sys.exit(f'{node.name}.{field.name}: no part of the children says this place')
        return f'{BEFORE[place.word, mark.how]}\0{self.mark(mark)}\0{self.mark(other)}'

    def mark(self, field: Field) -> str:
        """The children of a field as marks."""
        return f"({'leaf_mark' if field.is_token else 'node_mark'}\0{self.listed(field.kinds)})"

    def row(self, node: Node, field: Field) -> str:
        """A field by its number, with what it finds and where."""
        if field.name in COMMON and (field.how, field.fewest, field.most) == ('all', 0, None):
            return COMMON[field.name]
        head = f'field.{field.name.upper()}\0{WHICH[field.how]}'
        own = f'{head}\0({self.field(field)})'
        return f'at\0{own}\0({self.cut(node, field)})' if field.places else f'anywhere\0{own}'

    def lists_of(self, node: Node) -> list[str]:
        """The lists of kinds that a kind's fields find, or that are left out by name: several at once, and single ones
        in one list."""
        several = [it.kinds for it in node.nodes if len(it.kinds) > 1]
        single = {kind for it in node.nodes if len(it.kinds) == 1 for kind in it.kinds}
        left = [node.left] if node.left else []
        return list(dict.fromkeys(self.listed(it) for it in [*several, *left, *([single] if single else [])]))

    def definitions(self, name: str, result: str, rows: dict[str, list[str]]) -> list[str]:
        """A list for each kind, and the list of all."""
        lines, words = [], []
        for kind, parts in rows.items():
            own = f'{kind.lower()}_{name}'
            self.kinds.add(kind)
            words.append(f'({kind},\0{own})\0∷')
            lines += ['', f'abbrev pub {own} : {result}',
                      filled(f'{own} =', [*(f'{it}\0∷' for it in parts), '[]'])]
        return [*lines, '', '-- of each kind', f'abbrev pub {name} : List (ℕ × {result})',
                filled(f'{name} =', [*words, '[]'])]

    def head(self, what: str, uses: Iterable[str], text: str) -> list[str]:
        prelude = ['ℕ', 'List', '[]', '◌∷◌', *(it for it in ('Some', 'None') if re.search(rf'\b{it}\b', text))]
        tokens = {self.views.names[it] for it in self.views.tokens} | {'ERROR'}
        places = ('FieldRow', *COMMON.values(), 'anywhere', 'at', *CUTS.values(), *BEFORE.values(), 'leaf_mark',
                  'node_mark')
        which = 'rap_fields.specs.declared.rule.Which.TheVariants'
        found = [('std.specs.Prelude', prelude), ('rap_base.specs.NodeKind', self.kinds - tokens),
                 ('rap_base.specs.TokenKind', self.kinds & tokens), ('rap_fields.specs.Field', uses),
                 ('rap_fields.specs.Place', used(places, text) if 'FieldRow' in text else []),
                 (which, used(WHICH.values(), text) if 'FieldRow' in text else []),
                 ('rap_grammar_shapes.specs.Shapes', self.lists)]
        return [f'-- {what}',
                *(f'use Rattle.{module}.{{{", ".join(sorted(names))}}}' for module, names in found if names)]


def used(words: Iterable[str], text: str) -> list[str]:
    """The words that definitions use."""
    return [it for it in words if re.search(rf'^[^-].*\b{it}\b', text, re.M)]


def rows_of(views: Views, name: str, what: str, is_placed: bool) -> list[str]:
    """The rows of the fields that are found by their places too, or of those that are found by kinds alone."""
    writer = Writer(views)
    own = {node.name: [writer.row(node, it) for it in node.nodes if bool(it.places) == is_placed]
           for node in views.nodes}
    lines = writer.definitions(name, 'List FieldRow', {kind: fields for kind, fields in own.items() if fields})
    text = '\n'.join(lines)
    head = writer.head(what, used(['between', *AMOUNTS.values()], text), text)
    return [*head, 'use Rattle.rap_fields.specs.FieldNames as field', *lines]


def rows_lines(views: Views, _said: dict[str, str]) -> list[str]:
    """Rows.antt."""
    what = 'The fields that are found by the kinds of nodes alone, with how many children a whole node has of each.'
    return rows_of(views, 'fields', what, False)


def placed_lines(views: Views, _said: dict[str, str]) -> list[str]:
    """PlacedRows.antt."""
    what = 'The fields that are found by their places too, with how many children of a whole node stand there.'
    return rows_of(views, 'placed', what, True)


def found_lines(views: Views, _said: dict[str, str]) -> list[str]:
    """Found.antt."""
    writer = Writer(views)
    lines = writer.definitions('found', 'List (List ℕ)', {it.name: writer.lists_of(it) for it in views.nodes})
    what = 'The kinds of all nodes that the fields of a kind find, or that are left out by name.'
    return [*writer.head(what, [], ''), *lines]
