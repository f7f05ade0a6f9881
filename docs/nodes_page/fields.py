"""The fields of nodes as text: of each kind its fields, and the sets of kinds."""
import textwrap
from typing import Iterator

from views.fields import Field, Node, Views

# Where the columns begin in which a field stands: what it has, and how many of them.
WHAT, COUNT = 24, 48

INDENT = ' ' * 12

# How the place of a child is said, wherever it stands if the other field is missing.
PLACES = {'before': 'before', 'only_before': 'before', 'after': 'behind', 'past': 'behind'}


class FieldWriter:
    """Writes fields. A token stands by its text in back quotes, or by its kind."""

    def __init__(self, views: Views, width: int) -> None:
        self.views, self.width = views, width
        self.nodes = {it.name: it for it in views.nodes}

    def of_kind(self, kind: str) -> Iterator[str]:
        """The lines of a kind: a field each, and then the tokens and the children that no field finds."""
        node = self.nodes[kind]
        for it in node.nodes:
            yield f'{INDENT}{it.name:{WHAT}}{it.what:{COUNT - WHAT}}{self.count(node, it)}'
        for count in ('one', 'at most one'):
            tokens = [self.token(it) for it in node.tokens if it.amount == count]
            yield from self.listed(f'tokens, {count}:', tokens)
        yield from self.listed('of no field:', self.views.kind_names(self.lost(node)))

    def count(self, node: Node, field: Field) -> str:
        """How many a field has, and whether the shape takes more."""
        more = ', the first of any number' if field.most is None else f', the first of {field.most}'
        places = [f', {PLACES[it.word]} {it.field}' for it in field.places]
        return field.amount + (more if field.is_wide(node.fields) else '') + ''.join(places)

    def token(self, field: Field) -> str:
        """A token's field; with its kinds where these are not its name."""
        return field.name if len(field.kinds) == 1 else \
            f'{field.name} ({" ".join(self.views.table.texts[it] for it in sorted(field.kinds))})'

    def lost(self, node: Node) -> list[int]:
        return sorted(node.left - {kind for it in node.fields for kind in it.kinds})

    def listed(self, head: str, words: list[str]) -> list[str]:
        """Words behind a head, in lines; none where there are no words."""
        return textwrap.wrap(f'{head} {", ".join(words)}', self.width, initial_indent=INDENT,
                             subsequent_indent=f'{INDENT}    ', break_long_words=False,
                             break_on_hyphens=False) if words else []

    def sets(self) -> Iterator[str]:
        """The sets, a line each."""
        for name, members in self.views.said.members.items():
            yield from textwrap.wrap(f'{name}: {" | ".join(it.what for it in members)}', self.width,
                                     initial_indent='    ', subsequent_indent='        ', break_long_words=False,
                                     break_on_hyphens=False)
