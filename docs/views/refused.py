"""What a description of fields may not say. Each is found in the words of shapes, or in their kinds alone."""
from typing import Iterable, Iterator

from views import paths
from views.description import FILE
from views.fields import Field, Maker, Node, Views, located


class Judge:
    """Says what is wrong with the fields of a kind."""

    def __init__(self, views: Views, node: Node) -> None:
        self.views, self.node = views, node
        self.maker: Maker = views.makers[node.kind]
        self.fields = node.fields
        self.words = self.maker.words(self.fields)

    def faults(self) -> Iterator[str]:
        for part in (self.not_there(), self.twice(), self.not_found(), self.not_needed()):
            yield from part

    def named(self, kinds: Iterable[int]) -> str:
        return ' '.join(self.views.kind_names(kinds))

    def not_there(self) -> Iterator[str]:
        """Fields of children that no shape has, and kinds in one that none has, if these were written one by one."""
        has_any = any(it.form == 'any_leaf' for it in self.maker.letters)
        for it in self.fields:
            if it.is_token and has_any:
                continue
            absent = it.kinds - self.maker.present
            if it.most == 0 or absent and it.what not in self.views.said.sets:
                yield f'{it.name}: no shape has {self.named(absent or it.kinds)} there'

    def found_by(self, word: paths.Word, fields: Iterable[Field]) -> list[list[str]]:
        """Of each child in a word the fields that find it."""
        found: list[list[str]] = [[] for _ in word]
        for it in fields:
            for at in located(self.fields, word, it):
                found[at].append(it.name)
        return found

    def twice(self) -> Iterator[str]:
        """Children that two fields find, of which no line says so; and lines of such children that say too much."""
        said = {frozenset(names): kinds for (kind, *names), kinds in self.views.said.twice.items()
                if kind == self.node.kind}
        unseen = {(both, kind) for both, kinds in said.items() for kind in kinds}
        for word in sorted(self.words):
            for kind, names in zip(word, self.found_by(word, self.fields)):
                unseen.discard((frozenset(names), kind))
                if len(names) > 1 and kind not in said.get(frozenset(names), ()):
                    yield f'{" and ".join(names)} find one child, {self.named([kind])}, in {self.written(word)}'
                    return
        for both, kind in sorted(unseen, key=lambda it: it[1]):
            yield f'{" and ".join(sorted(both))} never find one {self.named([kind])}'

    def not_found(self) -> Iterator[str]:
        """Nodes that no field finds, and kinds of such nodes in a line that fields find."""
        by_kind = {kind for it in self.fields for kind in it.kinds}
        nodes = {kind for it in self.maker.letters if it.form == 'node_of' for kind in it.kinds}
        missing = nodes - by_kind
        if missing - self.node.left:
            yield f'no field finds {self.named(missing - self.node.left)}'
        if self.node.left and not missing:
            yield 'fields find all that is left'
        wide = {kind for it in self.fields if it.is_wide(self.fields) for kind in it.kinds}
        for word in sorted(self.words):
            lost = [kind for kind, names in zip(word, self.found_by(word, self.fields))
                    if not names and kind not in self.views.tokens | wide]
            if lost:
                yield f'no field finds {self.named(lost)} in {self.written(word)}'
                return

    def not_needed(self) -> Iterator[str]:
        """Words on how a child is found without which each word of the shape has one all the same."""
        for it in self.fields:
            if it.places and self.is_alone(it._replace(places=())):
                yield f'{it.name}: its place is not needed'
            if it.how == 'last' and self.is_alone(it._replace(how='all')):
                yield f'{it.name}: `last` is not needed'
        for said in self.maker.said:
            made = self.node.field(said.name)
            if said.how == 'first' and made.most == 1:
                yield f'{said.name}: `first` is not needed'

    def is_alone(self, field: Field) -> bool:
        """Whether all that a field finds, with these words or without them, is one child and no other field's."""
        others = [it for it in self.fields if it.name != field.name]
        every = field._replace(how='all')
        for word in self.words:
            here = located(self.fields, word, every)
            theirs = self.found_by(word, others)
            if len(here) > 1 or any(theirs[at] for at in here):
                return False
        return True

    def written(self, word: paths.Word) -> str:
        return '`' + ' '.join(self.views.names[it] for it in word) + '`'


def faults(views: Views) -> list[str]:
    """All that is wrong, a line each."""
    found = [f'{FILE}: {node.name}: {why}' for node in views.nodes for why in Judge(views, node).faults()]
    for name, wanted in views.said.traits.items():
        if not any(name in it.traits for it in views.nodes):
            found.append(f'{FILE}: no kind has the fields of {name}: {" ".join(wanted)}')
    return found
