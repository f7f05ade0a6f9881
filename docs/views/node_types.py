"""docs/node-types.json: the nodes, their fields and the sets, in the format of tree-sitter's `node-types.json`."""
import json
from typing import Iterable, Iterator

from views.fields import Field, Node, Views

ROOT = 'SOURCE_FILE'


class Writer:
    """Writes the list. A token that has one text stands by this text, and is not named; all else by its kind."""

    def __init__(self, views: Views) -> None:
        self.views = views

    def type(self, kind: int) -> dict[str, object]:
        text = self.views.table.texts.get(kind, '')
        if text[:1] == '`':
            return {'type': text.strip('`'), 'named': False}
        return {'type': self.views.names[kind], 'named': True}

    def types(self, field: Field) -> list[dict[str, object]]:
        if field.what in self.views.said.sets:
            return [{'type': field.what, 'named': True}]
        return [self.type(it) for it in sorted(field.kinds)]

    def sets(self) -> Iterator[str]:
        for name, members in self.views.said.members.items():
            types = [{'type': it.what, 'named': True} for it in members]
            yield json.dumps({'type': name, 'named': True, 'subtypes': types})

    def node(self, node: Node) -> str:
        head = json.dumps({'type': node.name, 'named': True, **({'root': True} if node.name == ROOT else {})})
        rows = [self.row(it.name, it.is_list, it.fewest > 0, self.types(it)) for it in node.fields]
        fields = f'"fields": {{{",".join(rows)}}}'
        lost = self.lost(node)
        children = [self.row('children', True, False, [self.type(it) for it in lost])] if lost else []
        return f'{head[:-1]}, {", ".join([fields, *(it.strip() for it in children)])}}}'

    def row(self, name: str, multiple: bool, required: bool, types: list[dict[str, object]]) -> str:
        return f'\n    "{name}": {json.dumps({"multiple": multiple, "required": required, "types": types})}'

    def lost(self, node: Node) -> list[int]:
        """The kinds of children that no field finds."""
        found = {kind for it in node.fields for kind in it.kinds}
        return sorted(node.left - found)

    def tokens(self) -> Iterator[str]:
        for kind in self.views.table.tokens:
            if self.views.names[kind] not in ('EOF', 'ERROR', 'WHITESPACE', 'COMMENT'):
                yield json.dumps(self.type(kind))

    def rows(self) -> Iterable[str]:
        return [*self.sets(), *(self.node(it) for it in self.views.nodes), *self.tokens()]


def page(views: Views) -> str:
    """The text of the file."""
    return '[\n' + ',\n'.join(f'  {it}' for it in Writer(views).rows()) + '\n]\n'
