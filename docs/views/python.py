"""bindings/python/rap/ast.py: a class for each kind and each set."""
import textwrap
from typing import Iterator

from support import written
from views.description import camel_case
from views.fields import COMMON, Field, Node, Views

WIDTH = 120

# What an element of a tree has already.
TAKEN = ('ancestors', 'children', 'column', 'covering', 'descendants', 'index', 'kind', 'leaf_at', 'line',
         'next_sibling', 'parent', 'range', 'span', 'text')

HEAD = '''"""Typed views of nodes, by rust-analyzer's names: a class for each kind of nodes, and for each set of them.

    from rap import ast

    for function in ast.walk(rap.parse('fn f(x: u8) {}').root, ast.Fn):
        print(function.name, [it.ty for it in function.param_list.params] if function.param_list else [])

Where this module is imported, each node of a tree is of the class of its kind: `isinstance(node, ast.Expr)`, and

    match node:
        case ast.MethodCallExpr(receiver=receiver, name_ref=ast.NameRef(text='unwrap')):
            ...

A field of one child is None where it is missing, and one of several is a list. What cannot be missing in a node without
a message or an ERROR right in it is said in docs/NODES.md of the repository. `_fields` has the names of the fields of a
class that are nodes, in the order of the text. A name that all nodes have for something else has a `_` at its end.

When a field of one child or token is asked for first, it is looked for in all nodes of the tree, and what is found is
kept with the tree: four bytes for each node and token."""
from __future__ import annotations

from rap._views import Child as _Child
from rap._views import Children as _Children
from rap._views import Leaf as _Leaf
from rap._views import of, walk
from rap.kinds import Kind
from rap.node import CLASSES, Node
'''


def wrapped(head: str, words: list[str], tail: str) -> list[str]:
    """A head, words with commas between and a tail, in lines."""
    indent = ' ' * len(head)
    return textwrap.wrap(head + ', '.join(words) + tail, WIDTH, subsequent_indent=indent, break_long_words=False,
                         break_on_hyphens=False)


def own_name(field: Field) -> str:
    """The name of a field in Python."""
    return f'{field.name}_' if field.name in TAKEN else field.name


def names_of(fields: list[Field]) -> str:
    """A tuple of names."""
    names = [repr(own_name(it)) for it in fields]
    return f'({names[0]},)' if len(names) == 1 else f'({", ".join(names)})'


class Writer:
    """Writes the module."""

    def __init__(self, views: Views, said: dict[str, str]) -> None:
        self.views, self.said = views, said

    def lines(self) -> Iterator[str]:
        yield from HEAD.split('\n')
        yield from self.kinds_of_sets()
        for name in self.ordered():
            members = ', '.join(camel_case(it.what) for it in self.views.said.members[name])
            yield from ('', '', f'class {name}({", ".join(self.bases(name)) or "Node"}):',
                        *textwrap.wrap(f'"""One of these: {members}."""', WIDTH, initial_indent='    ',
                                       subsequent_indent='    '),
                        '', '    __slots__ = ()')
        for node in self.views.nodes:
            yield from self.node(node)
        yield from ('', '', '# From now on each node is of the class of its kind.', 'CLASSES.update({',
                    *wrapped('    ', [f'Kind.{it.name}: {it.camel}' for it in self.views.nodes], ''), '})', '')
        names = sorted([*self.views.said.sets, *(it.camel for it in self.views.nodes), 'of', 'walk'])
        yield from wrapped('__all__ = [', [repr(it) for it in names], ']')

    def kinds_of_sets(self) -> Iterator[str]:
        used = {it.what for node in self.views.nodes for it in node.fields}
        for name, kinds in ((it, its) for it, its in self.views.said.sets.items() if it in used):
            yield from wrapped(f'{self.constant(name)} = (', [f'Kind.{it}' for it in self.views.kind_names(kinds)], ')')

    def constant(self, name: str) -> str:
        return f'_{written.snake_case(name).upper()}'

    def bases(self, what: str) -> list[str]:
        """The sets that a kind or a set is a member of."""
        return sorted(name for name, its in self.views.said.members.items() if what in [it.what for it in its])

    def ordered(self) -> list[str]:
        """The sets, each behind those that it is a member of."""
        rest, found = list(self.views.said.sets), list[str]()
        while rest:
            name = next(it for it in rest if set(self.bases(it)) <= set(found))
            rest.remove(name)
            found.append(name)
        return found

    def node(self, node: Node) -> Iterator[str]:
        matched = [it for it in node.nodes if it.name not in COMMON]
        yield from ('', '', f'class {node.camel}({", ".join(self.bases(node.name)) or "Node"}):',
                    f'    """`{node.name}`: {self.said[node.name]}."""', '', '    __slots__ = ()')
        yield from textwrap.wrap(f'_fields = {names_of(node.nodes)}', WIDTH, initial_indent='    ',
                                 subsequent_indent='               ')
        yield from textwrap.wrap(f'__match_args__ = {names_of(matched)}', WIDTH, initial_indent='    ',
                                 subsequent_indent='                      ')
        for field in node.fields:
            yield from self.field(field)

    def field(self, field: Field) -> list[str]:
        kinds = [f'Kind.{it}' for it in self.views.kind_names(field.kinds)]
        is_set = field.what in self.views.said.sets
        more = [f"'{it}'" for place in field.places for it in place] + ['last=True'] * (field.how == 'last')
        own = f'({kinds[0]},)' if len(kinds) == 1 else f'({", ".join(kinds)})'
        given = self.constant(field.what) if is_set else own
        form = '_Leaf' if field.is_token else '_Children' if field.is_list else '_Child'
        view = '' if field.is_token else f'[{camel_case(field.what)}]'
        head = f'    {own_name(field)}: {form}{view} = {form}('
        whole = f'{head}{", ".join([given, *more])})'
        return [whole] if len(whole) <= WIDTH else [head + '(', *wrapped('        ', kinds, '))')]


def lines(views: Views, said: dict[str, str]) -> list[str]:
    """The lines of the file; of each kind it is said what it is."""
    return list(Writer(views, said).lines())
