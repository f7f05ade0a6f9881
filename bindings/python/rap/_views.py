"""What the classes of `rap.ast` are made of: how children are found, and a walk by classes."""
from __future__ import annotations

from collections.abc import Iterable, Iterator
from typing import ClassVar, Generic, TypeVar, cast, overload

import numpy as np

from rap._elements import NO_PARENT, Column, Elements
from rap.kinds import KINDS, Kind
from rap.node import CLASSES, Element, Node, Token

N = TypeVar('N', bound=Element)


class Rule:
    """Which children of a node are found: those of some kinds, at a place that is told by another field."""

    __slots__ = ('_kinds', '_place', '_mark', '_is_last', '_number', '_only')

    # The numbers of rules: two that find the same have the same one.
    _numbers: ClassVar[dict[object, int]] = {}
    _number: int

    def __init__(self, kinds: Iterable[Kind], place: str = '', mark: str = '', last: bool = False) -> None:
        self._kinds = frozenset(int(it) for it in kinds)
        self._place, self._is_last = place, last
        self._mark: str | Rule = mark
        # The class of what it finds, where its kinds are one, from the first find on.
        self._only: type[Element] | None = None

    def __set_name__(self, owner: type[Node], name: str) -> None:
        """The class has all its fields: the one that tells the place is looked up."""
        if isinstance(self._mark, str) and self._mark:
            self._mark = cast(Rule, vars(owner)[self._mark])
            self._mark.__set_name__(owner, name)
        mark = self._mark._number if isinstance(self._mark, Rule) else None
        self._number = self._numbers.setdefault((self._kinds, self._place, mark, self._is_last), len(self._numbers))

    def _indices(self, node: Node) -> Iterator[int]:
        """The indices of the children."""
        words, kinds = node._of.words, self._kinds
        at, end = node._index + 1, words[5 * node._index + 3]
        if isinstance(self._mark, Rule):
            mark = self._mark._ones(node._of)[node._index]
            if self._place in ('before', 'only_before'):
                end = mark or (end if self._place == 'before' else at)
            elif mark or self._place == 'after':
                at = words[5 * mark + 3] if mark else end
        while at < end:
            if words[5 * at] in kinds:
                yield at
            at = words[5 * at + 3]

    def _ones(self, of: Elements) -> memoryview:
        """The one child that is found in a node, by the node's index; 0 where there is none. That of all nodes of the
        tree is looked for at once, and kept with the tree."""
        ones = of.found.get(self._number)
        if ones is None:
            column = np.zeros(len(of.words) // 5, np.uint32)
            found, parents = self._all(of)
            order = slice(None, None, 1 if self._is_last else -1)
            # Of several the last that is written stays.
            column[parents[order]] = found[order]
            ones = of.found[self._number] = column.data
        return ones

    def _all(self, of: Elements) -> tuple[Column, Column]:
        """The children that are found in all nodes of a tree, and the nodes that they are in."""
        is_wanted = np.zeros(len(KINDS), bool)
        is_wanted[list(self._kinds)] = True
        columns = of.columns()
        found = np.flatnonzero(is_wanted[columns.kind] & (columns.parent != NO_PARENT)).astype(np.uint32)
        parents = columns.parent[found]
        if not isinstance(self._mark, Rule):
            return found, parents
        marks = np.asarray(self._mark._ones(of))[parents]
        is_there = {'before': (marks == 0) | (found < marks), 'only_before': found < marks,
                    'after': (marks > 0) & (found > marks), 'past': found > marks}[self._place]
        return found[is_there], parents[is_there]


class Child(Rule, Generic[N]):
    """A field of one child."""

    __slots__ = ()

    @overload
    def __get__(self, node: None, owner: type[Node]) -> Child[N]: ...

    @overload
    def __get__(self, node: Node, owner: type[Node]) -> N | None: ...

    def __get__(self, node: Node | None, owner: type[Node]) -> Child[N] | N | None:
        if node is None:
            return self
        of = node._of
        try:
            at = of.found[self._number][node._index]
        except KeyError:
            at = self._ones(of)[node._index]
        if not at:
            return None
        view = self._only
        if view is None:
            view = CLASSES[of.words[5 * at]]
            self._only = view if len(self._kinds) == 1 else None
        return view(of, at)  # type: ignore[return-value]


class Leaf(Child[Token]):
    """A field of a token."""

    __slots__ = ()

    def __init__(self, kinds: Iterable[Kind]) -> None:
        super().__init__(kinds)
        self._only = Token


class Children(Rule, Generic[N]):
    """A field of several children."""

    __slots__ = ()

    @overload
    def __get__(self, node: None, owner: type[Node]) -> Children[N]: ...

    @overload
    def __get__(self, node: Node, owner: type[Node]) -> list[N]: ...

    def __get__(self, node: Node | None, owner: type[Node]) -> Children[N] | list[N]:
        return self if node is None else [cast('N', node._of.node(it)) for it in self._indices(node)]


def of(node: Node) -> Node:
    """A node as one of the class of its kind, which it is already if it was made since `rap.ast` was imported."""
    return node._of.node(node._index)


def walk(node: Element, view: type[N]) -> Iterator[N]:
    """All nodes in a node that are of a class, in preorder, without itself."""
    kinds = [Kind(kind) for kind, its in CLASSES.items() if issubclass(its, view)]
    return (it for it in node.descendants(kinds) if isinstance(it, view))
