"""The items of a text: functions, types, traits, impls, modules, macros, uses and the like, as rows."""
from __future__ import annotations

from typing import NamedTuple

import numpy as np
from numpy.typing import NDArray

from rap import Kind, Tree
from rap.kinds import KINDS

ITEMS = [Kind.FN, Kind.STRUCT, Kind.ENUM, Kind.UNION, Kind.TYPE_ALIAS, Kind.TRAIT, Kind.IMPL, Kind.MODULE,
         Kind.MACRO_RULES, Kind.MACRO_DEF, Kind.MACRO_CALL, Kind.USE, Kind.CONST, Kind.STATIC, Kind.EXTERN_CRATE,
         Kind.EXTERN_BLOCK]

# The nodes in which a macro call is an item.
LISTS = [Kind.SOURCE_FILE, Kind.ITEM_LIST, Kind.ASSOC_ITEM_LIST, Kind.EXTERN_ITEM_LIST]

# What stands in an `impl` beside its types.
BESIDE_TYPES = [Kind.DOC_COMMENT, Kind.ATTR, Kind.VISIBILITY, Kind.GENERIC_PARAM_LIST, Kind.WHERE_CLAUSE,
                Kind.ASSOC_ITEM_LIST, Kind.ERROR]

# Where the name of an item is that has no NAME.
NAMED_BY = {Kind.USE: Kind.USE_TREE, Kind.EXTERN_BLOCK: Kind.ABI, Kind.MACRO_CALL: Kind.PATH,
            Kind.EXTERN_CRATE: Kind.NAME_REF}


Indices = NDArray[np.intp]


def _table(kinds: list[Kind]) -> NDArray[np.bool_]:
    """Whether each kind is one of these."""
    return np.isin(np.arange(len(Kind)), kinds)


_IS_ITEM, _IS_LIST = _table(ITEMS), _table(LISTS)


class Item(NamedTuple):
    """An item of a text: a row of the table `items` after the text's digest."""

    number: int
    """which of the text's items it is, in the order of their begins, from 0 on"""
    parent: int | None
    """the number of the item that it is in"""
    kind: str
    """its kind, as FN"""
    name: str
    """its name; for `impl`, `use` and `extern` what stands in its place"""
    path: str
    """the names of the items that it is in, and its own, as `shapes::Circle::area`"""
    visibility: str
    """as `pub(crate)`; empty where nothing is written"""
    doc: str
    """the text of its documentation comments"""
    start_byte: int
    """its first byte, comments and attributes before it included"""
    end_byte: int
    """the byte after its last"""
    first_line: int
    """the line of its first byte; the first is 1"""
    last_line: int
    """the line of its last byte"""
    errors: int
    """how many messages are in it"""
    unsafe_blocks: int
    """how many `unsafe` blocks are in it"""


class Facts(NamedTuple):
    """What is known of a text beside its items: a row of the table `texts` after the digest."""

    bytes: int
    lines: int
    errors: int | None
    """how many messages; None where it was not parsed"""
    unsafe_blocks: int | None
    """how many `unsafe` blocks; None where it was not parsed"""
    reason: str | None
    """why it was not parsed"""


def _comment(text: str) -> str:
    """The text of a documentation comment, without its marks."""
    if not text.startswith('/*'):
        return text[3:].strip()
    lines = (it.strip() for it in text[3:].removesuffix('*/').strip().split('\n'))
    return '\n'.join(it.removeprefix('*').strip() for it in lines)


class _Reader:
    """Reads the items of a tree from its columns."""

    def __init__(self, tree: Tree) -> None:
        self.data = tree.source.data
        self.words = tree.words
        self.columns = tree.columns()

    def children(self, index: int) -> list[tuple[int, int]]:
        """The kinds and the indices of what is right in a node."""
        words, at, after, found = self.words, index + 1, self.words[5 * index + 3], []
        while at < after:
            found.append((words[5 * at], at))
            at = words[5 * at + 3]
        return found

    def text(self, index: int) -> str:
        """The text of a node or token, with one blank in the place of each run of white space."""
        return ' '.join(self.data[self.words[5 * index + 1]:self.words[5 * index + 2]].decode().split())

    def name(self, kind: Kind, children: list[tuple[int, int]]) -> str:
        """The name of an item, or what stands in its place."""
        if kind is Kind.IMPL:
            return self.impl_name(children)
        first = dict(reversed(children))
        at = first.get(NAMED_BY.get(kind, Kind.NAME), first.get(Kind.NAME))
        found = '' if at is None else self.text(at)
        return f'{found}!' if kind is Kind.MACRO_CALL else found

    def impl_name(self, children: list[tuple[int, int]]) -> str:
        """`Type`, or `<Type as Trait>`."""
        types = [self.text(at) for kind, at in children if kind > Kind.SHEBANG and kind not in BESIDE_TYPES]
        is_of_trait = any(kind == Kind.FOR_KW for kind, _ in children)
        return f'<{types[1]} as {types[0]}>' if is_of_trait and len(types) == 2 else ''.join(types[:1])

    def comments(self, children: list[tuple[int, int]], wanted: Kind) -> list[str]:
        """The documentation comments among what is right in a node, if their tokens have this kind."""
        words = self.words
        found = [at for kind, at in children if kind == Kind.DOC_COMMENT and words[5 * (at + 1)] == wanted]
        return [_comment(self.data[words[5 * at + 1]:words[5 * at + 2]].decode()) for at in found]

    def doc(self, kind: Kind, children: list[tuple[int, int]]) -> str:
        """The text of an item's documentation comments."""
        found = self.comments(children, Kind.OUTER_DOC_COMMENT)
        if kind is Kind.MODULE:
            found += [it for below, at in children if below == Kind.ITEM_LIST
                      for it in self.comments(self.children(at), Kind.INNER_DOC_COMMENT)]
        return '\n'.join(found)

    def visibility(self, children: list[tuple[int, int]]) -> str:
        """The text of an item's visibility."""
        return next((self.text(at) for kind, at in children if kind == Kind.VISIBILITY), '')

    def indices(self) -> Indices:
        """The indices of the items."""
        kind, parent = self.columns.kind, self.columns.parent
        found: Indices = np.flatnonzero(_IS_ITEM[kind])
        is_item: NDArray[np.bool_] = (kind[found] != Kind.MACRO_CALL) | _IS_LIST[kind[parent[found]]]
        return found[is_item]

    def unsafe_blocks(self) -> Indices:
        """The indices of the words `unsafe` that begin a block."""
        kind, parent = self.columns.kind, self.columns.parent
        found: Indices = np.flatnonzero(kind == Kind.UNSAFE_KW)
        begins: NDArray[np.bool_] = kind[parent[found]] == Kind.BLOCK_EXPR
        return found[begins]


def _line_ends(tree: Tree) -> Indices:
    """Where the line feeds of a text are."""
    return np.flatnonzero(np.frombuffer(tree.source.data, np.uint8) == 10)


def facts_of(tree: Tree) -> Facts:
    """What is known of a parsed text."""
    data = tree.source.data
    lines = data.count(b'\n') + (not data.endswith(b'\n') and data != b'')
    return Facts(len(data), lines, tree.error_count, len(_Reader(tree).unsafe_blocks()), None)


def items_of(tree: Tree) -> list[Item]:
    """The items of a tree, in the order of their begins."""
    reader = _Reader(tree)
    indices = reader.indices()
    start, end, after = (column[indices] for column in reader.columns[1:4])
    ends, unsafe = _line_ends(tree), reader.unsafe_blocks()
    positions = np.array([it.position for it in tree.errors], np.int64)
    lines = np.searchsorted(ends, start) + 1, np.searchsorted(ends, end - 1) + 1
    errors = np.searchsorted(positions, end, 'right') - np.searchsorted(positions, start)
    blocks = np.searchsorted(unsafe, after) - np.searchsorted(unsafe, indices)
    found: list[Item] = []
    around: list[tuple[int, Item]] = []
    columns = (it.tolist() for it in (indices, after, start, end, *lines, errors, blocks))
    for index, last, *numbers in zip(*columns):
        while around and around[-1][0] <= index:
            around.pop()
        outer = around[-1][1] if around else None
        kind, children = KINDS[reader.words[5 * index]], reader.children(index)
        name = reader.name(kind, children)
        path = f'{outer.path}::{name}' if outer else name
        item = Item(len(found), outer.number if outer else None, kind.name, name, path, reader.visibility(children),
                    reader.doc(kind, children), *numbers)
        around.append((last, item))
        found.append(item)
    return found
