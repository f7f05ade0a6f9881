"""What holds of any text."""
import re
from bisect import bisect_right

import numpy as np
from hypothesis import given, settings
from hypothesis import strategies as st

import rap
from rap import Edition, Entry

# Texts of any characters, and texts that look like Rust, with what does not belong there.
PIECES = ['fn ', 'f', '(', ')', '{', '}', '[', ']', '<', '>', ' ', '\n', ';', ',', ':', '::', '->', '=>', '=', '+',
          '-', '*', '&', '|', '!', '#', '.', '..', "'a", "'a'", '"', '"é"', '1', '0x', '1.', 'r#"', '//', '/*', '*/',
          '///x\n', 'struct ', 'enum ', 'impl ', 'trait ', 'mod ', 'use ', 'pub ', 'unsafe ', 'async ', 'match ',
          'if ', 'else ', 'let ', 'loop ', 'macro_rules! ', 'where ', 'for ', 'in ', 'é', '🦀', '\u00a7', '\0', '\r\n',
          '---\n', '#!']
TEXTS = st.one_of(st.text(max_size=60), st.lists(st.sampled_from(PIECES), max_size=40).map(''.join))
TREES = st.builds(rap.parse, TEXTS, st.sampled_from(list(Edition)), st.sampled_from(list(Entry)))


@settings(max_examples=400, deadline=None, database=None)
@given(TREES)
def test_the_leaves_joined_are_the_text(tree: rap.Tree) -> None:
    leaves = [it for it in [tree.root, *tree.root.descendants()] if isinstance(it, rap.Token)]
    assert ''.join(it.text for it in leaves) == tree.text == tree.root.text
    assert [it.range for it in leaves] == [it.range for it in rap.tokens(tree.text, tree.edition)] or \
        b''.join(it.text.encode() for it in leaves) == tree.text.encode()


@settings(max_examples=400, deadline=None, database=None)
@given(TREES)
def test_ranges_nest(tree: rap.Tree) -> None:
    for node in [tree.root, *tree.root.descendants()]:
        at = node.range[0]
        for child in node.children:
            assert child.parent == node and child.range[0] == at
            at = child.range[1]
        assert at == node.range[1] or not node.children
        following = node.next_sibling
        assert following is None or following.range[0] == node.range[1] and following.parent == node.parent


@settings(max_examples=400, deadline=None, database=None)
@given(TREES)
def test_span_and_range_agree(tree: rap.Tree) -> None:
    data = tree.text.encode()
    for node in [tree.root, *tree.root.descendants()]:
        start, end = node.span
        assert tree.text[start:end] == node.text == data[slice(*node.range)].decode()
        before = tree.text[:start]
        assert node.line == before.count('\n') + 1
        assert node.column == len(before) - (before.rfind('\n') + 1) + 1


@settings(max_examples=400, deadline=None, database=None)
@given(TREES)
def test_columns_say_what_the_nodes_say(tree: rap.Tree) -> None:
    columns = tree.columns()
    nodes = [tree.root, *tree.root.descendants()]
    assert [it.index for it in nodes] == list(range(len(columns.kind)))
    assert [it.kind for it in nodes] == columns.kind.tolist()
    assert [it.range for it in nodes] == list(zip(columns.start.tolist(), columns.end.tolist()))
    assert [-1 if it.parent is None else it.parent.index for it in nodes] == columns.parent.astype(np.int32).tolist()
    depth = np.arange(len(nodes)) - np.cumsum(np.bincount(columns.after, minlength=len(nodes) + 1))[:len(nodes)]
    assert [len(list(it.ancestors())) for it in nodes] == depth.tolist()
    for at, node in enumerate(nodes):
        assert columns.after[at] == at + 1 + len(list(node.descendants()))


@settings(max_examples=400, deadline=None, database=None)
@given(TREES, st.data())
def test_what_is_at_a_place(tree: rap.Tree, data: st.DataObject) -> None:
    nodes = [tree.root, *tree.root.descendants()]
    size = tree.root.range[1]
    start = data.draw(st.integers(0, size))
    end = data.draw(st.integers(start, size))
    holds = [it for it in nodes if it.range[0] <= start < it.range[1] and isinstance(it, rap.Token)]
    assert tree.leaf_at(start) == (holds[0] if holds else None) and len(holds) <= 1
    if start < end:
        around = [it for it in nodes if it.range[0] <= start and end <= it.range[1]]
        assert tree.covering(start, end) == around[-1]
    else:
        assert tree.covering(start, end) in (tree.leaf_at(start - 1), tree.leaf_at(start), tree.root)


@settings(max_examples=400, deadline=None, database=None)
@given(TREES)
def test_messages_are_in_order_and_at_tokens(tree: rap.Tree) -> None:
    assert [it.position for it in tree.errors] == sorted(it.position for it in tree.errors)
    begins = [it.range[0] for it in rap.tokens(tree.text, tree.edition)]
    for error in tree.errors:
        assert error.message and error.range[0] <= error.position <= error.range[1]
        assert error.range[0] == len(tree.text.encode()) or begins[bisect_right(begins, error.range[0]) - 1] >= 0
    # A message may have two lines.
    printed = re.split(r'(?m)^(?=error \d)', tree.dump())[1:]
    assert sorted(printed) == sorted(f'error {it.position}: {it.message}\n' for it in tree.errors)
