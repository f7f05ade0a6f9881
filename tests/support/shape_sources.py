"""Where trees come from: `rast`, the static library called from C, and the package for Python."""
import concurrent.futures
import itertools
import os
import subprocess
import sys
import tempfile
from collections.abc import Iterable, Iterator
from typing import Any, Optional

from support import TOP
from support.exports import compile_test
from support.sample import TOPS
from support.shape_trees import TRIVIA, Node, Text, Tree, read_tree, tree_by_rast

# How many texts are read at a time.
AT_ONCE = 1000

# Each text with its tree, or with none if the parser makes none.
Trees = Iterator[tuple[Text, Optional[Tree]]]


def by_rast(texts: Iterable[Text]) -> Trees:
    """The trees that `rast` prints."""
    given = iter(texts)
    with concurrent.futures.ThreadPoolExecutor(len(os.sched_getaffinity(0))) as pool:
        while some := list(itertools.islice(given, AT_ONCE)):
            yield from zip(some, pool.map(tree_by_rast, some))


def by_c(texts: list[Text]) -> Trees:
    """The trees that tests/c/shapes.c prints, with a line `end` behind each."""
    given = b''.join(f'{it.edition} {TOPS.index(it.entry)} {len(it.data)}\n'.encode() + it.data for it in texts)
    with tempfile.TemporaryDirectory() as folder:
        done = subprocess.run([compile_test('shapes', folder)], input=given, stdout=subprocess.PIPE, check=False)
    trees = done.stdout.decode().split('end\n')
    if done.returncode or len(trees) != len(texts) + 1 or trees[-1]:
        sys.exit(f'tests/c/shapes.c: status {done.returncode}, and {len(trees) - 1} trees of {len(texts)} texts')
    yield from ((text, read_tree(text.data, lines) if lines else None) for text, lines in zip(texts, trees))


def by_python(texts: list[Text]) -> Trees:
    """The trees of the package for Python, by the kinds and the children of its nodes."""
    sys.path.append(f'{TOP}/bindings/python')
    try:
        import rap
    except ImportError as why:
        sys.exit(f'the package for Python: {why}')
    for text in texts:
        try:
            found = rap.parse(text.data, text.edition, text.entry)
        except ValueError:
            yield text, None
            continue
        yield text, package_tree(text, found, rap.Node)


def package_tree(text: Text, found: Any, node_type: Any) -> Tree:
    """A tree of the package for Python."""
    tree = Tree(text.data)
    tree.messages = [it.position for it in found.errors]
    elements = [found.root, *found.root.descendants()]
    nodes = []
    for it in elements:
        start, end = it.range
        nodes.append(Node(it.kind.name, start, end, isinstance(it, node_type)))
    for element, node in zip(elements, nodes):
        if node.is_node:
            children = [nodes[it.index] for it in element.children]
            node.children = [it for it in children if it.kind not in TRIVIA]
            tree.nodes.append(node)
    return tree


SOURCES = {'rast': by_rast, 'c': by_c, 'python': by_python}
