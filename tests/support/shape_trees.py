"""Trees as `rast` prints them, and the children of their nodes as shapes spell them: in `x.1. y` the dot in which a
float ends is no child."""
import os
import re
import subprocess
import sys
from dataclasses import dataclass, field
from typing import NamedTuple, Optional

from support import built

# A line of a tree with ranges, and one of a message.
LINE = re.compile(r'^( *)(\w+)@(\d+)\.\.(\d+)( ".*")?$')
MESSAGE = re.compile(r'^error (\d+): ')

TRIVIA = {'WHITESPACE', 'COMMENT'}

# What `rast` says of a text that it makes no tree of.
UNMEASURED = {'rast: cannot read the file', 'rast: text too long', 'rast: too many tokens'}


class Text(NamedTuple):
    """A text, and how it is read. It is printed by its name."""
    name: str
    edition: str
    entry: str
    data: bytes


@dataclass
class Node:
    """A node or a token: its kind, its bytes, and its children without white space and comments. A token has none."""
    kind: str
    start: int
    end: int
    is_node: bool = True
    children: list['Node'] = field(default_factory=list)

    def written(self) -> str:
        return ' '.join([self.kind, *(it.kind for it in self.children)])


class Tree:
    """The nodes of a tree in preorder, and the bytes before which messages stand."""

    def __init__(self, text: bytes) -> None:
        self.text = text
        self.nodes: list[Node] = []
        self.messages: list[int] = []

    def is_whole(self, node: Node) -> bool:
        """Whether a node is measured: nothing under it is an `ERROR`, and no message is in it or next to it; and it is
        not the `ERROR` that an entry puts around all that it read."""
        is_around = node is self.nodes[0] and node.kind == 'ERROR'
        return not is_around and not any(it.is_node and it.kind == 'ERROR' for it in node.children) and \
            not any(node.start <= it <= node.end for it in self.messages)


def read_tree(text: bytes, lines: str) -> Tree:
    """The tree of a text, of what `rast .. ranges` prints. Stops at a line that is none of it."""
    tree = Tree(text)
    stack: list[Node] = []
    for line in lines.split('\n')[:-1]:
        message, found = MESSAGE.match(line), LINE.match(line)
        if message:
            tree.messages.append(int(message[1]))
        elif tree.messages:
            # a message of several lines
            continue
        elif found:
            del stack[len(found[1]) // 2:]
            node = Node(found[2], int(found[3]), int(found[4]), not found[5])
            if stack and node.kind not in TRIVIA:
                stack[-1].children.append(node)
            if node.is_node:
                stack.append(node)
                tree.nodes.append(node)
        else:
            sys.exit(f'no line of a tree: {line}')
    return tree


def rast() -> list[str]:
    """The words that start `rast`: the program that RAST names, or the built one."""
    return [os.environ['RAST']] if os.environ.get('RAST') else built('rast')


def tree_by_rast(text: Text) -> Optional[Tree]:
    """The tree of a text. None where `rast` makes none."""
    words = [*rast(), text.edition, text.entry, '/dev/stdin', 'ranges']
    done = subprocess.run(words, input=text.data, capture_output=True, check=False)
    said = done.stderr.decode(errors='replace').strip()
    if said in UNMEASURED:
        return None
    if done.returncode not in (0, 1) or not done.stdout:
        sys.exit(f'{text.name}: rast ended with status {done.returncode}. {said}'.rstrip())
    return read_tree(text.data, done.stdout.decode())


class Floats:
    """The floats of a tree, told by the text: the number of a field with a dot right behind it, and behind the dot
    neither another one nor a name."""

    def __init__(self, tree: Tree) -> None:
        self.text = tree.text
        # the fields that a float ends, and those with such a field and the number behind the float's dot
        self.inner: set[int] = set()
        self.outer: set[int] = set()
        # The innermost fields come first: one that has the second number of a float ends in none of its own.
        for node in reversed(tree.nodes):
            for behind, (it, dot) in enumerate(zip(node.children, node.children[1:]), 2):
                if it.kind == 'FIELD_EXPR' and dot.kind == 'DOT' and self.is_float(it, dot):
                    self.inner.add(id(it))
                    if behind < len(node.children) and self.text[dot.end:dot.end + 1].isdigit():
                        self.outer.add(id(node))

    def is_float(self, inner: Node, dot: Node) -> bool:
        """Whether the number that ends a field and the dot behind it were one token, or the begin of one."""
        if id(inner) in self.outer or not inner.children or dot.start != inner.end:
            return False
        number = inner.children[-1]
        if not re.fullmatch(rb'[0-9][0-9_]*', self.text[number.start:number.end]):
            return False
        behind = self.text[dot.end:dot.end + 4].decode(errors='replace')[:1]
        return behind != '.' and not behind.isidentifier()

    def children(self, node: Node) -> list[Node]:
        """The children of a node as its shape spells them."""
        if id(node) in self.outer:
            return node.children
        return [child for at, child in enumerate(node.children)
                if child.kind != 'DOT' or not at or id(node.children[at - 1]) not in self.inner]
