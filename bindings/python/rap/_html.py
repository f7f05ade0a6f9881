"""A tree in a notebook: the text, and the tree beside it."""
from __future__ import annotations

from html import escape
from itertools import islice
from typing import TYPE_CHECKING


if TYPE_CHECKING:
    from rap.tree import Tree

# How many characters of the text and how many lines of the tree are shown.
TEXT, LINES = 8192, 400

STYLE = 'margin:0;white-space:pre;text-align:left;overflow:auto;max-height:32em;min-width:0'


def _marked(tree: Tree) -> str:
    """The text, in which each place of a message is underlined and has the message as its title."""
    made, at = [], 0
    text = tree.text
    for error in tree.errors:
        start, end = (tree.source.characters(it) for it in error.range)
        if start < at or end > TEXT:
            continue
        shown = escape(text[start:end]) or '\u200a'
        title = escape(error.message, quote=True)
        made.append(f'{escape(text[at:start])}<span title="{title}" style="text-decoration:red wavy underline">{shown}'
                    '</span>')
        at = end
    return ''.join(made) + escape(text[at:TEXT]) + ('…' if len(text) > TEXT else '')


def page(tree: Tree) -> str:
    """A piece of a page: the text on the left, and on the right the tree with its messages."""
    lines = list(islice(tree._lines(False), LINES + 1))
    shown = [escape(it) for it in lines[:LINES]] + ['…\n'] * (len(lines) > LINES)
    shown += [f'error {it.position}: {escape(it.message)}\n' for it in tree.errors[:LINES]]
    return ('<div style="display:grid;grid-template-columns:1fr 1fr;gap:1em">'
            f'<pre style="{STYLE}">{_marked(tree)}</pre><pre style="{STYLE}">{"".join(shown)}</pre></div>')
