"""Rust's syntax trees, as rust-analyzer's parser has them, of any text, right or wrong.

    import rap

    tree = rap.parse('fn f(x: u32) { x + }')
    for node in tree.root.descendants(rap.Kind.FN):
        print(node, node.line, node.text)
    print(tree.errors)"""
from rap._elements import Columns, Error
from rap.kinds import Kind
from rap.node import Element, Node, Token
from rap.tree import Outside, Tokens, Tree, parse, tokens
from rap.words import Edition, Entry

__version__ = '0.0.360'

__all__ = ['Columns', 'Edition', 'Element', 'Entry', 'Error', 'Kind', 'Node', 'Outside', 'Token', 'Tokens', 'Tree',
           'parse', 'tokens']
