"""Typed views: what the classes of `rap.ast` find."""
import glob
import os
import subprocess
import sys
from collections.abc import Iterator

import pytest

import rap
from rap import Kind, ast
from rap._views import Children, Rule
from rap.node import CLASSES

TOP = os.path.dirname(os.path.dirname(os.path.dirname(os.path.dirname(os.path.abspath(__file__)))))
sys.path.insert(0, f'{TOP}/tests')

from support.sample import TOPS, fnv1a, rows  # noqa: E402

# Of so many lines of the replayed sample one is read.
EACH = 8

FUNCTION = '''/// Says much.
#[inline]
pub async fn f<T>(self, x: &'a T) -> u8 where T: U { if x { x.len().unwrap() } else { a[1] + 2 } }
'''


def function() -> ast.Fn:
    """The function of that text."""
    [found] = ast.walk(rap.parse(FUNCTION).root, ast.Fn)
    return found


def text_of(node: rap.Element | None) -> str:
    """The text of something that must be there."""
    assert node is not None
    return node.text


def test_parts_of_a_function() -> None:
    found = function()
    params = found.param_list
    assert params is not None
    assert (text_of(found.name), text_of(found.visibility)) == ('f', 'pub')
    assert [text_of(it.ty) for it in params.params] == ["&'a T"] and text_of(params.self_param) == 'self'
    assert found.ret_type is not None and text_of(found.ret_type.ty) == 'u8'
    assert [it.text for it in found.attrs] == ['#[inline]'] and len(found.doc_comments) == 1
    assert text_of(found.async_token) == 'async' and found.unsafe_token is None and found.abi is None


def test_nodes_are_of_the_classes_of_their_kinds() -> None:
    found = function()
    assert isinstance(found, ast.Item) and isinstance(found, ast.Stmt) and isinstance(found, ast.AssocItem)
    assert not isinstance(found, ast.Expr) and isinstance(found.parent, ast.SourceFile)
    [branch] = ast.walk(found, ast.IfExpr)
    assert isinstance(branch.else_branch, ast.BlockExpr) and isinstance(branch.else_branch, ast.ElseBranch)
    assert [it.text for it in ast.walk(found, ast.Type)] == ["&'a T", 'T', 'u8', 'T', 'U']
    assert type(ast.of(found)) is ast.Fn and ast.of(found) == found


def test_matching_by_classes() -> None:
    found = []
    for node in function().descendants():
        match node:
            case ast.MethodCallExpr(receiver=ast.Expr() as receiver, name_ref=ast.NameRef(text='unwrap')):
                found.append(('unwrap', receiver.text))
            case ast.BinExpr(ast.IndexExpr(base, index), ast.Literal()):
                found.append((text_of(base), text_of(index)))
    assert found == [('unwrap', 'x.len()'), ('a', '1')]


def test_names_of_fields() -> None:
    assert ast.BinExpr._fields == ast.BinExpr.__match_args__ == ('lhs', 'rhs')
    assert ast.RetType._fields == ('ty',) and ast.NeverType._fields == rap.Node._fields == ()
    assert ast.Fn.__match_args__ == tuple(it for it in ast.Fn._fields if it not in ('attrs', 'doc_comments',
                                                                                    'visibility'))
    for view in CLASSES.values():
        assert all(isinstance(getattr(view, it), Rule) for it in view._fields)


def test_each_kind_of_nodes_has_a_class() -> None:
    nodes = {it for it in Kind if not it.is_token} | {Kind.ERROR}
    assert set(CLASSES) == nodes - {Kind.TOMBSTONE}
    assert sorted(it for it in ast.__all__ if it in ('Expr', 'Fn', 'of', 'walk')) == ['Expr', 'Fn', 'of', 'walk']


def test_what_is_missing_is_none() -> None:
    [branch] = ast.walk(rap.parse('if {}', entry='Expr').root, ast.BlockExpr)
    condition = branch.parent
    assert isinstance(condition, ast.IfExpr) and condition.then_branch == branch and condition.condition is None


def test_without_the_module_nodes_have_no_class() -> None:
    program = ("import rap, sys; tree = rap.parse('fn f() {}'); "
               "print(type(tree.root).__name__, type(tree.root.children[0]).__name__, 'rap.ast' in sys.modules); "
               "from rap import ast; print(type(tree.root).__name__, type(tree.root.children[0]).__name__)")
    done = subprocess.run([sys.executable, '-c', program], stdout=subprocess.PIPE, check=True, text=True)
    assert done.stdout == 'Node Node False\nSourceFile Fn\n'


def rules(node: rap.Node) -> list[tuple[str, Rule]]:
    """The fields of a node in their order, those of tokens too."""
    return [(name.removesuffix('_') if name == 'index_' else name, it) for name, it in vars(type(node)).items()
            if isinstance(it, Rule)]


def found_by(node: rap.Node, rule: Rule) -> list[int]:
    """The indices of what a field finds."""
    if isinstance(rule, Children):
        return list(rule._indices(node))
    child = rule._ones(node._of)[node.index]
    return [child] if child else []


def lines(tree: rap.Tree) -> Iterator[str]:
    """What is found in a tree: a line for each child, of its node, the field and itself."""
    for node in [tree.root, *tree.root.descendants()]:
        if isinstance(node, rap.Node):
            for name, rule in rules(node):
                yield from (f'{node.index} {name} {child}\n' for child in found_by(node, rule))


def test_all_fields_find_what_the_other_packages_find() -> None:
    chosen = [row for at, row in enumerate(rows()) if at % EACH == 0 and row[2] in TOPS]
    found = [line for _, edition, entry, text in chosen for line in lines(rap.parse(text, edition, entry))]
    line = f'{len(chosen)} texts, {len(found)} children: {fnv1a("".join(found).encode()):016x}\n'
    with open(f'{TOP}/tests/fields.hash', encoding='utf-8') as recorded:
        assert line == recorded.read()


@pytest.mark.parametrize('file', sorted(glob.glob(f'{TOP}/bindings/*/src/*.rs')))
def test_each_node_is_found_once(file: str) -> None:
    with open(file, 'rb') as text:
        tree = rap.parse(text.read())
    assert not tree.errors
    for node in [tree.root, *tree.root.descendants()]:
        if isinstance(node, rap.Node):
            found = [child for _, rule in rules(node) for child in found_by(node, rule)]
            nodes = [it.index for it in node.children if isinstance(it, rap.Node)]
            assert all(found.count(it) == 1 for it in nodes), node
