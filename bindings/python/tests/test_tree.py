"""What trees, nodes and tokens answer, worked out by hand."""
import pytest

import rap
from rap import Edition, Entry, Kind

LINES = '''BIN_EXPR@0..6
  LITERAL@0..1
    INT_NUMBER@0..1 "1"
  WHITESPACE@1..2 " "
  PLUS@2..3 "+"
  WHITESPACE@3..4 " "
  PATH_EXPR@4..6
    PATH@4..6
      PATH_SEGMENT@4..6
        NAME_REF@4..6
          IDENT@4..6 "é"
'''


def test_a_tree_in_print() -> None:
    tree = rap.parse('1 + é', entry='Expr')
    assert tree.dump(ranges=True) == LINES
    assert tree.dump().startswith('BIN_EXPR\n  LITERAL\n    INT_NUMBER "1"\n')
    assert repr(tree) == '<Tree BIN_EXPR@0..6, 0 errors>'
    assert (tree.text, tree.edition, tree.entry) == ('1 + é', Edition.Edition2024, Entry.Expr)


def test_messages() -> None:
    tree = rap.parse('(2, +) 3', entry=Entry.Expr)
    assert tree.errors == [rap.Error('expected expression', (4, 5), 4)]
    assert tree.dump().endswith('error 4: expected expression\n')
    # The lexer's message is at 0, and the parser's at the end.
    both = rap.parse('0x +', entry='Expr')
    assert [it.position for it in both.errors] == [0, 4]
    assert both.dump().endswith('error 4: expected expression\nerror 0: Missing digits after the integer base prefix\n')


def test_editions_differ() -> None:
    def word(edition: str) -> Kind:
        return rap.tokens('async', edition)[0].kind
    assert [word(it) for it in Edition] == [Kind.IDENT, Kind.ASYNC_KW, Kind.ASYNC_KW, Kind.ASYNC_KW]
    assert rap.parse('async {}', '2018', 'Expr').root.kind == Kind.BLOCK_EXPR


@pytest.mark.parametrize('entry', list(Entry))
def test_an_empty_text(entry: Entry) -> None:
    tree = rap.parse('', entry=entry)
    assert tree.root.range == tree.root.span == (0, 0)
    assert {it.range for it in tree.root.children} <= {(0, 0)} and tree.leaf_at(0) is None
    assert tree.covering(0, 0) == tree.root
    assert len(rap.tokens('')) == 0


def test_around_a_node() -> None:
    tree = rap.parse('/* é */ fn f() {}\nfn g() {}\n')
    first, second = tree.root.descendants(Kind.FN)
    assert [first.text, second.text] == ['/* é */ fn f() {}', 'fn g() {}']
    assert (first.range, first.span) == ((0, 18), (0, 17))
    assert (second.line, second.column, second.range, second.span) == (2, 1, (19, 28), (18, 27))
    name = next(second.descendants(Kind.NAME))
    assert (name.line, name.column, repr(name)) == (2, 4, 'NAME@22..23')
    assert first.parent == second.parent == tree.root and tree.root.parent is None
    space = first.next_sibling
    assert isinstance(space, rap.Token) and space.text == '\n' and space.next_sibling == second
    assert list(name.ancestors()) == [second, tree.root]
    assert [it.kind.name for it in second.children] == ['FN_KW', 'WHITESPACE', 'NAME', 'PARAM_LIST', 'WHITESPACE',
                                                        'BLOCK_EXPR']
    assert len({first, second, name.parent}) == 2


def test_descendants_are_without_the_node() -> None:
    tree = rap.parse('a+b', entry='Expr')
    assert [it.kind.name for it in tree.root.descendants()] == [
        'PATH_EXPR', 'PATH', 'PATH_SEGMENT', 'NAME_REF', 'IDENT', 'PLUS', 'PATH_EXPR', 'PATH', 'PATH_SEGMENT',
        'NAME_REF', 'IDENT']
    assert [it.text for it in tree.root.descendants([Kind.IDENT, Kind.PLUS])] == ['a', '+', 'b']
    assert list(tree.root.descendants(Kind.BIN_EXPR)) == []


def test_places() -> None:
    tree = rap.parse('a+b*c', entry='Expr')
    assert [tree.leaf_at(it) and repr(tree.leaf_at(it)) for it in (-1, 0, 1, 4, 5)] == [
        None, "IDENT@0..1 'a'", "PLUS@1..2 '+'", "IDENT@4..5 'c'", None]
    assert [tree.covering(*it).text for it in [(2, 3), (2, 5), (1, 1), (0, 0), (1, 3), (5, 5)]] == [
        'b', 'b*c', 'a', 'a', 'a+b*c', 'c']
    right = tree.covering(2, 5)
    assert right.kind == Kind.BIN_EXPR and right.leaf_at(0) is None and right.covering(2, 2).text == 'b'
    for start, end in [(0, 2), (3, 2), (2, 6)]:
        with pytest.raises(ValueError, match=f'{start}..{end} is not a range in 2..5'):
            right.covering(start, end)


def test_an_error_is_a_node_or_a_token() -> None:
    tree = rap.parse('\u00a7 +', entry='Expr')
    found = list(tree.root.descendants(Kind.ERROR))
    assert any(isinstance(it, rap.Token) and it.text == '\u00a7' for it in [tree.leaf_at(0), *found])
    empty = [it for it in rap.parse('1 +', entry='Expr').root.descendants(Kind.ERROR)]
    assert [(isinstance(it, rap.Node), it.range, it.children) for it in empty] in ([], [(True, (3, 3), [])])


def test_tokens() -> None:
    found = rap.tokens('fn f // é\n"', '2021')
    assert [(it.kind.name, it.text) for it in found] == [
        ('FN_KW', 'fn'), ('WHITESPACE', ' '), ('IDENT', 'f'), ('WHITESPACE', ' '), ('COMMENT', '// é'),
        ('WHITESPACE', '\n'), ('STRING', '"')]
    last = found[-1]
    assert (last.parent, last.next_sibling, last.children, last.line, last.column) == (None, None, [], 2, 1)
    assert [it.range for it in found.errors] == [(11, 12)]
    assert found[1:3] == [found[1], found[2]] and found[0].kind.is_token and found[1].kind.is_trivia


def test_columns_are_views() -> None:
    tree = rap.parse('fn f() {}')
    columns = tree.columns()
    assert all(it.base is not None and not it.flags.writeable for it in columns)
    assert columns.kind[0] == Kind.SOURCE_FILE and columns.after[0] == len(columns.kind)
    assert columns.parent[0] == 2**32 - 1 and columns.end[0] == 9
    with pytest.raises(ValueError):
        columns.kind[0] = 1
    node = next(tree.root.descendants(Kind.FN))
    assert columns.kind[node.index] == Kind.FN


def test_bytes_and_characters_have_one_tree() -> None:
    text = 'fn é() { "ä" }'
    assert rap.parse(text).dump(True) == rap.parse(text.encode()).dump(True)
    assert rap.parse(text.encode()).text == text


def test_in_a_notebook() -> None:
    page = rap.parse('fn f() { "<b>" + }')._repr_html_()
    assert '&lt;b&gt;' in page and '<b>' not in page
    assert 'title="expected expression"' in page and 'error 16: expected expression' in page
    assert rap.parse('a; ' * 10000, entry='MacroStmts')._repr_html_().count('…') == 2


def test_a_file_of_the_core_grammar() -> None:
    tree = rap.parse('fn f(pair: &(u8, u8)) -> u8 { pair.0 }')
    assert (tree.is_derived(), tree.outside_core()) == (True, [])


def test_what_is_outside_of_the_core_grammar() -> None:
    # A float behind a dot, and a token of which the lexer has a message.
    tree = rap.parse('trait A = B;\nfn f() {\n    /* é */ x.0.1;\n    "\\q"\n}\n')
    assert not tree.is_derived()
    assert tree.outside_core() == [rap.Outside(Kind.STRING, (46, 50), True), rap.Outside(Kind.TRAIT, (0, 12), False),
                                   rap.Outside(Kind.FIELD_EXPR, (35, 40), False)]
    # Where only the lexer has a message, no node is listed.
    tree = rap.parse('const A: &str = "\\q";')
    assert (tree.is_derived(), tree.outside_core()) == (False, [rap.Outside(Kind.STRING, (16, 20), True)])


def test_more_places_than_there_is_room_for_at_first() -> None:
    item = 'trait A = B;\n'
    wanted = [rap.Outside(Kind.TRAIT, (at, at + 12), False) for at in range(0, 1000 * len(item), len(item))]
    assert rap.parse(item * 1000).outside_core() == wanted


def test_editions_differ_in_the_core_grammar() -> None:
    assert [rap.parse('type A = dyn B;', edition).is_derived() for edition in ('2015', '2018')] == [False, True]


def test_only_a_file_is_asked_for() -> None:
    tree = rap.parse('1 + 2', entry='Expr')
    assert (tree.is_derived(), tree.outside_core()) == (False, [])
