"""How long the answers of the language server are about deeply nested texts, and that none is past the limit.

Each expected answer that is compared is worked out here."""
import json
import resource
import subprocess
from collections.abc import Callable, Iterator
from typing import Any, NamedTuple

from support import built
from support.language_server import URI, ask, open_document, start, stop, tell

# The longest result of a request, in bytes.
LIMIT = 268_435_456
# How many levels the texts of the rows nest, and how many bytes an answer may have for each byte of text and message.
LEVELS = (10_000, 20_000)
MOST = 300
# How many bytes a process may map: to say that an answer is too long before it is written, and to write one of the
# limit.
LITTLE, ENOUGH = 128 << 20, 640 << 20


def place(character: int) -> dict[str, int]:
    """A position on the first line."""
    return {'line': 0, 'character': character}


class Row(NamedTuple):
    """What is asked about which text of so many levels; `None` for its diagnostics, which come unasked."""
    method: str | None
    text: Callable[[int], str]
    params: Callable[[int], dict[str, Any]] = lambda levels: {}


def returns(levels: int) -> str:
    """A function with blocks in one another, each with a `return`."""
    return 'fn f(){' + '{return;' * levels + '}' * levels + '}'


def tuples(levels: int) -> str:
    """A function with tuples in one another, each with a number."""
    return 'fn f(){' + '(1,' * levels + ')' * levels + '}'


ROWS = [
    Row(None, lambda levels: 'fn f(){' + '(' * levels),
    Row(None, lambda levels: 'fn f(){' + '{;)' * levels),
    Row('textDocument/documentSymbol', lambda levels: 'mod m{' * levels + '}' * levels),
    Row('textDocument/foldingRange', lambda levels: 'fn f()' + '{\n' * levels + '}\n' * levels),
    Row('textDocument/selectionRange', returns, lambda levels: {'positions': [place(7 + 8 * levels)]}),
    Row('textDocument/documentHighlight', returns, lambda levels: {'position': place(0)}),
    Row('textDocument/semanticTokens/full', tuples),
    Row('textDocument/semanticTokens/range', tuples,
        lambda levels: {'range': {'start': place(0), 'end': place(7 + 4 * levels)}}),
]


def held(sent: bytes, memory: int) -> list[bytes]:
    """The contents of what the server sends, with so much memory and as much stack as the system allows."""
    def limit() -> None:
        _soft, hard = resource.getrlimit(resource.RLIMIT_STACK)
        resource.setrlimit(resource.RLIMIT_STACK, (hard, hard))
        resource.setrlimit(resource.RLIMIT_AS, (memory, memory))
        resource.setrlimit(resource.RLIMIT_CORE, (0, 0))

    done = subprocess.run(built('rast_server'), input=sent, capture_output=True, preexec_fn=limit, check=False)
    if done.returncode or done.stderr:
        print(f'status {done.returncode} {done.stderr[:200]!r}')
    contents, at = [], 0
    while at < len(done.stdout):
        end = done.stdout.index(b'\r\n\r\n', at)
        count = int(done.stdout[at:end].removeprefix(b'Content-Length: '))
        contents.append(done.stdout[end + 4:end + 4 + count])
        at = end + 4 + count
    return contents


def about(number: int, method: str, more: dict[str, Any]) -> bytes:
    """A request about the document."""
    return ask(number, method, {'textDocument': {'uri': URI}, **more})


def length_of(row: Row, levels: int) -> float:
    """How many bytes the answer has for each byte of the text and the message."""
    text = row.text(levels)
    request = about(1, row.method, row.params(levels)) if row.method else b''
    contents = held(start(['utf-8']) + open_document(URI, 1, text) + request + stop(2), ENOUGH)
    answer = contents[2 if row.method else 1]
    if row.method and b'"result":' not in answer[:60]:
        print(f'{row.method} at {levels} levels: {answer[:200]!r}')
        return float('inf')
    return len(answer) / (len(text) + len(request))


def is_row_linear(row: Row) -> bool:
    """Whether an answer stays in proportion to text and message: only the digits of its numbers may grow."""
    few, many = [length_of(row, levels) for levels in LEVELS]
    if many <= MOST and many <= 1.2 * few:
        return True
    print(f'{row.method or "diagnostics"}: {few:.1f} and {many:.1f} bytes for each byte of {row.text(2)!r}')
    return False


def failed(number: int, reason: str) -> dict[str, Any]:
    """The reply to a request whose answer is too long."""
    return {'jsonrpc': '2.0', 'id': number, 'error': {'code': -32803, 'message': reason}}


def replied(number: int, result: Any) -> dict[str, Any]:
    """The reply to a request."""
    return {'jsonrpc': '2.0', 'id': number, 'result': result}


def is_refused(method: str, text: str, reason: str, memory: int) -> bool:
    """Whether the request is refused with the reason, and the server goes on with the document, and with another."""
    other = 'file:///b.rs'
    sent = start(['utf-8']) + open_document(other, 7, '//') + open_document(URI, 1, text) + about(1, method, {})
    sent += ask(2, 'rust-analyzer/viewSyntaxTree', {'textDocument': {'uri': other}}) + about(3, method, {})
    sent += tell('textDocument/didChange', {'textDocument': {'uri': URI, 'version': 2}, 'contentChanges': [
        {'range': {'start': place(0), 'end': place(len(text))}, 'text': '//a'}]})
    sent += about(4, 'rust-analyzer/viewSyntaxTree', {}) + stop(5)
    came = [json.loads(it) for it in held(sent, memory)]
    wanted = {3: failed(1, reason), 4: replied(2, 'SOURCE_FILE@0..2\n  COMMENT@0..2 "//"\n'), 5: failed(3, reason),
              7: replied(4, 'SOURCE_FILE@0..3\n  COMMENT@0..3 "//a"\n'), 8: replied(5, None)}
    if len(came) == 9 and all(came[i] == it for i, it in wanted.items()):
        return True
    print(f'{method} of {text[:20]}..: {[it for it in came if "method" not in it]}')
    return False


def tree_of_comment(text: str) -> bytes:
    """The result for a text that is one comment."""
    lines = f'SOURCE_FILE@0..{len(text)}\n  COMMENT@0..{len(text)} "{text}"\n'.replace('\x7f', r'\u{7f}')
    return json.dumps(lines).encode()


def is_tree_limited() -> bool:
    """Whether a tree of exactly the limit is given, and one of a byte more is not."""
    short = len(tree_of_comment('//' + '\x7f' * 38_000_000))
    more, rest = divmod(LIMIT - short, len(r'\\u{7f}'))
    text = '//' + '\x7f' * (38_000_000 + more) + 'a' * rest
    wanted = tree_of_comment(text)
    assert len(wanted) == LIMIT
    last = {'start': place(len(text)), 'end': place(len(text))}
    sent = start(['utf-8']) + open_document(URI, 1, text) + about(1, 'rust-analyzer/viewSyntaxTree', {})
    sent += tell('textDocument/didChange', {'textDocument': {'uri': URI, 'version': 2},
                                            'contentChanges': [{'range': last, 'text': 'a'}]})
    sent += about(2, 'rust-analyzer/viewSyntaxTree', {}) + stop(3)
    came = held(sent, 4 << 30)
    is_well = len(came) == 6 and came[2] == b'{"jsonrpc":"2.0","id":1,"result":' + wanted + b'}'
    is_well = is_well and json.loads(came[4]) == failed(2, 'the tree is too deep to be shown')
    if not is_well:
        print(f'a tree of the limit: {[it[:120] for it in came]}')
    return is_well


def ranges_at(levels: int, level: int) -> Iterator[tuple[int, int]]:
    """What may be selected at the opening brace of a level of `fn f(){{..}}`: it, the blocks around it, the whole."""
    end = 6 + 2 * levels
    yield 6 + level, 7 + level
    for i in range(level, -1, -1):
        yield 6 + i, end - i
    yield 0, end


def selection_at(levels: int, level: int) -> str:
    """The same as JSON."""
    ranges = ['{"range":{"start":{"line":0,"character":%d},"end":{"line":0,"character":%d}}' % it
              for it in ranges_at(levels, level)]
    return ',"parent":'.join(ranges) + '}' * len(ranges)


def is_selection_limited() -> bool:
    """Whether selections up to the limit are given, and with one range more they are not."""
    levels = 10_000
    deepest = selection_at(levels, levels - 1)
    count = (LIMIT - 2) // (len(deepest) + 1)
    left = LIMIT - 2 - count * (len(deepest) + 1)
    low, high = 0, levels - 1
    while low + 1 < high:
        middle = (low + high) // 2
        low, high = (middle, high) if len(selection_at(levels, middle)) <= left else (low, middle)
    sent = start(['utf-8']) + open_document(URI, 1, 'fn f()' + '{' * levels + '}' * levels)
    for i, level in enumerate((low, low + 1)):
        places = [place(6 + levels - 1)] * count + [place(6 + level)]
        sent += about(i + 1, 'textDocument/selectionRange', {'positions': places})
    sent += about(3, 'textDocument/selectionRange', {'positions': [place(6)]}) + stop(4)
    came = held(sent, ENOUGH)
    wanted = f'[{",".join([deepest] * count + [selection_at(levels, low)])}]'
    assert LIMIT - 200 < len(wanted) <= LIMIT
    is_well = len(came) == 6 and came[2] == f'{{"jsonrpc":"2.0","id":1,"result":{wanted}}}'.encode()
    is_well = is_well and json.loads(came[3]) == failed(2, 'the answer is too long')
    is_well = is_well and json.loads(came[4]) == replied(3, json.loads(f'[{selection_at(levels, 0)}]'))
    if not is_well:
        print(f'selections of the limit: {[(len(it), it[:200]) for it in came]}')
    return is_well


def are_lengths_well() -> list[bool]:
    """Whether each row is linear, and each limit holds."""
    tree, symbols = 'rust-analyzer/viewSyntaxTree', 'textDocument/documentSymbol'
    levels = LEVELS[1]
    return [*(is_row_linear(row) for row in ROWS),
            is_refused(tree, 'fn f(){' + '(' * levels, 'the tree is too deep to be shown', LITTLE),
            is_refused(symbols, 'impl A<{' * levels + '}>{}' * levels, 'the answer is too long', ENOUGH),
            is_tree_limited(), is_selection_limited()]
