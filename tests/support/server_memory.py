"""What the language server answers where memory runs out, and of which documents it keeps the trees.

`tests/c/refuse.c` refuses one growth of memory in a run, or counts them."""
import json
import os
import subprocess
import tempfile
from typing import Any, Iterator, NamedTuple

from support import built
from support.language_server import URI, ask, messages_of, open_document, start, stop, tell

# What may come where memory runs out, beside the error of a request and the log of a notification.
UNREAD = {'jsonrpc': '2.0', 'id': None, 'error': {'code': -32603, 'message': 'out of memory'}}
# A reply that other tests compare.
ANY = 'any'
# What is known of the server: not initialized, initialized with no document, with one of three texts, or shut down.
FRESH, EMPTY, ONE, TWO, THREE, DOWN = 'fresh', 'empty', 'one', 'two', 'three', 'down'
OPEN = (ONE, TWO, THREE)
TEXTS = {ONE: 'fn f() {\n}\n', TWO: 'fn g() {\n}\n', THREE: 'mod m {}\n'}


class Step(NamedTuple):
    """A message that is sent, its method and id, what comes for it in each state, and the states that follow."""
    sent: bytes
    method: str
    number: int | None
    replies: dict[str, Any]
    after: dict[str, str]


def error(number: int | None, code: int, message: str) -> dict[str, Any]:
    """The reply to a request that fails."""
    return {'jsonrpc': '2.0', 'id': number, 'error': {'code': code, 'message': message}}


def log(method: str, message: str) -> dict[str, Any]:
    """What is told of a notification that fails."""
    return {'jsonrpc': '2.0', 'method': 'window/logMessage', 'params': {'type': 1, 'message': f'{method}: {message}'}}


def published(version: int) -> dict[str, Any]:
    """That a document has no messages."""
    return {'jsonrpc': '2.0', 'method': 'textDocument/publishDiagnostics',
            'params': {'uri': URI, 'version': version, 'diagnostics': []}}


def span(first: int, start_at: int, last: int, end_at: int) -> dict[str, Any]:
    """A range."""
    return {'start': {'line': first, 'character': start_at}, 'end': {'line': last, 'character': end_at}}


def symbol(name: str, kind: int, extent: dict[str, Any], own: dict[str, Any]) -> list[Any]:
    """The one symbol of a text."""
    return [{'name': name, 'kind': kind, 'range': extent, 'selectionRange': own, 'children': []}]


def tree_of_function(name: str) -> str:
    """The tree of `fn f() {\\n}\\n` with this name."""
    return f'''SOURCE_FILE@0..11
  FN@0..10
    FN_KW@0..2 "fn"
    WHITESPACE@2..3 " "
    NAME@3..4
      IDENT@3..4 "{name}"
    PARAM_LIST@4..6
      L_PAREN@4..5 "("
      R_PAREN@5..6 ")"
    WHITESPACE@6..7 " "
    BLOCK_EXPR@7..10
      STMT_LIST@7..10
        L_CURLY@7..8 "{{"
        WHITESPACE@8..9 "\\n"
        R_CURLY@9..10 "}}"
  WHITESPACE@10..11 "\\n"
'''


TREE_OF_MODULE = '''SOURCE_FILE@0..9
  MODULE@0..8
    MOD_KW@0..3 "mod"
    WHITESPACE@3..4 " "
    NAME@4..5
      IDENT@4..5 "m"
    WHITESPACE@5..6 " "
    ITEM_LIST@6..8
      L_CURLY@6..7 "{"
      R_CURLY@7..8 "}"
  WHITESPACE@8..9 "\\n"
'''
FOLD = [{'startLine': 0, 'startCharacter': 7, 'endLine': 1, 'endCharacter': 1}]
TOKENS = {'data': [0, 0, 2, 1, 0, 0, 3, 1, 14, 1]}
# What is answered about each text, worked out by hand.
ANSWERS: dict[str, dict[str, Any]] = {
    'textDocument/documentSymbol': {ONE: symbol('f', 12, span(0, 0, 1, 1), span(0, 3, 0, 4)),
                                    TWO: symbol('g', 12, span(0, 0, 1, 1), span(0, 3, 0, 4)),
                                    THREE: symbol('m', 2, span(0, 0, 0, 8), span(0, 4, 0, 5))},
    'textDocument/foldingRange': {ONE: FOLD, TWO: FOLD, THREE: []},
    'textDocument/semanticTokens/full': {ONE: TOKENS, TWO: TOKENS},
    'rust-analyzer/viewSyntaxTree': {ONE: tree_of_function('f'), TWO: tree_of_function('g'), THREE: TREE_OF_MODULE},
}


def asked(number: int, method: str) -> Step:
    """A request about the document."""
    replies: dict[str, Any] = {FRESH: error(number, -32002, 'the server is not initialized'),
                               EMPTY: error(number, -32602, 'the document is not open')}
    for state, result in ANSWERS[method].items():
        replies[state] = {'jsonrpc': '2.0', 'id': number, 'result': result}
    return Step(ask(number, method, {'textDocument': {'uri': URI}}), method, number, replies, {})


def opened(version: int, text: str) -> Step:
    """A `didOpen`, whether the document is open or not."""
    states = (EMPTY, *OPEN)
    return Step(open_document(URI, version, TEXTS[text]), 'textDocument/didOpen', None,
                dict.fromkeys(states, published(version)), dict.fromkeys(states, text))


def steps() -> list[Step]:
    """The exchange: a document is opened, changed and opened again, and each time it is asked about."""
    greeting = start(['utf-8'])
    split = greeting.index(b'Content-Length', 1)
    method, change = 'textDocument/didChange', [{'range': span(0, 3, 0, 4), 'text': 'g'}]
    changed = tell(method, {'textDocument': {'uri': URI, 'version': 2}, 'contentChanges': change})
    farewell = stop(99)
    end = farewell.index(b'Content-Length', 1)
    return [
        Step(greeting[:split], 'initialize', 0, {FRESH: ANY}, {FRESH: EMPTY}),
        Step(greeting[split:], 'initialized', None, {}, {}),
        opened(1, ONE),
        asked(1, 'textDocument/documentSymbol'),
        asked(2, 'textDocument/foldingRange'),
        Step(changed, method, None, {EMPTY: log(method, 'the document is not open'), ONE: published(2)}, {ONE: TWO}),
        asked(3, 'textDocument/semanticTokens/full'),
        asked(4, 'rust-analyzer/viewSyntaxTree'),
        opened(3, THREE),
        asked(5, 'textDocument/documentSymbol'),
        asked(6, 'rust-analyzer/viewSyntaxTree'),
        Step(farewell[:end], 'shutdown', 99,
             {FRESH: error(99, -32002, 'the server is not initialized'),
              **dict.fromkeys((EMPTY, *OPEN), {'jsonrpc': '2.0', 'id': 99, 'result': None})},
             dict.fromkeys((EMPTY, *OPEN), DOWN)),
        Step(farewell[end:], 'exit', None, {}, {}),
    ]


def is_same(wanted: list[Any], came: list[Any]) -> bool:
    """Whether the messages are those that must come."""
    return len(wanted) == len(came) and all(one in (ANY, other) for one, other in zip(wanted, came))


def exchange(refused: int | None, reply: Any, is_done: bool) -> tuple[list[Any], str]:
    """What must come if the message with this number gets this reply in the place of its own, whether what it does is
    done nevertheless, and the state at the end."""
    wanted, state = [], FRESH
    for number, step in enumerate(steps()):
        if number == refused:
            wanted.append(reply)
        elif state in step.replies:
            wanted.append(step.replies[state])
        if number != refused or is_done:
            state = step.after.get(state, state)
    return wanted, state


def explanations() -> Iterator[tuple[str, list[Any], str]]:
    """What may come if one growth is refused: a word for each way, the messages, and the state at the end."""
    whole, state = exchange(None, None, True)
    yield 'silent', whole, state
    for at in range(len(whole) + 1):
        yield 'left out', whole[:at] + [UNREAD] + whole[at:], state
    for number, step in enumerate(steps()):
        told = log(step.method, 'out of memory') if step.number is None else error(step.number, -32603, 'out of memory')
        for reply in (told, UNREAD):
            yield f'{step.method} {number}', *exchange(number, reply, False)
            if step.method == 'textDocument/didChange':
                yield f'{step.method} {number}, done', *exchange(number, reply, True)


def held(library: str, sent: bytes, words: dict[str, str]) -> tuple[int, list[Any], str]:
    """Holds an exchange, sent at once. Gives the status, the messages, and what is on standard error."""
    with tempfile.TemporaryFile() as file:
        file.write(sent)
        file.seek(0)
        done = subprocess.run(built('rast_server'), stdin=file, stdout=subprocess.PIPE, stderr=subprocess.PIPE,
                              env={**os.environ, 'LD_PRELOAD': library, 'REFUSE_KIND': 'growth', **words}, check=False)
    return done.returncode, messages_of(done.stdout), done.stderr.decode()


def way_of(status: int, came: list[Any], err: str) -> str | None:
    """By which way this came, if by any."""
    if status == 2:
        return 'ended' if err in ('usage: rast_server\n', 'rast_server: no memory\n') else None
    for way, wanted, state in explanations():
        if not err and status == (0 if state == DOWN else 1) and is_same(wanted, came):
            return way
    return None


# Ways that must be among those that came: a document that was not opened, one whose messages had no memory after it was
# changed, one whose change had none, and one that was not opened again and has its old text.
NEEDED = ['textDocument/didOpen 2', 'textDocument/didChange 5, done', 'textDocument/didChange 5',
          'textDocument/didOpen 8', 'silent']


def is_refused_well(library: str) -> bool:
    """Refuses each growth of the exchange in turn, up to the first of twenty numbers that no growth has. What is asked
    after the message for which memory ran out must be answered as with ample memory."""
    sent = b''.join(step.sent for step in steps())
    number, silent, is_well = 0, 0, True
    ways = set()
    while silent < 20:
        number += 1
        came = held(library, sent, {'REFUSE_AT': str(number)})
        way = way_of(*came)
        silent = silent + 1 if way == 'silent' else 0
        ways.add(way)
        if way is None:
            is_well = False
            print(f'growth {number}: status {came[0]}, {came[2]!r}')
            for message in came[1]:
                print(f'  {json.dumps(message)}')
    lacking = [way for way in NEEDED if way not in ways]
    print(f'{number - silent} growths were refused; never: {lacking}')
    return is_well and not lacking and number > 100


def growths(library: str, sent: bytes) -> int:
    """How many growths an exchange takes, which ends without `exit`."""
    with tempfile.NamedTemporaryFile() as count:
        status, _, err = held(library, start(['utf-8']) + sent, {'REFUSE_COUNT': count.name})
        assert status == 1 and not err, (status, err)
        return int(count.read())


def uri_of(name: str) -> str:
    """The uri of a document."""
    return f'file:///{name}.rs'


def done(words: str) -> bytes:
    """The messages of some words: `+a` opens the document a, `-a` closes it, `?a` asks about it, `!a` changes it, and
    `~a` is a change of which no text comes. Each text has split floats, of which the tree has more than is counted
    before its list is made."""
    sent = b''
    for word in words.split():
        way, name = word[0], word[1:]
        about = {'textDocument': {'uri': uri_of(name)}}
        if way == '+':
            sent += open_document(uri_of(name), 1, 'fn f() {\n    g(1, t.0.1)\n}\n' * 9)
        elif way == '-':
            sent += tell('textDocument/didClose', about)
        elif way == '?':
            sent += ask(1, 'textDocument/foldingRange', about)
        else:
            place = span(1, 6, 1, 7) if way == '!' else span(1, 6, 1, 0)
            sent += tell('textDocument/didChange', {'textDocument': {'uri': uri_of(name), 'version': 2},
                                                    'contentChanges': [{'range': place, 'text': '2'}]})
    return sent


# What is done, the documents of which the trees are kept then, and those of which none is.
KEPT = [
    ('+a', 'a', ''),
    ('+a +b +c +d', 'abcd', ''),
    ('+a +b +c +d +e', 'bcde', 'a'),
    ('+a +b +c +d +e +f', 'cdef', 'ab'),
    ('+a +b +c +d ?a +e', 'acde', 'b'),
    ('+a +b +c +d !a +e', 'acde', 'b'),
    ('+a +b +c +d ~a +e', 'bcde', 'a'),
    ('+a +b +c +d ~a', 'abcd', ''),
    ('+a +b +c +d +e ?a', 'acde', 'b'),
    ('+a +b +c +d +e !a', 'acde', 'b'),
    ('+a +b +c +d -b +e', 'acde', ''),
    ('+a +b +c +d +e +c', 'bcde', 'a'),
    ('+a +b +c +d +e ?a ?b ?c', 'abce', 'd'),
]


def are_trees_kept(library: str) -> bool:
    """Whether the trees of the four documents are kept that were asked about or changed last: a request about one of
    them takes the growths of its answer, and one about another those of a parse too."""
    known = done('+a ?a')
    least = growths(library, known + done('?a')) - growths(library, known)
    is_well = True
    for words, kept, others in KEPT:
        before = growths(library, done(words))
        costs = {name: growths(library, done(f'{words} ?{name}')) - before for name in kept + others}
        if any(costs[it] != least for it in kept) or any(costs[it] <= least for it in others):
            is_well = False
            print(f'{words}: {costs}, where an answer alone takes {least}')
    return is_well
