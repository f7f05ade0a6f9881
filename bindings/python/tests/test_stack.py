"""Deep texts, and the stacks on which they are parsed."""
import gc
import multiprocessing
import os
import re
import threading
import time
from concurrent.futures import ThreadPoolExecutor

import pytest

import rap
from rap import _stack

TOP = os.path.dirname(os.path.dirname(os.path.dirname(os.path.dirname(os.path.abspath(__file__)))))

# Texts that repeat and nest, each with its entry.
NESTED = [('(', 'Expr'), ('-', 'Expr'), ('a(', 'Expr'), ('mod a{', 'SourceFile'), ('fn f(){', 'SourceFile'),
          ('|x|', 'Expr'), ('&', 'Type'), ('[', 'Pattern'), ('if a {} else ', 'Expr')]


def stacks() -> int:
    """How many stacks there are."""
    gc.collect()
    return sum(isinstance(it, _stack.Stack) for it in gc.get_objects())


def test_the_stack_is_that_of_the_header() -> None:
    with open(f'{TOP}/include/rap.h', encoding='utf-8') as file:
        found = re.search(r'return \(\(tokens < (\d+) \? tokens : (\d+)\) \+ (\d+)\) \* (\d+);', file.read())
    assert found
    most, same, more, each = map(int, found.groups())
    assert (most, same, more, each) == (_stack.MOST_TOKENS, most, _stack.MORE_TOKENS, _stack.TOKEN)
    assert [_stack.needed(it) for it in (0, 1, 10**9)] == [more * each, (more + 1) * each, (most + more) * each]


@pytest.mark.parametrize('text, entry', NESTED)
@pytest.mark.parametrize('count', [1000, 10_000, 300_000])
def test_no_text_ends_the_process(text: str, entry: str, count: int) -> None:
    tree = rap.parse(text * count, entry=entry)
    assert tree.root.range == (0, len(text) * count)


def test_in_a_thread_with_a_small_stack() -> None:
    found: list[int] = []
    before = threading.stack_size(256 * 1024)
    try:
        thread = threading.Thread(target=lambda: found.append(len(rap.parse('(' * 5000, entry='Expr').columns().kind)))
        thread.start()
    finally:
        threading.stack_size(before)
    thread.join()
    assert found == [len(rap.parse('(' * 5000, entry='Expr').columns().kind)]
    assert threading.stack_size() == before


def test_a_stack_is_kept_for_each_thread() -> None:
    text = 'fn f() {}\n' * 1000
    rap.parse(text)
    before = stacks()
    for _ in range(20):
        rap.parse(text)
    assert stacks() == before
    with ThreadPoolExecutor(4) as pool:
        ranges = set(pool.map(lambda _: rap.parse(text).root.range, range(40)))
    assert ranges == {(0, 10000)} and stacks() == before
    rap.parse(text * 100)
    assert stacks() == before
    with pytest.raises(MemoryError, match='no stack of 1125899906842624 bytes'):
        _stack.Stack(1 << 50)


def test_a_call_in_a_call() -> None:
    text = 'fn f() {}\n' * 1000

    class Last:
        def __del__(self) -> None:
            found.append(size_of(text))

    found: list[int] = []
    for _ in range(10):
        last = Last()
        last.itself = last  # type: ignore[attr-defined]
        del last
        rap.parse(text)
    gc.collect()
    assert found == [size_of(text)] * 10


def test_messages_are_those_of_their_tree() -> None:
    tree, same = rap.parse('1 +', entry='Expr'), rap.parse('1 +', entry='Expr')
    wanted = same.errors
    many = rap.parse('(' * 3000, entry='Expr')
    # more than there is room for at first, which is kept for no other text
    assert many.error_count > 3000 // 16 + 64 and len(many.errors) == many.error_count
    assert all(it.message.isprintable() and it.range[0] <= it.position <= 3000 for it in many.errors)
    assert tree.errors == wanted == [rap.Error('expected expression', (3, 3), 3)]


def test_a_fault_is_the_callers() -> None:
    text = b'a' * 100_000 + b'\xff'
    for _ in range(3):
        with pytest.raises(UnicodeDecodeError):
            rap.parse(text)
    assert rap.parse(text[:-1]).root.range == (0, 100_000)


def size_of(text: str) -> int:
    """How many elements the tree of a text has."""
    return len(rap.parse(text).columns().kind)


def test_after_a_fork() -> None:
    text = 'fn f() {}\n' * 1000
    wanted = size_of(text)
    with multiprocessing.get_context('fork').Pool(2) as pool:
        assert pool.map(size_of, [text] * 4) == [wanted] * 4
    assert size_of(text) == wanted


def test_an_interrupt_leaves_all_in_order() -> None:
    def interrupt() -> None:
        time.sleep(0.05)
        os.kill(os.getpid(), 2)

    text = '(' * 1_000_000
    thread = threading.Thread(target=interrupt)
    thread.start()
    with pytest.raises(KeyboardInterrupt):
        for _ in range(100):
            rap.parse(text, entry='Expr')
    thread.join()
    assert size_of('fn f() {}\n' * 1000) == size_of('fn f() {}\n' * 1000)
