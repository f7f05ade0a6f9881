"""What is refused, and with which reason."""
import os
import subprocess
import sys

import pytest

import rap


@pytest.mark.parametrize('call', [rap.parse, rap.tokens])
def test_bytes_that_are_not_utf8(call: type) -> None:
    with pytest.raises(UnicodeDecodeError) as found:
        call(b'fn f\xff')
    assert isinstance(found.value, ValueError) and found.value.start == 4
    with pytest.raises(UnicodeEncodeError):
        call('a\ud800')


def test_words_that_are_none() -> None:
    with pytest.raises(ValueError, match="'2020' is not a valid Edition"):
        rap.parse('', '2020')
    with pytest.raises(ValueError, match="'File' is not a valid Entry"):
        rap.parse('', entry='File')
    with pytest.raises(TypeError, match='a text is str or bytes, and not list'):
        rap.parse([])  # type: ignore[arg-type]


def test_too_many_tokens() -> None:
    with pytest.raises(ValueError, match='too many tokens'):
        rap.parse(b';' * 8388608)


def ran(lines: str, **more: str) -> subprocess.CompletedProcess[str]:
    """Runs a program in a process of its own."""
    return subprocess.run([sys.executable, '-c', lines], env={**os.environ, **more}, text=True, check=False,
                          stdout=subprocess.PIPE, stderr=subprocess.PIPE)


NO_MEMORY = '''
import resource, rap
text = b'a + ' * 2000000
rap.parse('a')
most = int(open('/proc/self/statm').read().split()[0]) * 4096 + 40000000
resource.setrlimit(resource.RLIMIT_AS, (most, most))
try:
    rap.parse(text, entry='Expr')
except MemoryError as why:
    print('refused')
print(rap.parse('a', entry='Expr').root)
'''


def test_no_memory() -> None:
    done = ran(NO_MEMORY)
    assert (done.returncode, done.stdout) == (0, 'refused\nPATH_EXPR@0..1\n'), done.stderr


NO_LEAK = '''
import resource, rap
def size(): return int(open('/proc/self/statm').read().split()[1]) * 4096
text = 'fn f(x: u32) -> u32 { x + 1 } // é\\n' * 20 + '+'
def rounds(count):
    for _ in range(count):
        tree = rap.parse(text)
        assert len(tree.errors) == 1 and tree.columns().end[0] == len(text) + 20
rounds(1000)
before = size()
most = int(open('/proc/self/statm').read().split()[0]) * 4096 + 64000000
resource.setrlimit(resource.RLIMIT_AS, (most, most))
rounds(100000)
print(size() - before < 4000000)
'''


def test_nothing_leaks() -> None:
    done = ran(NO_LEAK)
    assert (done.returncode, done.stdout) == (0, 'True\n'), done.stderr


def test_no_library() -> None:
    done = ran('import rap', RAP_LIBRARY='/nowhere/librap.so.0')
    last = done.stderr.strip().split('\n')[-1]
    assert done.returncode == 1 and last.startswith('ImportError: rap needs librap.so.0, which RAP_LIBRARY may name: ')
