"""Calls that need a large stack.

A call that parses takes stack for each level of nesting, and a text of n bytes may nest n levels deep. So each call is
made on a stack that suffices for any text of that length: one that is kept for the thread, or one for this call alone.
The C library's contexts change to it and back, in the thread of the caller. A page of a stack takes memory only once it
is written to. Nothing of Python ever runs on such a stack."""
import mmap
import threading
from collections.abc import Callable
from typing import Any, TypeVar

import cffi

from rap._library import ffi, lib

# What a call takes: so many bytes of the stack for each token, tokens at most, and as many more for what is beside.
TOKEN, MOST_TOKENS, MORE_TOKENS = 1024, 8388607, 64

# The sizes of stacks that are kept.
LEAST_KEPT, MOST_KEPT = 1 << 24, 1 << 28

# What a signal takes that comes meanwhile, and the page at the end that must not be accessed.
OWN, PAGE = 1 << 16, 4096

# Private, in no file, with no memory set aside, and as a stack.
FLAGS = mmap.MAP_PRIVATE | mmap.MAP_ANONYMOUS | 0x4000 | 0x20000

# The first words of a context on x86-64: what follows its end, and its stack. All of it has 968 bytes.
LINK, STACK, SIZE, WORDS = 1, 2, 4, 128

_libc_ffi: Any = cffi.FFI()
_libc_ffi.cdef('''
int mprotect(void *at, size_t size, int protection);
int getcontext(uint64_t *context);
void makecontext(uint64_t *context, void *function, int count, void *answer, void *text, size_t length, size_t edition,
                 size_t entry, void *elements, size_t element_room, void *messages, size_t message_room, void *bytes,
                 size_t byte_room);
int swapcontext(uint64_t *from, uint64_t *to);
''')
_libc: Any = _libc_ffi.dlopen(None)

# How many elements, messages and bytes of messages there are, or may be.
Counts = tuple[int, int, int]

# The bytes of a message: five numbers. So many bytes of messages are kept with a stack.
MESSAGE, MOST_REPORTS = 40, 1 << 20

# The status, the counts, the messages and their bytes.
Answer = tuple[int, Counts, bytes, bytes]

# The bytes of a place.
PLACE = 24

# The status, whether the text is derived, how many places there are, and the places.
Told = tuple[int, bool, int, bytes]

T = TypeVar('T')

# Memory that no one has written to.
_memory_of: Any = ffi.new_allocator(should_clear_after_alloc=False)

_rap_nodes: Any = ffi.cast('void *', lib.rap_nodes)
_rap_core: Any = ffi.cast('void *', lib.rap_core)


def needed(length: int) -> int:
    """The bytes of stack that suffice for any text of so many bytes: `rap_stack` of include/rap.h."""
    return (min(length, MOST_TOKENS) + MORE_TOKENS) * TOKEN


class Stack:
    """A stack of so many bytes. MemoryError where there is none."""

    def __init__(self, size: int) -> None:
        self.size = size
        try:
            self._memory = mmap.mmap(-1, size, FLAGS)
        except (OSError, OverflowError):
            raise MemoryError(f'no stack of {size} bytes for a text that may need it') from None
        # Of a huge page much more is taken than most texts write to.
        self._memory.madvise(mmap.MADV_NOHUGEPAGE)
        lowest = _libc_ffi.from_buffer(self._memory)
        _libc.mprotect(lowest, PAGE, 0)
        self._caller, self._context = (_libc_ffi.new('uint64_t[]', WORDS) for _ in range(2))
        self._answer = ffi.new('struct rap_nodes_answer *')
        # Memory for messages, and how many bytes it has.
        self._reports, self.reports = _memory_of('uint8_t[]', 1), 1
        # What a context of the C library has of these stays when it takes the rest from the caller.
        self._context[LINK] = int(_libc_ffi.cast('size_t', self._caller))
        self._context[STACK], self._context[SIZE] = int(_libc_ffi.cast('size_t', lowest)), size

    def rap_nodes(self, text: bytes, edition: int, entry: int, elements: Any, rooms: Counts) -> Answer:
        """What `rap_nodes` returns of a text."""
        most, most_messages, most_bytes = rooms
        if self.reports < MESSAGE * most_messages + most_bytes:
            self._reports = _memory_of('uint8_t[]', MESSAGE * most_messages + most_bytes)
            self.reports = MESSAGE * most_messages + most_bytes
        answer, context, reports = self._answer, self._context, self._reports
        texts = reports + MESSAGE * most_messages
        _libc.getcontext(context)
        _libc.makecontext(context, _rap_nodes, 11, answer, text, len(text), edition, entry, elements, most,
                          reports, most_messages, texts, most_bytes)
        _libc.swapcontext(self._caller, context)
        messages, size = answer.messages, answer.message_bytes
        counts = answer.elements, messages, size
        if not messages or messages > most_messages or size > most_bytes:
            return answer.status, counts, b'', b''
        return answer.status, counts, ffi.buffer(reports, MESSAGE * messages)[:], ffi.buffer(texts, size)[:]

    def rap_core(self, text: bytes, edition: int, room: int) -> Told:
        """What `rap_core` returns of a text, with room for so many places."""
        answer, places = ffi.new('struct rap_core_answer *'), _memory_of('uint8_t[]', PLACE * room + 1)
        context, none = self._context, ffi.NULL
        first, sixth = int(ffi.cast('size_t', places)), _libc_ffi.cast('void *', room)
        _libc.getcontext(context)
        # The call takes six words, and those behind them are not read.
        _libc.makecontext(context, _rap_core, 6, answer, text, len(text), edition, first, sixth, 0, none, 0, none, 0)
        _libc.swapcontext(self._caller, context)
        written = ffi.buffer(places, PLACE * min(answer.places, room))[:]
        return answer.status, answer.derived == 1, answer.places, written


class _Local(threading.local):
    """The stack that is kept for a thread."""

    kept: Stack | None = None


_local = _Local()


def _call(length: int, call: Callable[[Stack], T]) -> T:
    """A call on a stack that suffices for any text of so many bytes. MemoryError where there is none."""
    need = needed(length) + OWN
    if need > MOST_KEPT:
        return call(Stack(need))
    stack, _local.kept = _local.kept, None
    if stack is None or stack.size < need:
        stack = Stack(max(LEAST_KEPT, 1 << (need - 1).bit_length()))
    answer = call(stack)
    if stack.reports <= MOST_REPORTS:
        _local.kept = stack
    return answer


def rap_nodes(text: bytes, edition: int, entry: int, elements: Any, rooms: Counts) -> Answer:
    """What `rap_nodes` of the library returns of a text: the status, how many elements, messages and bytes of messages
    there are, and the messages and their bytes, if there is room for them. MemoryError where there is no stack for
    it."""
    return _call(len(text), lambda stack: stack.rap_nodes(text, edition, entry, elements, rooms))


def rap_core(text: bytes, edition: int, room: int) -> Told:
    """What `rap_core` of the library returns of a text, with room for so many places. MemoryError where there is no
    stack for it."""
    return _call(len(text), lambda stack: stack.rap_core(text, edition, room))
