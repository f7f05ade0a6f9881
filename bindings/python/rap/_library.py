"""The shared library: where it is, and its calls.

It is the file that the environment variable RAP_LIBRARY names; else `librap.so.0` beside this package; else the one
that the system's loader finds."""
import os
from typing import Any

import cffi

from rap._declarations import DECLARATIONS, VERSION

NAME = 'librap.so.0'

ffi: Any = cffi.FFI()
ffi.cdef(DECLARATIONS)


def _open() -> Any:
    """The library. ImportError where there is none, or one that does not have the calls which are made here."""
    beside = os.path.join(os.path.dirname(os.path.abspath(__file__)), NAME)
    path = os.environ.get('RAP_LIBRARY') or (beside if os.path.exists(beside) else NAME)
    try:
        found: Any = ffi.dlopen(path)
        version = found.rap_version()
        found.rap_nodes, found.rap_core
    except (OSError, AttributeError) as why:
        raise ImportError(f'rap needs {NAME}, which RAP_LIBRARY may name: {why}') from None
    if version // 1000000 != VERSION[0] or version // 1000 % 1000 < VERSION[1]:
        raise ImportError(f'rap needs version {VERSION[0]}.{VERSION[1]} of {NAME}: {path} has {version}')
    return found


lib = _open()


def status_text(status: int) -> str:
    """The library's words for a status."""
    room = ffi.new('uint8_t[64]')
    return bytes(ffi.buffer(room, lib.rap_status_text(status, room, 64))).decode()
