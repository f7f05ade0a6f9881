"""Messages to a language server, and those that it sends."""
import json
from typing import Any

# The document of the exchanges.
URI = 'file:///a.rs'


def framed(message: Any) -> bytes:
    """A message with its header."""
    content = json.dumps(message, ensure_ascii=False).encode()
    return b'Content-Length: %d\r\n\r\n' % len(content) + content


def ask(number: int, method: str, params: Any) -> bytes:
    """A request."""
    return framed({'jsonrpc': '2.0', 'id': number, 'method': method, 'params': params})


def tell(method: str, params: Any) -> bytes:
    """A notification."""
    return framed({'jsonrpc': '2.0', 'method': method, 'params': params})


def start(encodings: list[str]) -> bytes:
    """`initialize` with the encodings of positions that are offered, and `initialized`."""
    general = {'positionEncodings': encodings} if encodings else {}
    params = {'processId': None, 'rootUri': None, 'capabilities': {'general': general}}
    return ask(0, 'initialize', params) + tell('initialized', {})


def stop(number: int) -> bytes:
    """`shutdown` and `exit`."""
    return ask(number, 'shutdown', None) + tell('exit', None)


def open_document(uri: str, version: int, text: str) -> bytes:
    """The `didOpen` of a text."""
    return tell('textDocument/didOpen', {'textDocument': {'uri': uri, 'languageId': 'rust', 'version': version,
                                                          'text': text}})


def messages_of(out: bytes) -> list[Any]:
    """The messages in a row, each with its header."""
    messages = []
    while out:
        header, empty, out = out.partition(b'\r\n\r\n')
        assert empty and header.startswith(b'Content-Length: '), header
        count = int(header[16:])
        assert len(out) >= count
        messages.append(json.loads(out[:count]))
        out = out[count:]
    return messages
