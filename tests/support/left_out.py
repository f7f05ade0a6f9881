"""What the parts of the full test leave out.

A part says in a line what it leaves out, and notes that line, in a file of its own that it begins anew when it starts.
`tests/run`, the last part, says at its end what each part left out when it last ran here."""
import os

from support import TOP

# Each part, with the file of its notes. `examples/run` and `bindings/run` write theirs by the shell.
NOTES = {part: f'{TOP}/examples/target/left_out/{os.path.dirname(part)}'
         for part in ('examples/run', 'release/gate', 'tests/run')}


def begin(part: str) -> None:
    """Begins the notes of a part anew."""
    os.makedirs(os.path.dirname(NOTES[part]), exist_ok=True)
    with open(NOTES[part], 'w', encoding='utf-8'):
        pass


def leave_out(part: str, line: str) -> None:
    """Prints a line that says what a part leaves out, and notes it."""
    print(line, flush=True)
    os.makedirs(os.path.dirname(NOTES[part]), exist_ok=True)
    with open(NOTES[part], 'a', encoding='utf-8') as file:
        file.write(f'{line}\n')


def noted() -> list[str]:
    """A line that says what follows, and the lines that were noted, each once. Nothing if no part left anything out."""
    lines: dict[str, None] = {}
    for notes in NOTES.values():
        if os.path.exists(notes):
            with open(notes, encoding='utf-8') as file:
                lines.update(dict.fromkeys(file.read().splitlines()))
    return ['What the parts of the full test left out when they last ran here:', *lines] if lines else []
