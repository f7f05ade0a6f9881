"""Files that a script of crates/ writes: whole ones, or parts of files that are else written by hand."""
import os
import re
import sys

from support import TOP

COMMENTS = {'.rt': '// {}', '.rs': '// {}', '.antt': '-- {}', '.h': '/* {} */', '.py': '# {}'}


def comment(path, text):
    """A comment of a file's language."""
    return COMMENTS[os.path.splitext(path)[1]].format(text)


def snake_case(name):
    """A name as `generic_args` of `GenericArgs`."""
    return re.sub(r'(?<!^)([A-Z])', r'_\1', name).lower()


def held(path):
    """What a file holds now: nothing if there is none."""
    if not os.path.exists(path):
        return ''
    with open(path, encoding='utf-8') as file:
        return file.read()


def whole(path, script, origin, lines):
    """A file that is written whole; the first line says of what."""
    return '\n'.join([comment(path, f'Written by {script} from {origin}: an edit here is lost.'), *lines]) + '\n'


def with_parts(path, script, parts):
    """A file with these lines in each of its parts, which stands between a comment that names it and the next `end`."""
    lines = held(path).split('\n')
    apart = [''] if path.endswith('.antt') else []  # as rt fmt sets a comment apart from the definition above it
    for name, part in parts.items():
        mark = f'{name}: written by {script} up to "end"'
        begins = [i for i, line in enumerate(lines) if line.strip() == comment(path, mark)]
        ends = [i for i, line in enumerate(lines) if begins and i > begins[0] and line.strip() == comment(path, 'end')]
        if len(begins) != 1 or not ends:
            sys.exit(f'{os.path.relpath(path, TOP)}: no single part {name} that {script} could write')
        lines[begins[0] + 1:ends[0]] = [*part, *apart]
    return '\n'.join(lines)


def write(wanted, script):
    """Writes the files that are not as wanted; with the word `--check` it only names them. Gives the status."""
    if sys.argv[1:] not in ([], ['--check']):
        sys.exit(f'usage: {script} [--check]')
    wrong = [path for path, text in wanted.items() if held(path) != text]
    if sys.argv[1:]:
        for path in wrong:
            print(f'{os.path.relpath(path, TOP)} is not what {script} writes: run it')
        return int(bool(wrong))
    for path in wrong:
        with open(path, 'w', encoding='utf-8') as file:
            file.write(wanted[path])
    return 0
