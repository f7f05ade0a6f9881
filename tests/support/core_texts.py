"""The texts of tests/core.texts: each with whether the core grammar derives it."""
from support import TOP

FILE = f'{TOP}/tests/core.texts'


def texts() -> list[tuple[str, bool]]:
    """The texts, in the order of the file."""
    found = []
    with open(FILE, encoding='utf-8') as lines:
        for line in lines:
            mark, _, text = line.rstrip('\n').partition(' ')
            if mark in ('+', '*', '~', '-'):
                found.append((text.replace('\\n', '\n'), mark in ('+', '*')))
            elif mark not in ('', '#'):
                raise ValueError(f'{FILE}: none of + * ~ -: {line}')
    return found
