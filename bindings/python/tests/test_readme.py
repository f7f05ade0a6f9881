"""What the document shows."""
import contextlib
import io
import os
import re
import textwrap

import rap

PACKAGE = os.path.dirname(os.path.dirname(os.path.abspath(__file__)))


def read(name: str) -> str:
    """A file of the package."""
    with open(f'{PACKAGE}/{name}', encoding='utf-8') as file:
        return file.read()


def test_the_program_prints_what_is_shown() -> None:
    program, shown = re.findall(r'(?m)(?:^    .*\n|^\n(?=    ))+', read('README.md'))[:2]
    out = io.StringIO()
    with contextlib.redirect_stdout(out):
        exec(textwrap.dedent(program), {})
    assert out.getvalue() == textwrap.dedent(shown).lstrip('\n')


def test_the_version_is_that_of_the_crate() -> None:
    wanted = f'version = "{rap.__version__}"'
    assert wanted in read('pyproject.toml') and wanted in read('../rust/Cargo.toml')
