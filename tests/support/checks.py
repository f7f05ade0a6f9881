"""The checks that need no program of the repository: of documents, lists, the grammar's rules, scripts and the header.

`tests/quick` and `tests/run` call them. A check whose status is 2, and which names packages that are not there, has
checked nothing."""
import subprocess
from typing import NamedTuple

from support import TOP

# What holds the documents to the files, the pages of the grammar and the list of scripts to the scripts, and the lists
# of kinds, of fields, of recursive rules, of rows and of shapes to their tables; the tests of the grammar's page, of
# the count of the core grammar and of what a list of fields may not say; the checkers of the scripts in Python and of
# the shell; and what holds the header to the last release.
CHECKS = [['docs/check'], ['docs/grammar', '--check'], ['docs/core', '--check'], ['docs/nodes', '--check'],
          ['docs/believed', '--check'], ['crates/rap_base/kinds', '--check'], ['crates/rap_base/fields', '--check'],
          ['crates/rap_grammar_scripts/rules', '--check'], ['crates/rap_grammar_scripts/all_scripts', '--check'],
          ['crates/rap_grammar_facts/facts', '--check'], ['crates/rap_grammar_rows/rows', '--check'],
          ['crates/rap_grammar_shapes/models', '--check'], ['bindings/python/declarations', '--check'],
          ['tests/grammar_rules'], ['tests/core_share_itself'], ['tests/fields_refused'], ['tests/scripts'],
          ['release/layout']]

# What stands in a line that says what a check left out, and the status of one that left out all.
MISSING, NOTHING = ', as these packages of Debian are not there: ', 2


class Checked(NamedTuple):
    """How many checks passed and failed, none or one; what one that failed printed, and what was left out."""
    passed: int
    failed: int
    shown: str
    left_out: list[str]


def checked(words: list[str]) -> Checked:
    """Runs a check."""
    done = subprocess.run(words, cwd=TOP, stdin=subprocess.DEVNULL, stdout=subprocess.PIPE, stderr=subprocess.STDOUT,
                          text=True, check=False)
    left_out = [it for it in done.stdout.splitlines() if MISSING in it]
    if left_out and done.returncode == NOTHING:
        return Checked(0, 0, '', left_out)
    if done.returncode:
        return Checked(0, 1, f'{" ".join(words)}: status {done.returncode}\n{done.stdout}', left_out)
    return Checked(1, 0, '', left_out)
