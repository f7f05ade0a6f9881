#!/usr/bin/env python3
"""compare.py C_TREE RUST_TREE GREEN RAST ROWS FILE ..

Compares what the examples in C and in Rust print: of each row's text with the row's hash, and of each file with what
the program `rast` prints, with its status. GREEN, the example of a tree that is built from the steps, must print of
each file what `rast` prints with ranges. A row is `EDITION ENTRY HASH TEXT`, the text in quotes, as in
crates/rast_replay/data/texts.txt. Prints what differs, and how many were the same."""
import concurrent.futures
import os
import subprocess
import sys
import tempfile

sys.dont_write_bytecode = True
sys.path.insert(0, f'{os.path.dirname(os.path.dirname(os.path.abspath(__file__)))}/tests')

from support.sample import TOPS, fnv1a, lines_of, unquoted  # noqa: E402


def printed(program, edition, entry, file, *more):
    """What a program prints of a file, and its status."""
    run = subprocess.run([program, edition, entry, file, *more], stdout=subprocess.PIPE, stderr=subprocess.DEVNULL)
    return run.stdout, run.returncode


def is_row_same(program, folder, number, row):
    """Whether the program prints of the row's text what the row says."""
    edition, entry, want, quoted = row.split(' ', 3)
    file = os.path.join(folder, str(number))
    with open(file, 'w', encoding='utf-8', newline='') as out:
        out.write(unquoted(quoted))
    lines, status = printed(program, edition, entry, file)
    os.remove(file)
    return status < 2 and fnv1a(lines) == int(want, 16)


def compare_rows(program, rows):
    """Prints the rows that the program prints differently, and returns how many there are."""
    with tempfile.TemporaryDirectory() as folder, concurrent.futures.ThreadPoolExecutor() as pool:
        same = list(pool.map(lambda at: is_row_same(program, folder, at, rows[at]), range(len(rows))))
    for row in [row for row, is_same in zip(rows, same) if not is_same]:
        print('-', row)
    return same.count(False)


def compare_files(programs, rast, files, *more):
    """Prints the files for which a program prints something else than `rast`, which may be given one more word, and
    returns how many there are."""
    different = 0
    for file in files:
        for edition, entry in [('2024', 'SourceFile'), ('2015', 'Expr'), ('2021', 'MacroStmts')]:
            want = printed(rast, edition, entry, file, *more)
            for program in programs:
                if printed(program, edition, entry, file) != want:
                    print('-', program, edition, entry, file)
                    different += 1
    return different


def main():
    if len(sys.argv) < 7:
        sys.exit(__doc__)
    in_c, in_rust, green, rast, rows_file, *files = sys.argv[1:]
    rows = [row for row in lines_of(rows_file) if row and row.split(' ')[1] in TOPS]
    different = 0
    for program in [in_c, in_rust]:
        found = compare_rows(program, rows)
        print(f'{program}: {len(rows) - found} rows same, {found} different')
        different += found
    found = compare_files([in_c, in_rust], rast, files) + compare_files([green], rast, files, 'ranges')
    print(f'{len(files)} files as rast prints them, {found} differences')
    sys.exit(different + found > 0)


if __name__ == '__main__':
    main()
