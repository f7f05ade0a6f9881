"""What an installed release must do: the programs, their manuals, the library for C."""
from collections.abc import Iterator, Sequence

from packing import TRIPLET, crate_version, read
from packing.python import COMMAND
from packing.source import PROGRAMS, SERVER
from trying import TESTS, Fresh, Place, shown_in_python

PACKAGES = ['rast', 'rast-server', 'librap0', 'librap-dev', 'python3-rap']

# A project of CMake, of a version of the library: the same program over the shared library and over the static one.
PROJECT = '''cmake_minimum_required(VERSION 3.18)
project(outline C)
find_package(rap {0} REQUIRED CONFIG)
find_package(Threads REQUIRED)
foreach(kind rap static)
  add_executable(outline_${{kind}} {1}/outline.c)
  target_link_libraries(outline_${{kind}} rap::${{kind}} Threads::Threads)
endforeach()
'''

# The completion of a word of each program, as its manual says what the word may be.
COMPLETED = {'rast 2024 M': 'MacroItems MacroStmts MetaItem', 'rast_page 20': '2015 2018 2021 2024',
             'rast_lex 2024 FILE s': 'single script', 'rast_lex --': '--help --version', 'rast_core 201': '2015 2018',
             'rast_steps --prefix P': 'Pat PatTop Path'}


def recorded() -> Iterator[tuple[str, str]]:
    """Lines of the shell that start a program on a file, each with what it must print, as the repository has it."""
    for name in ['rast', 'rast_lex', 'rast_steps']:
        words = read(f'crates/{name}/args').split()
        yield ' '.join([name, *words]), read(f'crates/{name}/stdout')


def try_programs(place: Place, before: str = '') -> None:
    """Runs each program on a file. `before` is the folder of the programs, with a slash, if that is not in the path."""
    for line, wanted in recorded():
        *words, file = line.split()
        place.prints(before + line, wanted)
        place.prints(f'cat {file} | {before}{" ".join(words)} /dev/stdin', wanted)
    # 60,000 levels take more than the 8 MB of stack that a shell gives
    deep = "head -c 60000 /dev/zero | tr '\\0' '(' > deep.rs; ulimit -S -s 8192"
    place.prints(f'{deep}; {before}rast 2024 Expr deep.rs > /dev/null; echo $?', '1\n')
    status, out, _ = place.run(f'{before}rast_page 2024 Expr a.rs')
    wanted = '{"file":"a.rs","steps":[0,1,"LITERAL",2,"INT_NUMBER","7",0],"messages":[0]}'
    place.count.check(status == 0 and wanted in out, f'{before}rast_page: {status}, and not the page that is wanted')
    outside = [it for it in read('crates/rast_core/stdout').splitlines() if it.startswith('outside.rs:')]
    one = ''.join(f'{it.removeprefix("outside.rs:")}\n' for it in outside)
    place.prints(f'{before}rast_core 2021 outside.rs; echo $?', f'{one}1\n')
    named = ''.join(f'{it}\n' for it in outside)
    wanted = f'{named}a.rs:SOURCE_FILE@0..1\n1\n'
    place.prints(f'{before}rast_core 2021 outside.rs a.rs; echo $?', wanted)
    place.prints(f'mkdir told && cp outside.rs told/b.rs && {before}rast_core 2021 told; rm -r told',
                 named.replace('outside.rs:', 'told/b.rs:'))
    for name in ('/dev/stdin', '-'):
        place.prints(f"echo 'fn f() {{}}' | {before}rast_core 2021 {name}", '')
    for name in PROGRAMS[1:]:
        place.prints(f'{before}{name} --version', f'{name} {crate_version()}\n')
        status, out, _ = place.run(f'{before}{name} --help')
        is_told = status == 0 and out.startswith(f'usage: {name}')
        place.count.check(is_told, f'{before}{name} --help: {status}\n{out}')


def try_server(place: Place, before: str = '') -> None:
    """Holds two exchanges with the language server: the recorded one, and one about a text that nests deep. `before` is
    as above."""
    place.prints(f'{before}{SERVER} < {SERVER}.sent > answered && cmp answered {SERVER}.answered && rm answered', '')
    line = f"ulimit -S -s 8192; {before}{SERVER} < {SERVER}.deep | grep -o 'Content-Length: ' | wc -l"
    place.prints(f'set -o pipefail; {line}', '3\n')


def try_words(place: Place, share: str = '/usr/share', more: Sequence[str] = ()) -> None:
    """Reads each manual, also those of more programs, and completes words."""
    for name in [*PROGRAMS, *more]:
        status, out, err = place.run(f'MANPATH={share}/man MANWIDTH=90 man -P cat {name}')
        is_read = status == 0 and f'{name} - ' in out and 'EXIT STATUS' in out and not err
        place.count.check(is_read, f'man {name}: {status} {err}')
    for words, wanted in COMPLETED.items():
        *_, last = parts = words.split()
        line = (f'. {share}/bash-completion/completions/{parts[0]}; COMP_WORDS=({words}); '
                f'COMP_CWORD={len(parts) - 1}; _rast {parts[0]} {last}; echo "${{COMPREPLY[*]}}"')
        place.prints(line, f'{wanted}\n')


def try_library(place: Place, examples: str, flags: str = '', run: str = '') -> None:
    """Compiles and runs the examples in C, shared and static. `flags` go before each pkg-config, `run` each program."""
    made = f'{place.home}/made'
    place.succeeds(f'mkdir -p {made}')
    for kind, compiled in [('', '{0} --cflags --libs rap'), ('-static', '{0} --static --cflags --libs rap')]:
        for name in ['tree', 'records', 'words', 'deep', 'lists', 'outline']:
            config = compiled.format(f'{flags}pkg-config')
            line = f'cc -O2 -Wall -Werror -pthread {kind} {examples}/{name}.c $({config}) -o {made}/{name}'
            if not place.succeeds(line):
                continue
            if name == 'tree':
                place.prints(f'{run}{made}/tree 2024 Expr sum.rs', read('crates/rast/stdout'))
            elif name == 'outline':
                place.prints(f'{run}{made}/outline 2024 outline.rs', read('examples/data/outline.txt'))
            else:
                place.succeeds(f'{run}{made}/{name} {"2024 Expr " if name == "deep" else ""}sum.rs')
    place.succeeds(f'rm -r {made}')


def try_cmake(place: Place, examples: str, flags: str = '', run: str = '') -> None:
    """Builds and runs an example by CMake, shared and static. `flags` are for cmake, `run` goes before each program."""
    made = f'{place.home}/made'
    for version, is_well in [(crate_version(), True), ('99.0', False)]:
        written = f"mkdir -p {made} && printf '%s' '{PROJECT.format(version, examples)}' > {made}/CMakeLists.txt"
        status, out, err = place.run(f'{written} && cmake {flags} -S {made} -B {made}')
        place.count.check((status == 0) == is_well, f'cmake for version {version}: the status {status}\n{out}{err}')
        if is_well and status == 0 and place.succeeds(f'cmake --build {made}'):
            for kind, is_shared in [('rap', True), ('static', False)]:
                place.prints(f'{run}{made}/outline_{kind} 2024 outline.rs', read('examples/data/outline.txt'))
                needed = place.run(f'{run}ldd {made}/outline_{kind}')[1]
                place.count.check(('librap.so.0 => /' in needed) == is_shared, f'outline_{kind} needs\n{needed}')
        place.succeeds(f'rm -r {made}')


def try_python(place: Place, before: str = '', command: str = COMMAND) -> None:
    """Tries the package for Python: what README shows, a file as `rast` prints it, its own tests, and its command.
    `before` stands before python3 and before the command."""
    place.prints(f'{before}python3 shown.py', shown_in_python()[1])
    lines = 'import rap; print(rap.parse(open("sum.rs", "rb").read(), entry="Expr").dump(), end="")'
    place.prints(f"{before}python3 -c '{lines}'", read('crates/rast/stdout'))
    place.succeeds(f'{before}python3 -B -m pytest -q -p no:cacheprovider {" ".join(TESTS)}')
    status, out, err = place.run(f'{before}{command} . --out items.sqlite --quiet')
    is_read = status == 0 and out.endswith(' files parsed, 0 with a text that was there, 0 not read\n')
    place.count.check(is_read, f'{before}{command}: the status {status}\n{out}{err}')
    place.prints('python3 item.py', "[('FN', 'main', 1, 3)]\n")
    place.succeeds('rm items.sqlite')


def try_wheel(place: Place, file: str) -> None:
    """Installs the wheel into a folder, with the library that is in it, and tries it."""
    status, out, _ = place.run('python3 -c "import rap"')
    place.count.check(status != 0, f'rap is there before\n{out}')
    at = f'{place.home}/wheel'
    place.succeeds(f'python3 -m pip install --quiet --no-index --no-deps --target {at} {file}')
    try_python(place, f'PYTHONPATH={at} ', f'{at}/bin/{COMMAND}')
    place.succeeds(f'rm -r {at}')


def try_packages(fresh: Fresh) -> None:
    """Installs the packages in a fresh system, tries all that they have, and removes them."""
    fresh.is_free()
    before = fresh.all()
    apt = 'apt-get -q -y -o APT::Sandbox::User=root'
    if not fresh.succeeds(f'{apt} install ./*.deb', '/release'):
        return
    try_programs(fresh)
    try_server(fresh)
    try_words(fresh, more=[COMMAND])
    try_library(fresh, '/usr/share/doc/librap-dev/examples')
    try_cmake(fresh, '/usr/share/doc/librap-dev/examples')
    try_python(fresh)
    needed = fresh.run('cc /usr/share/doc/librap-dev/examples/tree.c -lrap -o /tmp/tree && ldd /tmp/tree')[1]
    is_own = f'librap.so.0 => /lib/{TRIPLET}/librap.so.0' in needed
    fresh.count.check(is_own, f'the example uses another library\n{needed}')
    fresh.succeeds(f'{apt} purge {" ".join(PACKAGES)}', '/release')
    left = sorted(fresh.all() ^ before)
    fresh.count.check(not left, f'after the removal: {" ".join(left)}')


def try_tar(place: Place, file: str, reads: bool, builds: bool) -> None:
    """Tries the tar file under a prefix in the home folder, when no package is installed. `reads` the manuals too, and
    `builds` by CMake."""
    place.is_free()
    prefix = f'{place.home}/prefix'
    place.succeeds(f'mkdir -p {prefix} && tar -xzf {file} -C {prefix} --strip-components=1')
    try_programs(place, f'{prefix}/bin/')
    try_server(place, f'{prefix}/bin/')
    if reads:
        try_words(place, f'{prefix}/share')
    try_library(place, f'{prefix}/share/doc/rap/examples', f'PKG_CONFIG_PATH={prefix}/lib/pkgconfig ',
                f'LD_LIBRARY_PATH={prefix}/lib ')
    if builds:
        try_cmake(place, f'{prefix}/share/doc/rap/examples', f'-DCMAKE_PREFIX_PATH={prefix}',
                  f'LD_LIBRARY_PATH={prefix}/lib ')
    place.succeeds(f'rm -r {prefix}')
