"""What the packages for cargo must do, in an empty folder and without the kit."""
import os
import re
import tarfile

from packing import crate_version, read
from packing.crates import PACKAGES, crates
from trying import Place

# A program over the first package, and one over the second.
MANIFEST = '''[package]
name = "{name}"
version = "0.1.0"
edition = "2024"

[dependencies]
{needs}

[patch.crates-io]
ra_ap_parser = {{ path = "../ra_ap_parser-{version}" }}
'''

# One token is a plus; what the text of each is follows from Rust's grammar.
PARSES = '''use ra_ap_parser::{Edition, LexedStr, Step, T, TopEntryPoint};

fn main() {
    let input = LexedStr::new(Edition::CURRENT, "1 + 2").to_input(Edition::CURRENT);
    let is_plus = |step: &Step| matches!(step, Step::Token { kind: T![+], n_input_tokens: 1 });
    println!("{}", TopEntryPoint::Expr.parse(&input).iter().filter(is_plus).count());
}
'''

LISTS = '''use rap_tree::{Edition, SyntaxKind, TopEntryPoint, Tree};

fn main() {
    let tree = Tree::of_text(Edition::CURRENT, TopEntryPoint::SourceFile, "fn f() {} fn g() {}");
    for node in tree.root().descendants().filter(|node| node.kind() == SyntaxKind::FN) {
        println!("{node}");
    }
}
'''

# Each program: its dependency, its text, and what it must print.
MADE = {'parses': ('ra_ap_parser = {{ path = "../ra_ap_parser-{0}" }}', PARSES, '1\n'),
        'patched': ('ra_ap_parser = "={0}"', PARSES, '1\n'),
        'lists': ('rap_tree = {{ path = "../rap_tree-{0}" }}', LISTS, 'fn f() {}\nfn g() {}\n')}

# All share what they are built of.
RUN = 'cargo run --release --offline --quiet --target-dir {0}/target'

# A target that the library is not for, and what cargo must say.
OTHER = 'aarch64-unknown-linux-gnu'
REFUSED = ('ra_ap_parser is built for Linux on x86-64 alone, not for {0}: build its repository from source with the '
           'Rattle kit there\n')


def try_programs(place: Place, at: str) -> None:
    """Builds and runs programs over the packages."""
    version = crate_version()
    for name, (needs, text, wanted) in MADE.items():
        os.makedirs(f'{at}/{name}/src')
        with open(f'{at}/{name}/Cargo.toml', 'w', encoding='ascii') as file:
            file.write(MANIFEST.format(name=name, needs=needs.format(version), version=version))
        with open(f'{at}/{name}/src/main.rs', 'w', encoding='ascii') as file:
            file.write(text)
        place.prints(RUN.format(at), wanted, f'{at}/{name}')


def try_examples(place: Place, at: str) -> None:
    """Builds and runs the packages' own programs."""
    parser, tree = (f'{at}/{name}-{crate_version()}' for name in PACKAGES.values())
    run = f'{RUN.format(at)} --manifest-path {parser}/Cargo.toml --example'
    place.prints(f"{run} green -- 2024 Expr sum.rs | sed 's/@[0-9]*[.][.][0-9]*//'", read('crates/rast/stdout'))
    for line in ['deep -- 2024 Expr sum.rs', 'colour -- hello.rs']:
        place.succeeds(f'{run} {line}')
    patch = f'--config \'patch.crates-io.ra_ap_parser.path="{parser}"\''
    run = f'{RUN.format(at)} {patch} --manifest-path {tree}/Cargo.toml --example'
    place.prints(f'{run} tree -- 2024 Expr sum.rs', read('crates/rast/stdout'))
    place.prints(f'{run} functions -- hello.rs', 'hello.rs:1 main\n')
    page = read('bindings/tree/README.md')
    shown = re.findall(r' Of\n\n((?:    .*\n|\n)+)it prints\n\n((?:    .*\n)+)', page)
    [[text, wanted]] = [[re.sub('(?m)^    ', '', part) for part in it] for it in shown]
    with open(f'{at}/shapes.rs', 'w', encoding='ascii') as file:
        file.write(text)
    place.prints(f'{run} outline -- {at}/shapes.rs', wanted)


def try_crates(place: Place, dist: str) -> None:
    """Tries the packages: programs over them, their own, and a target that they are not for."""
    place.is_free()
    at = f'{place.home}/packages'
    os.makedirs(at)
    for name in crates():
        with tarfile.open(f'{dist}/{name}') as tar:
            tar.extractall(at)
    try_programs(place, at)
    try_examples(place, at)
    line = f'cargo build --offline --quiet --target-dir {at}/target --target {OTHER}'
    status, _, err = place.run(line, f'{at}/parses')
    is_refused = status != 0 and REFUSED.format(OTHER) in err
    place.count.check(is_refused, f'a build for {OTHER} ends with the status {status} and\n{err}')
