"""The packages for cargo: `bindings/rust` with the static library in it, and `bindings/tree` over it."""
import os
import shutil

from packing import TOP, Refused, crate_version, output, read

# The packages' folders in `bindings`, and their names.
PACKAGES = {'rust': 'ra_ap_parser', 'tree': 'rap_tree'}

# The command, in a folder that has the files of a package and, of the first, `lib/librap.a`.
COMMAND = ['cargo', 'package', '--offline', '--no-verify', '--allow-dirty', '--exclude-lockfile', '--quiet']

# What goes with the library, besides the licences that each package has.
LICENCES = ['LICENSE-UNICODE', 'docs/LICENSES.md']


def crates() -> list[str]:
    """The names of the packages' files."""
    return [f'{name}-{crate_version()}.crate' for name in PACKAGES.values()]


def make_crates(work: str, dist: str, epoch: int) -> None:
    """Writes both packages into a folder. `work` has the static library, and gets a folder of the packages' files."""
    at = f'{work}/bindings'
    for name in output(['git', 'ls-files', '-z', *(f'bindings/{it}' for it in PACKAGES)]).split('\0'):
        if name:
            os.makedirs(os.path.dirname(f'{work}/{name}'), exist_ok=True)
            shutil.copyfile(f'{TOP}/{name}', f'{work}/{name}')
    for name in LICENCES:
        # What a document links to above its folder is beside it in the package.
        with open(f'{at}/rust/{os.path.basename(name)}', 'w', encoding='utf-8') as file:
            file.write(read(name).replace('](../', ']('))
    os.makedirs(f'{at}/rust/lib')
    shutil.copyfile(f'{work}/librap.a', f'{at}/rust/lib/librap.a')
    # The second package is over the first, and not over the crate of that name.
    patch = f'patch.crates-io.ra_ap_parser.path="{at}/rust"'
    for folder in PACKAGES:
        output([*COMMAND, '--config', patch, '--target-dir', f'{work}/cargo'], f'{at}/{folder}', epoch)
    for name in crates():
        if not os.path.isfile(f'{work}/cargo/package/{name}'):
            raise Refused(f'cargo package leaves no {name}')
        shutil.copyfile(f'{work}/cargo/package/{name}', f'{dist}/{name}')
