"""Folders that are packed: what is put into them, and how they become the same bytes each time."""
import gzip
import io
import os
import shutil
import tarfile
from collections.abc import Iterator


def zipped(data: bytes) -> bytes:
    """The bytes compressed, without a name or a time."""
    made = io.BytesIO()
    with gzip.GzipFile(filename='', mode='wb', compresslevel=9, fileobj=made, mtime=0) as out:
        out.write(data)
    return made.getvalue()


class Folder:
    """A folder whose files have modes that say nothing of who made them."""

    def __init__(self, at: str) -> None:
        self.at = at
        os.makedirs(at)

    def _place(self, name: str) -> str:
        os.makedirs(os.path.dirname(f'{self.at}/{name}'), exist_ok=True)
        return f'{self.at}/{name}'

    def write(self, name: str, data: bytes, mode: int = 0o644) -> None:
        """Writes a file."""
        with open(self._place(name), 'wb') as file:
            file.write(data)
        os.chmod(f'{self.at}/{name}', mode)

    def copy(self, name: str, source: str, mode: int = 0o644) -> None:
        """Copies a file."""
        shutil.copyfile(source, self._place(name))
        os.chmod(f'{self.at}/{name}', mode)

    def link(self, name: str, to: str) -> None:
        """Makes a symbolic link to a file beside it."""
        os.symlink(to, self._place(name))

    def all(self) -> Iterator[str]:
        """All folders, files and links in it, by name."""
        found = []
        for at, folders, files in os.walk(self.at):
            found += [os.path.relpath(f'{at}/{it}', self.at) for it in folders + files]
        return iter(sorted(found))

    def files(self) -> Iterator[str]:
        """All files in it, by name."""
        return (it for it in self.all() if os.path.isfile(f'{self.at}/{it}') and not os.path.islink(f'{self.at}/{it}'))

    def fix(self, epoch: int) -> None:
        """Gives folders their mode, and all their time."""
        for name in ['.', *self.all()]:
            if os.path.isdir(f'{self.at}/{name}'):
                os.chmod(f'{self.at}/{name}', 0o755)
            os.utime(f'{self.at}/{name}', (epoch, epoch), follow_symlinks=False)

    def pack(self, head: str, target: str, epoch: int) -> None:
        """Writes all of it as a compressed tar file, under a folder of its own."""
        made = io.BytesIO()
        self.fix(epoch)
        with tarfile.open(mode='w', fileobj=made, format=tarfile.GNU_FORMAT) as tar:
            for name in ['.', *self.all()]:
                entry = tar.gettarinfo(f'{self.at}/{name}', head if name == '.' else f'{head}/{name}')
                entry.uid, entry.gid, entry.uname, entry.gname = 0, 0, 'root', 'root'
                entry.mtime, entry.mode = epoch, 0o777 if entry.issym() else entry.mode
                if entry.isreg():
                    with open(f'{self.at}/{name}', 'rb') as file:
                        tar.addfile(entry, file)
                else:
                    tar.addfile(entry)
        with open(target, 'wb') as out:
            out.write(zipped(made.getvalue()))
