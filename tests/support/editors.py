"""The editors in which the language server is tried, and what of them is not there."""
import shutil
import subprocess

# The program of each editor, with the packages of Debian that bring what its test needs. Emacs 29 and later has eglot.
PACKAGES = {'nvim': ['neovim'], 'emacs': ['emacs-nox', 'elpa-eglot']}

# The status with which Emacs ends here where it has no eglot, and how it looks for it: as tests/editors/emacs.el does.
NO_EGLOT = 3
LOOK = f"(progn (require 'package) (package-initialize) (kill-emacs (if (locate-library \"eglot\") 0 {NO_EGLOT})))"


def has_eglot() -> bool:
    """Whether Emacs finds eglot. If it ends in another way the answer is yes, and the test shows what is wrong."""
    done = subprocess.run(['emacs', '--batch', '--eval', LOOK], stdin=subprocess.DEVNULL, stdout=subprocess.DEVNULL,
                          stderr=subprocess.DEVNULL, check=False)
    return done.returncode != NO_EGLOT


def missing(editor: str) -> list[str]:
    """The packages of Debian that an editor's test lacks."""
    if not shutil.which(editor):
        return PACKAGES[editor]
    return ['elpa-eglot'] if editor == 'emacs' and not has_eglot() else []
