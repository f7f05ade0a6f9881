"""Whether the children of nodes are of the shapes of docs/NODES.md."""
import os
import subprocess
import sys

TOP = os.path.dirname(os.path.dirname(os.path.dirname(os.path.dirname(os.path.abspath(__file__)))))


def test_children_are_of_their_shapes() -> None:
    words = [sys.executable, '-B', f'{TOP}/tests/shapes', '--by', 'python']
    done = subprocess.run(words, stdout=subprocess.PIPE, stderr=subprocess.STDOUT, text=True, check=False)
    assert done.returncode == 0, done.stdout
    lines = done.stdout.splitlines()
    assert len(lines) == 4 and all(' nodes are of their shape, 0 are not; ' in it for it in lines), done.stdout
