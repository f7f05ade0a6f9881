"""Several threads and processes at a time."""
import glob
import os
from concurrent.futures import ThreadPoolExecutor

import rap

TOP = os.path.dirname(os.path.dirname(os.path.dirname(os.path.dirname(os.path.abspath(__file__)))))


def test_eight_threads_have_the_trees_of_one() -> None:
    texts = []
    for name in sorted(glob.glob(f'{TOP}/bindings/**/src/**/*.rs', recursive=True)):
        with open(name, 'rb') as file:
            texts.append(file.read())
    assert len(texts) > 20

    def tree(text: bytes) -> bytes:
        return b''.join(it.tobytes() for it in rap.parse(text).columns())

    wanted = [tree(it) for it in texts]
    with ThreadPoolExecutor(8) as pool:
        assert list(pool.map(tree, texts * 5)) == wanted * 5
