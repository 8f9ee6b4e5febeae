"""The file of assertions stands in several crates of tests, and is the same in each."""
import glob
import os

from harness import CRATES, TOP


def differ():
    """None, or the files that are not as the first of them."""
    paths = sorted(glob.glob(os.path.join(CRATES, '*', 'src', 'assertions.rt')))
    texts = []
    for path in paths:
        with open(path, encoding='utf-8') as file:
            texts.append(file.read())
    others = [os.path.relpath(path, TOP) for path, text in zip(paths, texts) if text != texts[0]]
    return f'not as {os.path.relpath(paths[0], TOP)}: {", ".join(others)}' if others else None
