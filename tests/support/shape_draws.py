"""Texts drawn from those of the repository: with tokens left out, doubled, in another order, or put in from others."""
import random
import re
from collections.abc import Iterator

from support.shape_texts import table_texts, tight_texts
from support.shape_trees import Text

TOKEN = re.compile(r'"[^"\n]*"|\'\w+\b(?!\')|\w+|\s+|.')

# How many changes a text has at most.
CHANGES = 3


def changed(source: random.Random, tokens: list[str], others: list[str]) -> list[str]:
    """Tokens with one change."""
    first, last = sorted(source.randrange(len(tokens) + 1) for _ in range(2))
    last = min(last, first + 4)
    way = source.randrange(4)
    if way == 0:
        return tokens[:first] + tokens[last:]
    if way == 1:
        return tokens[:last] + tokens[first:]
    if way == 2:
        place = source.randrange(len(tokens) + 1)
        return tokens[:place] + [' ', *tokens[first:last], ' '] + tokens[place:]
    begin = source.randrange(len(others) + 1)
    return tokens[:first] + [' ', *others[begin:begin + source.randrange(1, 8)], ' '] + tokens[last:]


def drawn_texts(count: int, seed: int) -> Iterator[Text]:
    """So many texts, by a seed."""
    source = random.Random(seed)
    texts = [*tight_texts(), *tight_texts(), *table_texts()]
    split = [TOKEN.findall(it.data.decode()) for it in texts]
    for _ in range(count):
        at = source.randrange(len(texts))
        tokens = split[at]
        for _ in range(source.randint(1, CHANGES)):
            tokens = changed(source, tokens, source.choice(split))
        data = ''.join(tokens)
        yield Text(repr(data), texts[at].edition, texts[at].entry, data.encode())
