"""Figures that are on several pages, for tests/names.py: tests/figures.txt says which. `tests/names.sh --figures` writes what the owner of each has over the others."""

import re

FIGURE = r'\d(?:[\d,.]*\d)?'


def blocks(text):
    """The blocks of the list, each with the number of its first line: what the figure is, and the places (page, words)."""
    number = 1
    for block in text.split('\n\n'):
        lines = [line for line in block.split('\n') if line and line[0] != '#']
        if lines:
            yield number, lines[0], [tuple(part.strip() for part in line.split(':', 1)) for line in lines[1:]]
        number += block.count('\n') + 2


def pattern_of(words, figure=f'({FIGURE})'):
    """These words with a figure in place of each `{}`; `{-}` is any figure."""
    return re.escape(words).replace(r'\{\}', figure).replace(r'\{\-\}', FIGURE)


def said(words, page):
    """What is on a page in place of each `{}` of these words, once for each time that they are there."""
    return {found if isinstance(found, tuple) else (found,) for found in re.findall(pattern_of(words), page)}


def written_over(words, page, figures):
    """The page with these figures where it has others."""
    parts = [re.escape(part).replace(r'\{\-\}', FIGURE) for part in words.split('{}')]
    pattern = ''.join(f'({part})' + FIGURE * (at < len(figures)) for at, part in enumerate(parts))
    return re.sub(pattern, lambda found: ''.join(part + figure for part, figure in zip(found.groups(), [*figures, ''])), page)


def write(listed, text_of):
    """Each page that has other figures than their owners, with these."""
    pages = {}
    for _, what, [(owner, words), *others] in blocks(listed):
        found = said(words, text_of(owner))
        if len(found) != 1:
            raise SystemExit(f'{owner}: {what}: {len(found)} figures')
        for page, there in others:
            pages[page] = written_over(there, pages.get(page) or text_of(page), *found)
    return pages


def differing(listed, text_of):
    """The faults: words that aren't on their page, and figures that differ from the owner's, which is the first place of its block."""
    for number, what, places in blocks(listed):
        owner = None
        for page, words in places:
            found = said(words, text_of(page))
            figures = ' and '.join(sorted(', '.join(one) for one in found))
            if not found:
                yield f'{page}: "{words}" isn\'t there (tests/figures.txt:{number}, {what})'
            elif owner is None:
                owner = page, found, figures
            elif found != owner[1]:
                yield f'{page}: {what}: {figures}, and {owner[2]} in {owner[0]} (tests/figures.txt:{number})'
