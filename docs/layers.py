#!/usr/bin/env python3
"""The picture of the layers in `docs/layers.md`, drawn from `crates.txt`.

    layers.py          says whether the picture is as `crates.txt` is, and whether the files are there that the document names
    layers.py --write  draws it anew

A crate stands in the lowest row that is above all crates that it stands on, and in the column of its heading in `crates.txt`.
"""
import functools, os, re, sys

TOP = os.path.join(os.path.dirname(os.path.abspath(__file__)), '..')
PAGE = os.path.join(TOP, 'docs', 'layers.md')
BEGIN, END = '<!-- picture: layers.py draws this -->\n', '<!-- end of picture -->\n'


def crates():
    """The crates under each heading, and those that each one stands on."""
    below, headings, heading = {}, {}, None
    with open(os.path.join(TOP, 'crates.txt')) as file:
        for line in file:
            if line.startswith('# '):
                heading = line[2:].strip()
            elif crate := re.match(r'(\w+)(?: \w+)?:(.*)', line):
                below[crate[1]] = crate[2].split()
                headings.setdefault(heading, []).append(crate[1])
    return headings, below


def picture():
    headings, below = crates()

    @functools.lru_cache(maxsize=None)
    def height(crate):
        return max((1 + height(it) for it in below[crate] if it in below), default=0)

    lines = ['|'.join(['row', *headings]), '|'.join(['---'] * (len(headings) + 1))]
    for row in range(max(map(height, below)), -1, -1):
        lines.append('|'.join([str(row)] + [' '.join(it for it in column if height(it) == row) for column in headings.values()]))
    return '\n'.join(lines) + '\n'


if __name__ == '__main__':
    if sys.argv[1:] not in ([], ['--write']):
        sys.exit(__doc__)
    with open(PAGE) as file:
        text = file.read()
    gone = [path for path in re.findall(r'`(\w+/src/[\w/]+\.rt)`', text) if not os.path.exists(os.path.join(TOP, 'crates', path))]
    if gone:
        sys.exit(f'docs/layers.md names {", ".join(gone)}, which is gone: name another file there')
    made = text[:text.index(BEGIN)] + BEGIN + picture() + text[text.index(END):]
    if sys.argv[1:]:
        with open(PAGE, 'w') as file:
            file.write(made)
    elif made != text:
        sys.exit('the picture in docs/layers.md is not as crates.txt is: run docs/layers.py --write')
