#!/usr/bin/env python3
"""Writes the texts of these examples into the tests of the crate `picture_rows`, which the gate runs: run it after each change here,
and then `crates/hpsim_rows/rows.py`, which plays them.

    rows.py          writes src/texts.rt of that crate anew
    rows.py check    says whether it is as these files are
"""
import hashlib, os, sys

HERE = os.path.dirname(os.path.abspath(__file__))
# The examples over the pack that make-packs.sh makes; all others are played over empty packs.
LISTED = ('course-table', 'forward')
# The words of the command that plays an example: `play`, but for these, which have no picture.
WORDS = {'cached': ['cached', '2']}


def read(name):
    with open(os.path.join(HERE, name)) as file:
        return file.read()


def literal(text):
    """The text as a Rust literal of bytes; none has a quote, a backslash or a byte that is not printed."""
    assert all(c == '\n' or (' ' <= c <= '~' and c not in '"\\') for c in text)
    return 'b"' + text.replace('\n', '\\n') + '"'


NAMES = sorted(it[:-4] for it in os.listdir(HERE) if it.endswith('.hps'))


def packs_of(name):
    """The packs of an example: for each unit its blocks that are not zeros, and its marks."""
    if name not in LISTED:
        return {}
    table = bytes([1, 0, 0, 0, 0, 0, 0, 0, 2, 0, 10, 7]) + b'\xff' * 500
    blocks = {block: table for block in (340648, 340650, 340652, 340654, 340656)}
    return {0: ({**blocks, 340647: b'\x5a' * 512}, [1000], None)}


def pictures():
    names = [it for it in NAMES if it not in WORDS]
    lines = [
        '// The texts of `examples/`, as `examples/rows.py` writes them.',
        '',
        '/// An example: its script, its trace, and the SHA-256 of its picture.',
        'pub(crate) struct Example {',
        "    pub(crate) name: &'static str,",
        "    pub(crate) script: &'static [u8],",
        "    pub(crate) trace: &'static [u8],",
        "    pub(crate) picture: &'static [u8; 32],",
        '}',
        '',
        '/// Each script of the folder that `play` plays.',
        f'pub(crate) static EXAMPLES: [Example; {len(names)}] = [',
    ]
    for name in names:
        lines += ['    Example {', f'        name: "{name}",']
        for field, suffix in (('script', 'hps'), ('trace', 'trace')):
            lines.append(f'        {field}: {literal(read(f"{name}.{suffix}"))},')
        digest = hashlib.sha256(read(f'{name}.svg').encode()).digest()
        lines += ['        picture: b"' + ''.join(f'\\x{byte:02x}' for byte in digest) + '",', '    },']
    return '\n'.join([*lines, '];', ''])


PATH = os.path.join(HERE, '..', 'crates', 'picture_rows', 'src', 'texts.rt')
if __name__ == '__main__':
    if sys.argv[1:] not in ([], ['check']):
        sys.exit(__doc__)
    if not sys.argv[1:]:
        with open(PATH, 'w') as file:
            file.write(pictures())
    else:
        with open(PATH) as file:
            if file.read() != pictures():
                sys.exit('crates/picture_rows/src/texts.rt is not as the examples are: run examples/rows.py')
