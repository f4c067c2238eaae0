#!/usr/bin/env python3
"""The code of the `CALLING.md` pages, taken from the crates.

    pages.py          says whether the code of the pages is that of the crates
    pages.py --write  takes it anew

A comment in a page says what the block behind it is:

    <!-- file PATH -->               the whole file of the folder crates/
    <!-- item PATH: LINE -->         the item of that file that begins with LINE, with its comments and attributes
    <!-- contracts PATH: NAME .. --> what the functions of these names require and ensure, shortened; without names, all public ones
    <!-- crate NAME -->              the line of a crate in `crates.txt`
"""
import glob, os, re, sys

TOP = os.path.join(os.path.dirname(os.path.abspath(__file__)), '..')
MARK = re.compile(r'<!-- (file|item|contracts|crate) (\S+?)(?:: ([^\n]*?))? -->\n(```\w*\n)(?:(?!```).*\n)*```\n')
# A place of a call, as contracts of requests that are waited for name it: how all stands at the call, and at the return.
PLACES = ('(spot ', '(stage ', '(site ', '(telling ')


def read(path):
    if not os.path.exists(os.path.join(TOP, path)):
        sys.exit(f'a CALLING.md page takes code from {path}, which is gone: name another file there')
    with open(os.path.join(TOP, path), encoding='utf-8') as file:
        return file.read()


def item(text, first):
    """The item that begins with a line, with what stands directly above it."""
    lines = text.split('\n')
    at = next((i for i, line in enumerate(lines) if line.strip().startswith(first)), None)
    if at is None:
        sys.exit(f'a CALLING.md page takes the item {first!r}, which is gone: name another file there')
    indent = len(lines[at]) - len(lines[at].lstrip())
    end = at if lines[at].rstrip().endswith((';', '}')) else next(i for i in range(at + 1, len(lines)) if lines[i] == ' ' * indent + '}')
    while at > 0 and lines[at - 1].lstrip().startswith(('///', '#[')):
        at -= 1
    return '\n'.join(line[indent:] for line in lines[at:end + 1]) + '\n'


def shortened(clause):
    """A clause with `S` for `self` at the call, and `S'` at the return; `packs` and `packs'`, and so on."""
    for place in PLACES:
        while (at := clause.find(place)) >= 0:
            depth, end = 0, at
            while True:
                depth += {'(': 1, ')': -1}.get(clause[end], 0)
                end += 1
                if depth == 0:
                    break
            clause = clause[:at] + ('before' if '.old' in clause[at:end] else 'after') + clause[end:]
    clause = re.sub(r'\bself\.(old|now)\b', 'S', clause)
    clause = re.sub(r'\bself\.new\b', "S'", clause)
    clause = re.sub(r'\b(\w+)\.(old|now)\b', r'\1', clause)
    return re.sub(r'\b(\w+)\.new\b', r"\1'", clause)


def heads(text):
    """Each function that others may call, with its type or trait: its lines up to its body."""
    owner, trait, head = '', False, None
    for line in text.split('\n'):
        if found := re.match(r'(impl|pub trait)\b(?:<.*?>)? (?:\w+ for )?(\w+)', line):
            owner, trait = found[2] + '::', found[1] != 'impl'
        elif line == '}':
            owner, trait = '', False
        if re.match(r' *pub fn ' + ('|    fn ' if trait else ''), line):
            head = []
        if head is not None:
            if line.strip() in ('{', '{}'):
                yield owner, head
                head = None
            elif not line.strip().startswith('//'):
                head.append(line[:-1] if line.endswith(';') else line)
                if line.endswith(';'):
                    yield owner, head
                    head = None


def contracts(text, names):
    """What functions require and ensure."""
    found = []
    for owner, head in heads(text):
        parts = re.split(r'\n\s*(requires|ensures) (?:(\w+) )?\{ ', '\n'.join(head))
        signature = re.sub(r'^(pub )?fn ', f'fn {owner}', ' '.join(parts[0].split())).replace('( ', '(').replace(', )', ')')
        if names and re.match(r'fn (?:\w+::)?(\w+)', signature)[1] not in names:
            continue
        found.append(signature)
        for kind, label, clause in zip(parts[1::3], parts[2::3], parts[3::3]):
            found.append(f'  {kind}{" " + label if label else ""}: {shortened(re.sub(" ?}$", "", " ".join(clause.split())))}')
    return '\n'.join(found) + '\n'


def block(match):
    kind, path, more, fence = match[1], match[2], match[3], match[4]
    if kind == 'crate':
        text = next(line for line in read('crates.txt').split('\n') if line.startswith(path + ':')) + '\n'
    else:
        text = read(f'crates/{path}')
        if kind == 'item':
            text = item(text, more)
        elif kind == 'contracts':
            text = contracts(text, (more or '').split())
    head = match[0][:match[0].index('```')]
    return f'{head}{fence}{text}```\n'


if __name__ == '__main__':
    if sys.argv[1:] not in ([], ['--write']):
        sys.exit(__doc__)
    other = []
    for path in sorted(glob.glob(os.path.join(TOP, 'crates', '*', 'CALLING.md'))):
        text = read(path)
        made = MARK.sub(block, text)
        if made != text:
            other.append(os.path.relpath(path, TOP))
            if sys.argv[1:]:
                with open(path, 'w', encoding='utf-8') as file:
                    file.write(made)
    if other and not sys.argv[1:]:
        sys.exit(f'code in {", ".join(other)} is not that of the crates: run docs/pages.py --write')
