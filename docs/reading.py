#!/usr/bin/env python3
"""Counts for `docs/reading.md`: the lines of each file that it lists, and the lines of definitions that each clause of `run` reaches.

    reading.py          says whether the counts in the document are right
    reading.py --write  writes them
    reading.py NAME     prints which definitions one clause of `run` reaches

A clause reaches the definitions in `specs/` that it names, and those that these name. Lines are counted without blank ones, in the table
of files with comments and in that of clauses without. What the code declares (structs, enums) is not counted.
"""
import collections, functools, glob, os, re, sys

TOP = os.path.join(os.path.dirname(os.path.abspath(__file__)), '..')
PAGE = os.path.join(TOP, 'docs', 'reading.md')
RUN = os.path.join(TOP, 'crates', 'hpsim_run', 'src', 'command.rt')
BEGIN, END = '<!-- clauses: reading.py writes this -->\n', '<!-- end of clauses -->\n'
USE = re.compile(r'(pub )?(?:ghost )?use Rattle\.(\S+?)(?:\.\{(.*)\})?(?: as (\S+?))?;?$')
HEAD = re.compile(r'(?:(?:pub|abbrev|unfoldable|record|data) )*(\S+)')


def lines_of(path):
    with open(path, encoding='utf-8') as file:
        return [line for line in file.read().split('\n') if line.strip()]


def module_path(path):
    """`CRATE.specs.A.B` of a file of definitions"""
    parts = os.path.relpath(path, os.path.join(TOP, 'crates'))[:-len('.antt')].split('/')
    return '.'.join(parts[:-1] if parts[-1] == 'Lib' else parts)


class Module:
    """A file of definitions: what it defines, and the names that it brings in and hands on."""

    def __init__(self, lines):
        self.texts, self.names, self.modules, self.handed_on = collections.defaultdict(list), {}, {}, {}
        self.constructors = {}
        name = data = None
        for line in lines:
            if use := USE.match(line):
                self.bring(*use.groups())
            elif line.lstrip().startswith('--') or re.match(r'(pub )?mod |module ', line):
                continue
            else:
                if line[0] not in ' )}]' and not line.startswith('unfolding '):
                    name = HEAD.match(line)[1]
                    data = 'data ' in line.split(':')[0]
                elif data and (constructor := re.match(r'\s+(\S+) :', line)):
                    self.constructors[constructor[1]] = name
                self.texts[name].append(line)

    def bring(self, public, path, names, other):
        if names is None:
            self.modules[other or path.split('.')[-1]] = path
            if public:
                self.handed_on[other or path.split('.')[-1]] = (path, None)
            return
        for word in names.split(','):
            was, _, now = word.strip().partition(' as ')
            self.names[now or was] = (path, was)
            if public:
                self.handed_on[now or was] = (path, was)


MODULES = {module_path(it): Module(lines_of(it)) for it in glob.glob(os.path.join(TOP, 'crates', '*', 'specs', '**', '*.antt'), recursive=True)}


def module_of(path):
    """The module of a path, also where a module above hands it on."""
    if path in MODULES:
        return path
    above, _, last = path.rpartition('.')
    if above and (found := module_of(above)) and last in MODULES[found].handed_on:
        return module_of(MODULES[found].handed_on[last][0])
    return None


@functools.lru_cache(maxsize=None)
def definition(path, name):
    """Where a name that a module gives is defined; None if it is declared in code, or is the library's."""
    found = module_of(path)
    if not found:
        return None
    module = MODULES[found]
    if name in module.texts:
        return found, name
    if name in module.constructors:
        return found, module.constructors[name]
    if name in module.handed_on and module.handed_on[name][1]:
        return definition(*module.handed_on[name])
    return None


def named(text, module, path=None):
    """The definitions that a text names."""
    for word in re.findall(r"[^\s(){}\[\],;|]+", re.sub(r'--.*', '', text)):
        word = word.lstrip('λ¬').rstrip('.')
        first, _, rest = word.partition('.')
        if path and (found := definition(path, word) or definition(path, first)):
            yield found
        elif word in module.names:
            yield definition(*module.names[word])
        elif first in module.modules and rest:
            yield definition(module.modules[first], rest.split('.')[0])
        elif first in module.names:
            yield definition(*module.names[first])


@functools.lru_cache(maxsize=None)
def below(place):
    path, name = place
    return {it for it in named('\n'.join(MODULES[path].texts[name]), MODULES[path], path) if it} - {place}


def reached(places):
    seen, left = set(), list(places)
    while left:
        place = left.pop()
        if place not in seen:
            seen.add(place)
            left += below(place)
    return seen


def clauses():
    """For each clause of `run`: the definitions that it reaches."""
    text = lines_of(RUN)
    module = Module([line for line in text if USE.match(line)])
    contract = '\n'.join(text).split('pub fn run<')[1].split('\n{\n')[0]
    parts = re.split(r'\n    ensures (\w+) ', contract)
    return {name: reached(it for it in named(clause, module) if it) for name, clause in zip(parts[1::2], parts[2::2])}


def size(places):
    return sum(len(MODULES[path].texts[name]) for path, name in places)


def table(found):
    lines = ['clause|lines of definitions|most of them in', '---|---|---']
    for name, places in [*found.items(), ('all, each once', set().union(*found.values()))]:
        crates = collections.Counter()
        for place in places:
            crates[place[0].split('.')[0]] += size([place])
        most = ', '.join(f'`{crate}` {count:,}' for crate, count in crates.most_common(4))
        lines.append(f'{name if name.startswith("all") else f"`{name}`"}|{size(places):,}|{most}')
    return '\n'.join(lines) + '\n'


def counted(text):
    """The document with its counts as they are."""
    total = 0

    def file_row(row):
        nonlocal total
        if not os.path.exists(os.path.join(TOP, row[1])):
            sys.exit(f'docs/reading.md lists {row[1]}, which is gone: name another file there')
        count = len(lines_of(os.path.join(TOP, row[1])))
        total += count
        return f'`{row[1]}`|{count:,}|'

    def sum_row(row):
        nonlocal total
        whole, total = total, 0
        return f'all of these|{whole:,}|'

    lines = []
    for line in text.split('\n'):
        line = re.sub(r'^`(crates/\S+\.(?:antt|rt))`\|[\d,]+\|', file_row, line)
        lines.append(re.sub(r'^all of these\|[\d,]+\|', sum_row, line))
    text = '\n'.join(lines)
    return text[:text.index(BEGIN)] + BEGIN + table(clauses()) + text[text.index(END):]


if __name__ == '__main__':
    if sys.argv[1:] not in ([], ['--write']):
        for path, name in sorted(clauses()[sys.argv[1]]):
            print(f'{size([(path, name)]):5} {path} {name}')
        sys.exit()
    with open(PAGE) as file:
        text = file.read()
    made = counted(text)
    if sys.argv[1:]:
        with open(PAGE, 'w') as file:
            file.write(made)
    elif made != text:
        sys.exit('the counts in docs/reading.md are not those of the definitions: run docs/reading.py --write')
