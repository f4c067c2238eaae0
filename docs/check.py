#!/usr/bin/env python3
"""Whether what is made of other files is as they are: rows, pages of callers, the picture of the layers, the counts of the reading list;
and whether calls that must not compile do not.

    check.py          says which is not, and ends with 1 then
    check.py --write  makes all of it anew
"""
import os, subprocess, sys

TOP = os.path.join(os.path.dirname(os.path.abspath(__file__)), '..')
# Each script, in an order in which none needs what a later one makes; with its words to check, and to write. The last one makes nothing.
SCRIPTS = [
    ('docs/trace-rows/rows.py', ['check'], ['write']),
    ('examples/rows.py', ['check'], []),
    ('crates/hpsim_rows/rows.py', ['check'], []),
    ('docs/pages.py', [], ['--write']),
    ('docs/layers.py', [], ['--write']),
    ('docs/reading.py', [], ['--write']),
    ('crates/main_memory/types.py', [], []),
]


def main():
    if sys.argv[1:] not in ([], ['--write']):
        sys.exit(__doc__)
    failed = False
    for path, check, write in SCRIPTS:
        words = write if sys.argv[1:] else check
        ran = subprocess.run([sys.executable, os.path.join(TOP, path), *words], stdout=subprocess.DEVNULL)
        failed |= ran.returncode != 0
    sys.exit(1 if failed else 0)


main()
