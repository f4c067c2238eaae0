#!/usr/bin/env python3
"""Shows that `compare.py` finds wrong programs: each wrong version of `plain.py` against the right one.

    wrong-versions.py [--runs N] [NAME..]    says at which seed each is found; ends with 1 if one is not found in N runs (200)
"""
import argparse, os, sys, tempfile

sys.dont_write_bytecode = True
import compare, plain


def main():
    words = argparse.ArgumentParser()
    words.add_argument('--runs', type=int, default=200)
    words.add_argument('names', nargs='*')
    given = words.parse_args()
    right = [sys.executable, os.path.abspath(plain.__file__)]
    missed = 0
    for name in given.names or plain.WRONG:
        top = tempfile.mkdtemp(prefix='wrong-')
        kind = 'raw' if name in plain.WRONG_TRANSFERS else None
        for seed in range(1, given.runs + 1):
            found, folder = compare.compared(seed, compare.kind_of(seed, kind), [right, [*right, '--wrong', name]], top)
            if found:
                print(f'{name} ({plain.WRONG[name]}): found at seed {seed}, by {found[0].split(":")[0]}', flush=True)
                break
        else:
            missed += 1
            print(f'{name} ({plain.WRONG[name]}): NOT FOUND in {given.runs} runs', flush=True)
    sys.exit(1 if missed else 0)


main()
