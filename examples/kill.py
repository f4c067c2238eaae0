#!/usr/bin/env python3
"""Kills a program by signal as it plays scripts of writes, at moments that chance picks, and holds what its files have then to
`docs/promises.md`, "What stands after a stop".

    kill.py [--runs N] [--from SEED] PROGRAM

Each seed makes one script, which is played whole once and then killed many times, each time over the same packs. The folders of runs
that leave something else are kept and named.
"""
import argparse, os, random, shutil, subprocess, sys, tempfile, time

UNITS, NEAR, FIRST = 4, 24, 0xEE


def make(seed):
    """The script of a seed: writes over a few blocks of each unit, with reads and drains between; and what each write writes."""
    pick = random.Random(seed)
    lines, writes = [f'unit {u} rp06' for u in range(UNITS)], {}
    for ident in range(pick.randint(1000, 5000)):
        unit, block, count = pick.randrange(UNITS), pick.randrange(NEAR), pick.randint(1, 6)
        word = pick.random()
        if word < 0.7:
            writes[ident] = unit, block, count, 1 + ident % 200
            lines.append(f'write {ident} {unit} c {block} {count} fill {1 + ident % 200:02x}')
        elif word < 0.9:
            lines.append(f'read {ident} {unit} c {block} {count}')
        if word > 0.8:
            lines.append(pick.choice(['drain', 'move 0', 'attend 0', f'arrive {unit}']))
    return '\n'.join(lines) + '\n', writes


def start(program, folder, script):
    """Packs whose blocks hold one byte, and the program over them."""
    for unit in range(UNITS):
        with open(os.path.join(folder, f'hp{unit}.dsk'), 'wb') as image:
            image.write(bytes([FIRST]) * 512 * (NEAR + 6))
    with open(script, 'rb') as given, open(os.path.join(folder, 'out'), 'wb') as out:
        return subprocess.Popen([program, 'play'], stdin=given, stdout=out, cwd=folder)


def read(folder, name):
    try:
        with open(os.path.join(folder, name), 'rb') as file:
            return file.read()
    except FileNotFoundError:
        return b''


def left(folder):
    """What the blocks of each unit hold: a byte each, or None where one is torn."""
    packs = {}
    for unit in range(UNITS):
        image = read(folder, f'hp{unit}.dsk')
        for block in range(NEAR + 6):
            its = image[512 * block:512 * block + 512]
            packs[unit, block] = its[0] if its == its[:1] * 512 else None
    return packs


def written(line, writes):
    """The place and the byte of a line that tells of a sector that a write wrote."""
    words = line.split()
    if words[0] == b'sector' and words[5] == b'clean' and int(words[3]) in writes:
        return (int(words[2]), int(words[4])), writes[int(words[3])][3]


def answers_of(text):
    """The texts of the answers, with the blocks of reads, one by one."""
    texts = []
    for line in text.splitlines(keepends=True):
        if line.startswith(b'ans '):
            texts.append(line)
        else:
            texts[-1] += line
    return texts


def behind_answers(taken, packs, writes):
    """Whether the packs of each unit hold what the answers in the text left, but for first blocks of one more write."""
    answered = [int(text.split()[1]) for text in answers_of(taken) if text.split(b'\n')[0].endswith(b' ok') and text.endswith(b'\n')]
    held = dict.fromkeys(packs, FIRST)
    for ident in answered:
        if ident in writes:
            unit, block, count, byte = writes[ident]
            held.update({(unit, at): byte for at in range(block, block + count)})
    for unit in range(UNITS):
        other = [at for at in sorted(held) if at[0] == unit and held[at] != packs[at]]
        may = [it for name, it in writes.items() if name not in answered and it[0] == unit]
        if other and not any(is_front(packs, held, other, it) for it in may):
            return False
    return True


def is_front(packs, held, other, write):
    """Whether the packs are as before but for first blocks of a write."""
    unit, block, count, byte = write
    last = max(at for _, at in other)
    return all(block <= at for _, at in other) and last < block + count and all(packs[unit, at] == byte for at in range(block, last + 1))


def amiss(folder, whole, writes):
    """What does not hold of what a killed run left; '' where all does."""
    trace, out, packs = read(folder, 'hp.trace'), read(folder, 'out'), left(folder)
    if not whole['trace'].startswith(trace):
        return 'the trace is no front'
    told = trace[:trace.rfind(b'\n') + 1].splitlines()
    ends = sum(line.startswith(b'end ') for line in told)
    if not b''.join(whole['answers'][:ends]).startswith(out):
        return 'an answer stands before its line'
    held = dict.fromkeys(packs, FIRST)
    held.update(filter(None, (written(line, writes) for line in told)))
    more = dict(held)
    more.update(filter(None, [next(filter(None, (written(line, writes) for line in whole['lines'][len(told):])), None)]))
    if packs not in (held, more):
        return 'the packs are not those of the trace, with at most one further block'
    if not behind_answers(out, packs, writes):
        return 'the packs are not those of the answers, with at most one further write a unit'
    return ''


def played(program, folder, script):
    """What a whole run leaves, and how many seconds the shortest of three took."""
    took = []
    for _ in range(3):
        os.makedirs(folder)
        begun = time.monotonic()
        start(program, folder, script).wait()
        took.append(time.monotonic() - begun)
        trace, out = read(folder, 'hp.trace'), read(folder, 'out')
        shutil.rmtree(folder)
    return {'trace': trace, 'lines': trace.splitlines(), 'answers': answers_of(out)}, min(took)


def main():
    words = argparse.ArgumentParser()
    words.add_argument('--runs', type=int, default=500)
    words.add_argument('--from', dest='first', type=int, default=1)
    words.add_argument('program')
    given = words.parse_args()
    program, top = os.path.abspath(given.program), tempfile.mkdtemp(prefix='kill-')
    script, folder, pick = os.path.join(top, 'script'), os.path.join(top, 'run'), random.Random(given.first)
    good = killed = 0
    for run in range(given.runs):
        if run % 50 == 0:
            text, writes = make(given.first + run // 50)
            with open(script, 'w') as file:
                file.write(text)
            whole, took = played(program, folder, script)
        os.makedirs(folder)
        playing = start(program, folder, script)
        time.sleep(pick.random() * took)
        playing.kill()
        killed += playing.wait() != 0
        word = amiss(folder, whole, writes)
        good += not word
        if word:
            kept = os.path.join(top, str(run))
            os.rename(folder, kept)
            shutil.copy(script, kept)
            print(f'run {run}: {word}: {kept}')
        else:
            shutil.rmtree(folder)
    print(f'{good} of {given.runs} runs leave what is promised; {killed} of them were killed')
    sys.exit(0 if good == given.runs else 1)


main()
