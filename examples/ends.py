#!/usr/bin/env python3
"""Runs the built programs over files that fail, and compares the status and the sentence on standard error with what is wanted.

    ends.py [HPSIM [HPVIEW]]    without them, crates/hpsim/out/hpsim and crates/hpview/out/hpview

It works in a temporary folder and ends with 1 if an end differs. Two rows need root, which mounts a small full file system and a
read-only one; without root they are passed over.
"""
import os, re, resource, subprocess, sys, tempfile

TOP = os.path.join(os.path.dirname(os.path.abspath(__file__)), '..')
RP06 = 174423040
# The copies of the table on an RM03.
COPIES = [131648, 131650, 131652, 131654, 131656]
NO_SCRIPT = b''
WRITE = b'unit 0 rp06\nwrite 1 0 c 5 4 fill 77\n'


def image(name, length=0):
    def make(folder):
        with open(os.path.join(folder, name), 'wb') as it:
            it.truncate(length)
    return make


def marks(name, blocks):
    def make(folder):
        held = bytearray(max(blocks) + 1)
        for block in blocks:
            held[block] = 1
        with open(os.path.join(folder, name), 'wb') as it:
            it.write(held)
    return make


def folder_as(name):
    return lambda folder: os.mkdir(os.path.join(folder, name))


def loop(name):
    return lambda folder: os.symlink(name, os.path.join(folder, name))


def closed(number):
    return lambda: os.close(number)


def with_memory(size):
    return lambda: resource.setrlimit(resource.RLIMIT_AS, (size, size))


# A name; what is made in the folder; the words; standard input; what is done to the streams before the program runs; the status, and
# what the line on standard error must have.
ROWS = [
    ('nothing went wrong', [], 'play', b'unit 0 rp06\nread 1 0 c 0 1\n', None, 0, r'$'),
    ('a wrong kind', [], 'bad144 list 0 rp07', NO_SCRIPT, None, 2, r"hpsim: 'rp07' is not a valid KIND \(rp06, rm03, rm05\)\n"),
    ('a wrong unit', [], 'bad144 list 32 rp06', NO_SCRIPT, None, 2, r"hpsim: '32' is not a valid U \(0 to 31\)\n"),
    ('a wrong block', [], 'bad144 add 0 rp06 340670', NO_SCRIPT, None, 2, r"hpsim: '340670' is not a valid BLOCK \(0 to 340669\)\n"),
    ('words in the wrong order', [], 'bad144 add 0 rp06 5 mark copy', NO_SCRIPT, None, 2, r"hpsim: 'copy' cannot stand there"),
    ('the version', [], '--version', NO_SCRIPT, None, 2, r'hpsim \d+\.\d+\.\d+\n$'),
    ('a missing field', [], 'play', b'unit 0 rp06\nread 1 0 c 0\n', None, 3, r'hpsim: line 2 of the script: COUNT is missing \(1 to 127\)\n$'),
    ('a byte-order mark', [], 'play', b'\xef\xbb\xbfunit 0 rp06\n', None, 3, r'hpsim: line 1 of the script: it begins with a byte-order mark'),
    ('letters that are not ASCII', [], 'play', 'unit 0 rp06\n\u00e9 1\n'.encode(), None, 3, r'hpsim: line 2 of the script: .*is not a valid first word'),
    ('standard input that is a folder', [], 'play', '.', None, 4, r'hpsim: cannot read standard input: Is a directory'),
    ('standard output that is full', [], 'play > /dev/full', WRITE, None, 5, r'hpsim: cannot write to standard output: No space left'),
    ('a trace that is a folder', [folder_as('hp.trace')], 'play', WRITE, None, 5, r'hpsim: cannot open or make hp\.trace: Is a directory'),
    ('an image that is a folder', [folder_as('hp0.dsk')], 'play', WRITE, None, 6, r'hpsim: cannot open hp0\.dsk: Is a directory'),
    ('an image that is a loop of links', [loop('hp0.dsk')], 'play', WRITE, None, 6, r'hpsim: cannot open hp0\.dsk: Too many levels'),
    ('an image with a footer', [image('hp1.dsk', RP06 + 512)], 'bad144 list 1 rp06', NO_SCRIPT, None, 7,
     r'hpsim: hp1\.dsk has 174423552 bytes, and a whole rp06 has 174423040: .*truncate -s 174423040'),
    ('no table', [image('hp0.dsk')], 'bad144 add 0 rp06 1000', NO_SCRIPT, None, 8, r'hpsim: hp0\.dsk has no bad-sector table'),
    ('no memory for a script', [], 'play', b'unit 0 rp06\nread 1 0 c 0 1\n', with_memory(8 << 20), 9,
     r'hpsim: there is not enough memory for the script, its requests and what they move\n$'),
    ('bytes beyond a partition', [image('hp0.dsk')], 'raw read 0 rp06 a 8132600 10', NO_SCRIPT, None, 10,
     r'hpsim: bytes 8132600 to 8132609 reach beyond partition a of an rp06, which has 8132608 bytes'),
    ('a block that cannot be read', [image('hp0.dsk'), marks('hp0.bad', [3])], 'raw read 0 rp06 a 0 2048', NO_SCRIPT, None, 10,
     r'hpsim: block 3 of partition a of hp0\.dsk is marked and has no good replacement: 1536 bytes before it were read\n$'),
    ('a block that cannot be written', [marks('hp0.bad', [3])], 'raw write 0 rp06 a 0', b'\x77' * 2048, None, 10,
     r'hpsim: block 3 of partition a of hp0\.dsk is marked and has no good replacement: 1536 bytes before it were written\n$'),
    ('all copies of the table marked', [marks('hp0.bad', COPIES)], 'format 0 rm03 9', NO_SCRIPT, None, 11,
     r'hpsim: hp0\.dsk has no room for a table: all five places are marked in hp0\.bad\n$'),
    ('too many marked blocks', [marks('hp0.bad', range(127))], 'format 0 rm03 9', NO_SCRIPT, None, 11,
     r'hpsim: hp0\.bad marks 127 data blocks, and a table lists at most 126\n$'),
    ('a marked replacement', [marks('hp0.bad', [5, 131647])], 'format 0 rm03 9', NO_SCRIPT, None, 11,
     r'hpsim: replacement 0 of hp0\.dsk \(block 131647\) is needed, but it is marked in hp0\.bad\n$'),
    ('a missing image', [], 'bad144 list 17 rp06', NO_SCRIPT, None, 0, r'hpsim: hp17\.dsk does not exist'),
    ('closed standard input', [], 'play', NO_SCRIPT, closed(0), 0, r'$'),
    ('closed standard output', [], 'exercise 1', NO_SCRIPT, closed(1), 0, r'$'),
]
VIEWS = [
    ('no trace', [], 'text', b'unit 0 rp06\n', None, 4, r'hpview: there is no hp\.trace in this folder'),
    ('a wrong form', [], 'png', NO_SCRIPT, None, 2, r"hpview: 'png' is not a valid FORM"),
    ('no run of the script', [image('hp.trace', 3)], 'text', b'unit 0 rp06\n', None, 3, r'hpview: line 1 of hp\.trace'),
]
MOUNTS = [
    ('a full file system', 'size=64k', b'\x77' * 200000, 'raw write 0 rp06 a 0', 6, r'hpsim: cannot write hp0\.dsk: No space left'),
    ('a read-only file system', 'size=64k,ro', NO_SCRIPT, 'bad144 fresh 0 rp06 1', 6, r'hpsim: cannot (write|open|open or make) hp0\.dsk: Read-only'),
]


def ran(program, folder, words, given, before):
    """the status and the standard error of a run"""
    out = subprocess.DEVNULL
    if ' > ' in words:
        words, target = words.split(' > ')
        out = open(target, 'wb')
    if isinstance(given, str):
        source = os.open(os.path.join(folder, given), os.O_RDONLY)
        done = subprocess.run([program, *words.split()], cwd=folder, stdin=source, stdout=out, stderr=subprocess.PIPE)
        os.close(source)
    else:
        done = subprocess.run([program, *words.split()], cwd=folder, stdout=out, stderr=subprocess.PIPE, preexec_fn=before,
                              **({'input': given} if given else {'stdin': subprocess.DEVNULL}))
    return done.returncode, done.stderr.decode(errors='replace')


def differs(name, found, status, wanted):
    if found[0] == status and re.match(wanted, found[1]):
        return False
    print(f'{name}: status {found[0]} and {found[1]!r}, wanted {status} and {wanted!r}')
    return True


def main():
    programs = sys.argv[1:] + [os.path.join(TOP, 'crates', it, 'out', it) for it in ('hpsim', 'hpview')][len(sys.argv) - 1:]
    programs = [os.path.abspath(it) for it in programs]
    wrong = 0
    for program, rows in zip(programs, (ROWS, VIEWS)):
        for name, made, words, given, before, status, wanted in rows:
            with tempfile.TemporaryDirectory() as folder:
                for make in made:
                    make(folder)
                wrong += differs(name, ran(program, folder, words, given, before), status, wanted)
    for name, options, given, words, status, wanted in MOUNTS if os.geteuid() == 0 else []:
        with tempfile.TemporaryDirectory() as folder:
            if subprocess.run(['mount', '-t', 'tmpfs', '-o', options, 'none', folder], stderr=subprocess.DEVNULL).returncode:
                print(f'{name}: passed over, since it cannot be mounted here')
                continue
            try:
                wrong += differs(name, ran(programs[0], folder, words, given, None), status, wanted)
            finally:
                subprocess.run(['umount', folder])
    sys.exit(1 if wrong else 0)


main()
