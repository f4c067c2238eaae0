#!/usr/bin/env python3
"""Rows of traces: scripts over packs, each with the answers and the trace that belong to it, as files `rows/NAME.row`.

    rows.py run PROGRAM [NAME..]   plays the rows by a program (`PROGRAM play` in a folder of its own, with hpU.dsk and hpU.bad)
                                   and writes its answers and its trace into them; each answer is one line, with its bytes
                                   as runs `N*HH+..`, or `N*seqF` for N bytes of a sequence from F
    rows.py write [NAME..]         writes the crate `trace_rows` anew: each row as a script and as moments, the lines out of
                                   place of `refused.txt`, and their proofs
    rows.py check                  says whether that crate is as the rows are

`crates/hpsim_rows/rows.py` makes rows of them that are played whole.

A row has a first line that says what it shows, and then sections. `[packs]` has lines `U table SERIAL BLOCK..`, `U mark BLOCK..`
and `U block BLOCK HH`: all else on a pack is zeros. A row with an `[example]` has script, answers and trace of that script of
`examples/`. One with a `[start]` begins where so many frames are taken; no program plays it. To try a trace of your own, write a
row with `[script]`, `[packs]`, `[answers]` and `[trace]`, and check the crate: it proves that the trace is legal, or the check
fails at the moment that no rule lets come.
"""
import itertools, os, re, subprocess, sys, tempfile

HERE = os.path.dirname(os.path.abspath(__file__))
CRATE = os.path.join(HERE, '..', '..', 'crates', 'trace_rows')
EXAMPLES = os.path.join(HERE, '..', '..', 'examples')
KINDS = {'rp06': (815, 19, 22, 'Rp06'), 'rm03': (823, 5, 32, 'Rm03'), 'rm05': (823, 19, 32, 'Rm05')}
CODE = {'+400': 'Plus400', '-400': 'Minus400', '+800': 'Plus800', '-800': 'Minus800', '+1200': 'Plus1200', '-1200': 'Minus1200'}
FAULT = {k: f'kind.{k.capitalize()}' for k in ('seek', 'opi', 'dte', 'hcrc', 'late')}
CAUSE = {k: k.capitalize() for k in ('offline', 'locked', 'unforwarded', 'fault')}


# ---- rows as files
def read_row(name):
    row = {'name': name, 'what': '', 'example': [], 'start': [], 'script': [], 'packs': [], 'answers': [], 'trace': []}
    part = None
    for line in open(f'{HERE}/rows/{name}.row').read().split('\n')[:-1]:
        if part is None and line.startswith('# '):
            row['what'] = line[2:]
        elif re.fullmatch(r'\[\w+\]', line):
            part = line[1:-1]
        else:
            row[part].append(line)
    if row['example']:
        read_example(row, f"{EXAMPLES}/{row['example'][0]}")
    return row


def read_example(row, path):
    """the script, answers and trace of an example, without the comment at its head: each line's number is lower by that"""
    lines = lambda suffix: open(path + suffix).read().split('\n')[:-1]
    above = sum(1 for _ in itertools.takewhile(lambda line: line.startswith('#'), lines('.hps')))
    row['script'] = lines('.hps')[above:]
    row['trace'] = [lowered(line, 1, above) for line in lines('.trace')]
    row['answers'] = [lowered(line, 1 if line.startswith('noise ') else 3, above) for line in answers_of(row, lines('.out'))]


def lowered(line, place, above):
    """the line with the number at this place lowered"""
    words = line.split(' ')
    words[place] = str(int(words[place]) - above)
    return ' '.join(words)


def write_row(row):
    with open(f"{HERE}/rows/{row['name']}.row", 'w') as f:
        f.write(f"# {row['what']}\n")
        for part in ('start', 'script', 'packs', 'answers', 'trace'):
            if part == 'start' and not row[part]:
                continue
            f.write(f'[{part}]\n' + ''.join(line + '\n' for line in row[part]))


def units_of(row):
    return {int(l.split()[1]): l.split()[2] for l in row['script'] if l.startswith('unit ')}


def blocks_of(kind):
    cylinders, tracks, sectors, _ = KINDS[kind]
    return cylinders * tracks * sectors


def packs_of(row):
    """for each unit its sectors that are not zeros, its marks, and the places of its table"""
    out = {u: ({}, [], None) for u in units_of(row)}
    for line in row['packs']:
        f = line.split()
        unit = int(f[0])
        kind = units_of(row)[unit]
        _, tracks, sectors, _ = KINDS[kind]
        blocks, marks, table = out[unit]
        if f[1] == 'mark':
            marks += [int(b) for b in f[2:]]
        elif f[1] == 'block':
            blocks[int(f[2])] = bytes([int(f[3], 16)]) * 512
        else:
            table = [(b // (tracks * sectors), b % (tracks * sectors) // sectors, b % sectors) for b in map(int, f[3:])]
            text = int(f[2]).to_bytes(4, 'little') + bytes(4)
            for c, t, s in table:
                text += bytes([c % 256, c // 256, s, t])
            blocks[blocks_of(kind) - sectors] = text + b'\xff' * (512 - len(text))
        out[unit] = (blocks, marks, table)
    return out


# ---- bytes as runs, `N*HH+..`, or as a whole sequence, `N*seqF`
def runs(data):
    out = []
    for b in data:
        if out and out[-1][1] == b:
            out[-1][0] += 1
        else:
            out.append([1, b])
    return out


def sequence(first, size):
    return bytes((first + i // 512 + i % 512) % 256 for i in range(size))


def is_sequence(data):
    return len(data) > 1 and data[0] != data[1] and data == sequence(data[0], len(data))


def runs_text(data):
    if is_sequence(data):
        return f'{len(data)}*seq{data[0]}'
    return '+'.join(f'{n}*{b:02x}' for n, b in runs(data)) or '0*00'


def bytes_of(text):
    if '*seq' in text:
        size, first = text.split('*seq')
        return sequence(int(first), int(size))
    return b''.join(int(n) * bytes([int(b, 16)]) for n, b in (r.split('*') for r in text.split('+')))


def bytes_term(data):
    if is_sequence(data):
        return f'(sequence {data[0]} {len(data)})'
    return '(' + ' ++ '.join(f'replicate {n} {b}' for n, b in runs(data)) + ')' if data else '[]'


# ---- run
def requests_of(row):
    out = {}
    for line in row['script']:
        f = line.split()
        if f and f[0] in ('read', 'write'):
            last = int(f[f.index('last') + 1]) if 'last' in f else 512
            out[int(f[1])] = (int(f[5]), last, f[0] == 'write')
    return out


def answers_of(row, lines):
    """what is printed, each answer as one line with its bytes as runs"""
    answers, sizes, data = [], requests_of(row), b''
    for line in lines:
        f = line.split()
        if f[0] == 'noise':
            answers.append(line)
        elif f[0] == 'ans':
            answers.append(line)
            data = b''
        elif f[0] == 'blk':
            count, last, _ = sizes[int(answers[-1].split()[1])]
            want = last if int(f[1]) == count - 1 else 512
            data += bytes([int(f[3], 16)]) * want if f[2] == 'fill' else bytes.fromhex(f[3])
            answers[-1] = ' '.join(answers[-1].split()[:5]) + ' ' + runs_text(data)
    return answers


def run(program, names):
    for name in names:
        row = read_row(name)
        if row['start'] or row['example']:
            continue
        with tempfile.TemporaryDirectory() as folder:
            for unit, (blocks, marks, _) in packs_of(row).items():
                if blocks:
                    with open(f'{folder}/hp{unit}.dsk', 'wb') as f:
                        for b, data in sorted(blocks.items()):
                            f.seek(512 * b)
                            f.write(data)
                if marks:
                    with open(f'{folder}/hp{unit}.bad', 'wb') as f:
                        for b in sorted(marks):
                            f.seek(b)
                            f.write(b'\1')
            script = ''.join(line + '\n' for line in row['script']).encode()
            done = subprocess.run([program, 'play'], input=script, cwd=folder, capture_output=True)
            if done.returncode:
                sys.exit(f'{name}: status {done.returncode}: {done.stdout!r}')
            path = f'{folder}/hp.trace'
            row['trace'] = open(path).read().split('\n')[:-1] if os.path.exists(path) else []
        row['answers'] = answers_of(row, done.stdout.decode().split('\n')[:-1])
        write_row(row)


# ---- write: moments
def written_by(fields, count, last):
    if fields[0] == 'fill':
        data = bytes([int(fields[1], 16)]) * (512 * count)
    elif fields[0] == 'seq':
        data = sequence(int(fields[1]), 512 * count)
    else:
        data = bytes.fromhex(fields[1])
    return data[:512 * (count - 1) + last]


def request_term(f):
    count = int(f[5])
    option = lambda word, other: int(f[f.index(word) + 1]) if word in f else other
    last = option('last', 512)
    written = f'Some {bytes_term(written_by(f[6:], count, last))}' if f[0] == 'write' else 'None'
    return (f'record {{ id = {int(f[1])}; unit = {int(f[2])}; part = part.{f[3].upper()}; block = {int(f[4])}; count = {count}; '
            f"last = {last}; offset = {option('off', 0)}; written = {written} }}")


def input_term(line):
    """what a line of the script asks for or says, or None where it declares a drive or is passed over"""
    f = line.split()
    if not f or line.startswith('#') or f[0] == 'unit':
        return None
    if f[0] in ('read', 'write'):
        return f'Submit ({request_term(f)})'
    if f[0] == 'noise':
        span, places = (f'Until {CODE[f[4]]}', f[5:]) if f[3] == 'until' else (f'Times {int(f[3])}', f[4:])
        return f"Noise (record {{ unit = {f[1]}; block = {f[2]}; span = {span}; places = {' ∷ '.join(places)} ∷ [] }})"
    if f[0] == 'fault':
        return f'Arm {f[1]} {FAULT[f[2]]} {f[3]}'
    return {'arrive': 'ArriveAt {0}', 'move': 'MoveAt {0}', 'attend': 'AttendTo {0}', 'drain': 'Drain', 'turn': 'Turn {0} {1}',
            'online': 'SetOnline {0} true', 'offline': 'SetOnline {0} false',
            'lock': 'SetLocked {0} true', 'unlock': 'SetLocked {0} false'}[f[0]].format(*f[1:])


def script_term(row):
    """the lines that say something, with their numbers, and how many there are"""
    lines = []
    for number, line in enumerate(row['script'], 1):
        f = line.split()
        if f and not line.startswith('#'):
            statement = f'Declares {f[1]} {KINDS[f[2]][3]}' if f[0] == 'unit' else f'Plays ({input_term(line)})'
            lines.append(f'record {{ number = {number}; statement = {statement} }}')
    return f"({' ∷ '.join(lines + ['[]'])}) {len(row['script'])}"


def answer_term(words, write):
    """`ok` with the bytes of a read, `eof`, or `error CAUSE done K`"""
    if words[0] == 'ok':
        return 'WriteOk' if write else f'ReadOk {bytes_term(bytes_of(words[1]))}'
    if words[0] == 'eof':
        return 'EndOfPartition'
    if words[1] in CAUSE:
        return f'Failed {CAUSE[words[1]]} {words[3]}'
    return {'partition': 'OutsidePartition', 'frames': 'NoFrames'}[words[1]]


def deed_term(f, answer):
    if f[0] == 'cmd':
        word, rest = f[4], f[5:]
        return {'search': 'Search {0} {1}', 'seek': 'Seek {0}', 'recal': 'Recal', 'rtc': 'Centre', 'dclr': 'Clear', 'pack': 'Pack',
                'rcom': 'Transfer false {0} {1}', 'wcom': 'Transfer true {0} {1}'}[word].format(*rest) \
            if word != 'offset' else f'Offset {CODE[rest[0]]}'
    if f[0] == 'sector':
        verdict = {'clean': 'Clean', 'ecc': 'Hard', 'mark': 'Marked', 'offline': 'verdict.Offline'}.get(f[5])
        if f[5] == 'burst':
            verdict = f'(Burst {f[6]} {int(f[7], 8)})'
        return f'Sector {f[4]} {verdict or "(Faulted " + FAULT[f[5]] + ")"}'
    if f[0] == 'try':
        return f'Try {f[4]} {f[5]}'
    if f[0] == 'end':
        return f'End ({answer})' if ' ' in answer else f'End {answer}'
    return {'arrive': 'Arrive', 'intr': 'Intr', 'attn': 'Attn'}[f[0]]


def told_term(line, answer=None):
    """a line of a trace as a moment; an end line has its answer after a colon, or is given it"""
    text, _, words = line.partition(' : ')
    f = text.split()
    if f[0] == 'idle':
        return f'Idle {f[1]}'
    deed = deed_term(f, answer_term(words.split(), words == 'ok') if words else answer)
    return f'Told {f[1]} {f[2]} {f[3]} ' + (f'({deed})' if ' ' in deed else deed)


def moments_of(row):
    """the moments, and beside each its text"""
    sizes = requests_of(row)
    answers = [line for line in row['answers'] if not line.startswith('noise ')]
    told = {}
    for line in row['trace']:
        number = int(line.split()[1])
        answer = None
        if line.startswith('end '):
            a = answers.pop(0).split()
            assert (a[1], a[3]) == (line.split()[3], line.split()[1]), line
            answer = answer_term(a[4:], sizes[int(a[1])][2])
        told.setdefault(number, []).append((told_term(line, answer), line))
    assert not answers, row['name']
    out = []
    for number, line in enumerate(row['script'] + ['drain'], 1):
        term = input_term(line)
        if term:
            out.append((f'Played {number} ({term})' if ' ' in term else f'Played {number} {term}', '> ' + line))
            out += told.pop(number, [])
    assert not told, row['name']
    return out


def packs_terms(row):
    """the tables, and the sectors and marks, as functions"""
    tables, sectors, marks = 'None', [], []
    serials = {int(l.split()[0]): l.split()[2] for l in row['packs'] if ' table ' in l}
    for unit, (blocks, marked, table) in packs_of(row).items():
        if table is not None:
            places = ' ∷ '.join(f'record {{ cylinder = {c}; track = {t}; sector = {s} }}' for c, t, s in table)
            kind, serial = KINDS[units_of(row)[unit]][3], serials[unit]
            tables = f'if unit == {unit} then Some (record {{ kind = {kind}; serial = {serial}; places = {places} ∷ [] }}) else {tables}'
        sectors += [(unit, b, bytes_term(d)) for b, d in sorted(blocks.items())]
        marks += [(unit, b, 'true') for b in marked]
    def chosen(cases, other):
        for unit, block, value in reversed(cases):
            other = f'if (unit == {unit}) && (block == {block}) then {value} else {other}'
        return other
    return tables, chosen(sectors, 'replicate 512 0'), chosen(marks, 'false')


def row_specs(row):
    name = row['name']
    tables, sectors, marks = packs_terms(row)
    start = f'(over (λ unit. {tables}) (λ unit block. {sectors}) (λ unit block. {marks}))' if row['packs'] else 'over_zeros'
    for line in row['start']:
        start = f'(λ script. record ({start} script) {{ frames = {line.split()[1]} }})'
    groups = ''.join('    ' + line + '\n' for group in groups_of(row) for line in group_lines(*group))
    return f"-- {name}: {row['what']}\nabbrev pub {name} : Row\n{name} = row {script_term(row)} {start} (\n{groups}    [])\n"


def groups_of(row):
    """the lines of the trace, those together that follow each other and have one line, unit and id: the words before their deeds, and these"""
    out = []
    for moment, _ in moments_of(row):
        if moment.startswith('Idle'):
            out.append(('Waits' + moment[4:], None))
        elif moment.startswith('Told'):
            _, line, unit, request, deed = moment.split(' ', 4)
            head = f'Says {line} {unit} {request}'
            deed = deed[1:-1] if deed.startswith('(') else deed
            if not out or out[-1][0] != head:
                out.append((head, []))
            out[-1][1].append(deed)
    return out


def clean_run(deeds):
    """with how many clean sectors of blocks in a row these deeds begin, and what stands for them"""
    first = re.fullmatch(r'Sector (\d+) Clean', deeds[0])
    count = 0
    while first and deeds[count:count + 1] == [f'Sector {int(first[1]) + count} Clean']:
        count += 1
    return (count, f'clean {first[1]} {count} (') if count > 2 else (0, '')


def failing_run(deeds):
    """with how many deeds of failing reads of one block that are tried again these begin, and what stands for them"""
    tried = re.fullmatch(r'Transfer false (\d+) 1;.*;Try \d+ (\d+)', ';'.join(deeds[:5]))
    block, number, count = (int(tried[1]), int(tried[2]), 0) if tried else (0, 0, 0)
    while tried and deeds[5 * count:5 * count + 5] == [
            f'Transfer false {block} 1', f'Sector {block} Hard', 'Intr', 'Clear', f'Try {block} {number + count}']:
        count += 1
    return (5 * count, f'again {block} {number} {count} (') if count > 1 else (0, '')


def offset_run(deeds):
    """the same of failing reads at offsets"""
    tried = re.fullmatch(r'Offset \w+;.*;Transfer false (\d+) 1;.*;Try \d+ (\d+)', ';'.join(deeds[:9]))
    block, number, codes = (int(tried[1]), int(tried[2]), []) if tried else (0, 0, [])
    while tried and deeds[9 * len(codes) + 1:9 * len(codes) + 9] == [
            'Arrive', 'Attn', f'Transfer false {block} 1', f'Sector {block} Hard', 'Intr', 'Clear', 'Centre', f'Try {block} {number + len(codes)}']:
        codes.append(deeds[9 * len(codes)].split()[1])
    return (9 * len(codes), f"offset_again {block} {number} ({' ∷ '.join(codes)} ∷ []) (") if len(codes) > 1 else (0, '')


def pieces_of(deeds):
    """the deeds as pieces of a term, runs of the same sort as one piece, and how many of them are open at the end"""
    pieces, opened = [], 0
    while deeds:
        found = (run(deeds) for run in (clean_run, failing_run, offset_run))
        count, piece = next((run for run in found if run[0]), (1, f'{deeds[0]} ∷ '))
        opened += piece.endswith('(')
        pieces.append(piece)
        deeds = deeds[count:]
    return pieces, opened


def group_lines(head, deeds):
    """a group as lines of at most some 140 columns"""
    if deeds is None:
        return [f'{head} ∷']
    pieces, opened = pieces_of(deeds)
    end = f"[]){')' * opened} ∷"
    whole = f"{head} ({''.join(pieces)}{end}"
    if len(whole) <= 136:
        return [whole]
    lines, line = [], f'{head} ('
    for piece in pieces:
        if len(line) + len(piece) > 130 or ' Try ' in line and 'again ' not in piece or 'again ' in line:
            lines.append(line.rstrip())
            line = ''
        line += piece
    return lines + [line + end]


# ---- write: proofs
def step_proof(moment):
    if moment.startswith('Played'):
        return 'record { later = refl; over = refl; finished = refl; at_work = refl }'
    if moment.startswith('Idle'):
        return 'record { number = refl; nothing = refl }'
    if re.search(r'End (OutsidePartition|EndOfPartition|NoFrames)', moment):
        return 'record { number = refl; same_unit = refl; same_id = refl; answered = refl }'
    words = moment.split(' ', 4)[4].strip('()').split(' ')
    verdict = 'refl' if words[0] == 'Sector' else 'tt'
    if words[0] == 'Sector' and words[2] == '(Burst':
        verdict = f'burst_{words[3]}_{words[4]}'
    if words[0] == 'Sector' and words[2] == 'Hard':
        verdict = 'shown_0_7_14'
    drive = 'tt' if words[0] in ('End', 'Intr', 'Try') else 'refl'
    adapter = {'Transfer': 'refl', 'Sector': '(refl, refl)', 'Intr': 'refl', 'Attn': 'refl'}.get(words[0], 'tt')
    return (f'record {{ number = refl; wished = refl; service = refl; talk = refl; drive = {drive}; adapter = {adapter}; '
            f'verdict = {verdict}; at_work = WORK }}')


PART = 40


def is_long(row):
    """whether the proof of a row is cut into parts: a whole long row would be computed from its start at each moment"""
    return len(moments_of(row)) > 2 * PART


def steps_term(steps):
    return ''.join(f'({step}, ' for step in steps) + 'tt' + ')' * len(steps)


def row_proof(row):
    """each moment by computation: a record of `refl`"""
    name, moments = row['name'], [m for m, _ in moments_of(row)]
    steps = [step_proof(m).replace('WORK', w) for m, w in zip(moments, work_marks(row))]
    unfolding = 'unfolding repair.burst_byte\n' if any('(Burst' in m for m in moments) else ''
    if name == 'alias_noise':
        unfolding = 'unfolding code.remainder code.power code.times_x\n'
    parts = parts_proof(name, steps, unfolding) if is_long(row) else ''
    follows = f'{name}_follows_0' if parts else steps_term(steps)
    return (f'{parts}pub {name}_accepted : IsAccepted {name}\n{unfolding}{name}_accepted = record {{\n'
            f'  inputs = refl;\n  legal = record {{ follows = {follows}; over = record {{ over = refl; answered = refl }} }};\n}}\n')


def parts_proof(name, steps, unfolding):
    """the moments in parts: what a part leaves, that its moments may come, and last that all do"""
    count = (len(steps) + PART - 1) // PART
    out, joins = '', ''
    for k in range(count):
        state, rest = (f'{name}_after_{k}', f'{name}_from_{k}') if k else (f'(start_of {name})', f'(moments_of {name})')
        if k:
            before = f'{name}_after_{k - 1}' if k > 1 else f'(start_of {name})'
            whole = f'{name}_from_{k - 1}' if k > 1 else f'(moments_of {name})'
            out += f'abbrev {state} : Replay\n{state} = after_moments {before} (take {PART} {whole})\n\n'
            out += f'abbrev {rest} : List Moment\n{rest} = drop {PART} {whole}\n\n'
        out += f'{name}_part_{k} : Follows {state} (take {PART} {rest})\n{unfolding}{name}_part_{k} = {steps_term(steps[PART * k:PART * (k + 1)])}\n\n'
        last = k == count - 1
        join = f'{name}_part_{k}' if last else f'(follow_on {state} (take {PART} {rest}) (drop {PART} {rest})).1 ({name}_part_{k}, {name}_follows_{k + 1})'
        joins = f'{name}_follows_{k} : Follows {state} {rest}\n{name}_follows_{k} = {join}\n\n' + joins
    return out + joins


def work_marks(row):
    """`refl` where a line begins a further event of a drain, at which all units must be at work; else `tt`"""
    out, draining = [], False
    moments = [m for m, _ in moments_of(row)]
    for i, m in enumerate(moments):
        if m.startswith('Played'):
            out.append('tt')
            draining = m.endswith(' Drain')
            continue
        begins = draining and not moments[i - 1].startswith('Played') and re.search(r' (Arrive|Intr|Attn|\(Sector .*)$', m) is not None
        if begins and m.endswith(' Attn'):
            # an attention after another line of one attend does not begin an event
            begins = began_apart(moments, i)
        out.append('refl' if begins else 'tt')
    return out


def began_apart(moments, i):
    """whether the attention at i is the first of its attend: the event before it ended with an arrival or a sector, or with an
    attend of another adapter"""
    unit = int(moments[i].split()[2])
    for j in range(i - 1, -1, -1):
        m = moments[j]
        if m.startswith('Played'):
            return False
        if m.endswith(' Arrive') or '(Sector' in m:
            return True
        if m.endswith(' Attn') or m.endswith(' Intr'):
            return int(m.split()[2]) // 8 != unit // 8
    return False


# ---- write: lines out of place
def read_refused():
    """`NAME RULE ROW [alone]`, then the line of the row before which it would stand, then the line that is refused"""
    out, lines = [], [l for l in open(f'{HERE}/refused.txt').read().split('\n') if l and not l.startswith('#')]
    for head, before, line in zip(*[iter(lines)] * 3):
        out.append((head.split(), before.strip(), line.strip()))
    return out


def place_of(rows, name, before):
    """how many moments stand before the nth line of this text, `TEXT`, `TEXT * N` or `TEXT * N + K`"""
    texts = [t for _, t in moments_of(rows[name])]
    if before in ('the beginning', 'the end'):
        return 0 if before == 'the beginning' else len(texts)
    text, _, more = before.partition(' * ')
    nth, _, behind = (more or '1').partition(' + ')
    found = [i for i, t in enumerate(texts) if t == text]
    if len(found) < int(nth):
        sys.exit(f'{name}: no line {before}')
    return found[int(nth) - 1] + int(behind or '0')


def refused_term(line):
    if line.startswith('> '):
        number, _, text = line[2:].partition(' ')
        term = input_term(text)
        return f'Played {number} ({term})' if ' ' in term else f'Played {number} {term}'
    return told_term(line)


RULES = ['Number', 'Events', 'Service', 'Conversation', 'Drives', 'Adapters', 'Packs', 'Work']


def alone_proof(head, start, n, term):
    """the other rules hold, each by computation"""
    name, rule, row = head[:3]
    deed = term.split(' ', 4)[4].strip('()').split(' ')[0] if term.startswith('Told') else ''
    words = {
        'Drives': 'tt' if deed in ('End', 'Intr', 'Try') else 'refl', 'Packs': 'tt' if deed != 'Sector' else 'refl',
        'Adapters': {'Transfer': 'refl', 'Sector': '(refl, refl)', 'Intr': 'refl', 'Attn': 'refl'}.get(deed, 'tt'),
        'Work': 'refl' if deed in ('Arrive', 'Sector', 'Intr') else 'tt',
    }
    out = f'pub {name}_alone : (other : RuleName) → other ≢ {rule} → Keeps other (after_moments {start} (take {n} (moments_of {row}))) ({term})\n'
    proofs = {other: 'absurd (apart refl)' if other == rule else words.get(other, 'refl') for other in RULES}
    most = max(proofs.values(), key=list(proofs.values()).count)
    return out + ''.join(f'{name}_alone {other} apart = {proof}\n' for other, proof in proofs.items() if proof != most) + f'{name}_alone it apart = {most}\n'


# ---- write: the crate
PRELUDE = 'Rattle.std.specs.Prelude'
ROW_USES = """use Rattle.std.specs.Prelude.{◌==◌, ◌&&◌, ◌++◌, true, false, if◌then◌else◌, [], ◌∷◌, Some, None, replicate}
use Rattle.pack_geometry.specs.declared.DriveKind.TheVariants.{Rp06, Rm03, Rm05}
use Rattle.partitions.specs.declared.Part.TheVariants as part
use Rattle.drive_registers.specs.declared.OffsetCode.TheVariants.{Plus400, Minus400, Plus800, Minus800, Plus1200, Minus1200}
use Rattle.hardware_table.specs.declared.FaultKind.TheVariants as kind
use Rattle.hardware_table.specs.declared.NoiseSpan.TheVariants.{Times, Until}
use Rattle.hardware_table.specs.declared.Moved.TheVariants as verdict
use Rattle.hardware_table.specs.declared.Moved.TheVariants.{Clean, Burst, Hard, Marked, Faulted}
use Rattle.trace_replay.specs.requests.Requests.{Offline, Locked, Unforwarded, Fault, ReadOk, WriteOk, OutsidePartition, EndOfPartition, NoFrames, Failed}
use Rattle.trace_replay.specs.Script.{Submit, ArriveAt, MoveAt, AttendTo, Drain, Turn, Noise, Arm, SetOnline, SetLocked, Declares, Plays}
use Rattle.trace_replay.specs.Moments.{Search, Seek, Recal, Offset, Centre, Clear, Pack, Transfer, Arrive, Sector, Intr, Try, Attn, End}
use Rattle.trace_rows.specs.Accepted.{over, over_zeros, Row, row, Says, Waits, clean, again, offset_again}
use Rattle.trace_rows.specs.Sequences.{sequence}
"""


def used(text, uses):
    """the `use` lines that the text needs, with the names that it needs"""
    out = []
    body = re.sub(r'--.*', '', text)
    for line in uses.strip().split('\n'):
        m = re.fullmatch(r'use (\S+)\.\{(.*)\}', line)
        if m is None:
            if re.search(r'\b' + line.rsplit(' as ', 1)[1] + r'\.', body):
                out.append(line)
            continue
        def is_used(n):
            if '◌' in n:
                return all(re.search(r'(?<![\w])' + re.escape(p) + r'(?![\w])' if p.isalpha() else re.escape(p), body) for p in n.split('◌') if p)
            if n == '[]':
                return '[]' in body
            return re.search(r'(?<![\w.])' + re.escape(n) + r"(?![\w'])", body) is not None
        names = [n for n in m.group(2).split(', ') if is_used(n)]
        if names:
            out.append(f"use {m.group(1)}.{{{', '.join(names)}}}")
    return '\n'.join(out) + '\n'


def chunks(rows):
    """rows in files of a few hundred moments each"""
    out, size = [[]], 0
    for row in rows:
        n = len(moments_of(row))
        if size and size + n > 400:
            out.append([])
            size = 0
        out[-1].append(row)
        size += n
    return out


def bursts_of(rows):
    """each burst that a sector shows, with its places"""
    seen = {}
    for row in rows:
        for line in row['script']:
            f = line.split()
            if f and f[0] == 'noise':
                places = [int(x) for x in f[5 if f[3] == 'until' else 4:]]
                seen[(places[0] + 1, sum(1 << (p - places[0]) for p in places if p - places[0] < 11))] = places
    shown = {(int(a), int(p)) for row in rows for m, _ in moments_of(row) for a, p in re.findall(r'\(Burst (\d+) (\d+)\)', m)}
    return {key: seen[key] for key in sorted(shown)}


def list_lines(names):
    """the list of these rows, as lines of a clause"""
    lines = ['']
    for name in names:
        if len(lines[-1]) + len(name) > 120:
            lines.append('')
        lines[-1] += f'{name} ∷ '
    return '\n        '.join(line.rstrip() for line in lines[:-1] + [lines[-1] + '[]'])


def made(names):
    """the files of the crate, and what they have"""
    rows = {n: read_row(n) for n in names}
    groups = chunks(list(rows.values()))
    files = {}
    put = lambda path, text: files.update({path: text})
    for k, group in enumerate(groups, 1):
        body = '\n'.join(row_specs(r) for r in group)
        put(f'specs/Rows{k}.antt', '-- Rows of traces, as docs/trace-rows/rows.py writes them.\n' + used(body, ROW_USES) + '\n' + body)
        proof = '\n'.join(row_proof(r) for r in group)
        bursts = ', '.join(f'burst_{a}_{p}' for a, p in bursts_of(group))
        head = '-- Each moment of the rows may come, by computation; docs/trace-rows/rows.py writes this.\nuse Rattle.std.proofs.Common.{refl}\n'
        if '_part_' in proof:
            head = head.replace('{refl}', '{List, take, drop, refl}') + PART_USES
        if 'code.' in proof:
            head += 'use Rattle.fire_code.specs.Remainder as code\n'
        if 'repair.' in proof:
            head += 'use Rattle.fire_code.specs.Repair as repair\n'
        head += f"use Rattle.trace_rows.specs.Accepted.{{{'start_of, moments_of, ' if '_part_' in proof else ''}IsAccepted}}\n"
        head += f"use Rattle.trace_rows.specs.Rows{k}.{{{', '.join(r['name'] for r in group)}}}\n"
        if bursts:
            head += f'use Rattle.trace_rows.proofs.Bursts.{{{bursts}}}\n'
        if 'shown_0_7_14' in proof:
            head += 'use Rattle.trace_rows.proofs.Shown.{shown_0_7_14}\n'
        put(f'proofs/Rows{k}.antt', head + '\n' + proof)
    bursts = '-- Short bursts of the rows; docs/trace-rows/rows.py writes this.\nuse Rattle.std.proofs.Common.{[], ◌∷◌, refl, arith}\nuse Rattle.fire_code.specs.Burst as burst\nuse Rattle.fire_code.specs.Burst.{IsBurst}\nuse Rattle.fire_code.specs.Remainder.{remainder}\n'
    for (at, pattern), places in bursts_of(rows.values()).items():
        bursts += (f"\npub burst_{at}_{pattern} : IsBurst {at} {pattern} (remainder ({' ∷ '.join(map(str, places))} ∷ []))\nunfolding burst.places_of\n"
                   f'burst_{at}_{pattern} = record {{ counted = omega arith; odd = refl; small = omega arith; burst = search arith; is = refl }}\n')
    put('proofs/Bursts.antt', bursts)
    refused = read_refused()
    alone, clauses = [], []
    for head, before, line in refused:
        name, rule, row = head[:3]
        n = place_of(rows, row, before)
        start = f'(start_of {row})' if len(head) < 5 else head[4]
        term = refused_term(line)
        word = 'Breaks'
        if 'alone' in head:
            alone.append((head, start, n, term))
            word = 'BreaksAlone'
        clauses.append(f'    ensures {name} {{ {word} {rule} {start} (moments_of {row}) {n} ({term}) }}')
    unfinished = [('empty_script', 1), ('first_read', 8), ('retries_run_out', 40), ('attentions_together', 20)]
    body = '\n'.join(alone_proof(*a) for a in alone)
    where = {r['name']: k for k, g in enumerate(groups, 1) for r in g}
    row_names = lambda which: '\n'.join(f"use Rattle.trace_rows.specs.Rows{k}.{{{', '.join(n for r in g for n in which(r['name']))}}}" for k, g in enumerate(groups, 1) if any(which(r['name']) for r in g))
    lib = LIB_HEAD.format(rows=len(rows), refused=len(refused))
    texts = ['first_read', 'empty_script', 'short_burst_repaired', 'until_offset', 'written_as_far_as_done', 'offline', 'partition_ends', 'each_fault']
    laws = '/// The traces of the rows are legal: each trace plays its script, and its moments may come one after another.\npub fn rows_law()\n'
    laws += f'    ensures {{ EachIs IsAccepted ({list_lines(rows)}) }}\n{{}}\n\n'
    laws += ('/// What is refused: after a number of moments of a row, a moment that breaks the rule that is named. For each rule there is a moment\n'
             '/// that breaks no other rule. Traces that stop too early are refused too.\npub fn refusals_law()\n')
    laws += '\n'.join(clauses) + '\n' + ''.join(f'    ensures {n}_unfinished {{ IsUnfinished (start_of {n}) (moments_of {n}) {k} }}\n' for n, k in unfinished) + '{}\n\n'
    laws += '/// The texts of the traces of some rows, byte for byte.\npub fn text_law()\n'
    for n in texts:
        laws += f'    ensures {n} {{ trace_text (moments_of {n}) ≡ ended (' + ' ∷ '.join(f'codes "{l}"' for l in rows[n]['trace']) + ' ∷ []) }\n'
    laws += '{}\n'
    uses = used(laws, LIB_USES + row_names(lambda n: [n]))
    put('src/lib.rt', lib + ''.join('ghost ' + l + ';\n' for l in uses.strip().split('\n')) + '\n' + laws)
    answers = 'use Rattle.trace_rows.proofs.rows_law.Goals as goal\n' + ''.join(
        f"use Rattle.trace_rows.proofs.Rows{k}.{{{', '.join(r['name'] + '_accepted' for r in g)}}}\n" for k, g in enumerate(groups, 1))
    answers += '\npub returns : goal.returns\nreturns c = '
    answers += ''.join(f'({n}_accepted, ' for n in rows) + 'tt' + ')' * len(rows) + '\n'
    put('proofs/rows_law/Answers.antt', answers)
    put('proofs/Refused1.antt', '-- What a row that breaks one rule alone keeps: all others; docs/trace-rows/rows.py writes this.\n'
        + used(body, LIB_USES + 'use Rattle.std.proofs.Common.{refl}\n' + 'use Rattle.std.specs.Prelude.{◌≢◌, take}\n' + row_names(lambda n: [n])) + '\n' + body)
    answers = REFUSED_HEAD + f"use Rattle.trace_rows.proofs.Refused1.{{{', '.join(h[0] + '_alone' for h, _, _, _ in alone)}}}\n" + REFUSED_BURST
    told = set(re.findall(r'returns-clause-(\w+) c', REFUSED_BURST))
    for head, _, _ in refused:
        name = head[0]
        if name not in told:
            proof = f'record {{ broken = search arith; others = {name}_alone }}' if 'alone' in head else 'search arith'
            answers += f'\npub returns-clause-{name} : goal.returns-clause-{name}\nreturns-clause-{name} c = {proof}\n'
    for n, _ in unfinished:
        answers += f'\npub returns-clause-{n}_unfinished : goal.returns-clause-{n}_unfinished\nreturns-clause-{n}_unfinished c = search arith\n'
    put('proofs/refusals_law/Answers.antt', answers)
    answers = 'use Rattle.std.proofs.Common.{refl}\nuse Rattle.std.specs.Fmt as fmt\nuse Rattle.trace_rows.proofs.text_law.Goals as goal\n'
    for n in texts:
        answers += f'\npub returns-clause-{n} : goal.returns-clause-{n}\nunfolding fmt.digits\nreturns-clause-{n} c = refl\n'
    put('proofs/text_law/Answers.antt', answers)
    put('specs/Lib.antt', 'pub mod Accepted\npub mod Sequences\npub mod Strange\n' + ''.join(f'pub mod Rows{k}\n' for k in range(1, len(groups) + 1)))
    put('proofs/Lib.antt', 'pub mod Bursts\npub mod Shown\npub mod Given\n' + ''.join(f'pub mod Rows{k}\n' for k in range(1, len(groups) + 1)) + 'pub mod Refused1\n')
    return files, f'{len(rows)} rows, {len(refused)} lines refused, {len(alone)} of them by one rule alone'


def written_before():
    """the files of rows that stand in the crate"""
    return [f'{folder}/{f}' for folder in ('specs', 'proofs') for f in os.listdir(f'{CRATE}/{folder}') if re.fullmatch(r'(Rows|Refused)\d*\.antt', f)]


def write(files):
    for path in written_before():
        os.remove(f'{CRATE}/{path}')
    for path, text in files.items():
        os.makedirs(os.path.dirname(f'{CRATE}/{path}'), exist_ok=True)
        with open(f'{CRATE}/{path}', 'w') as f:
            f.write(text)


def differing(files):
    """the files of the crate that are not as they would be written"""
    def is_so(path):
        try:
            with open(f'{CRATE}/{path}') as f:
                return f.read() == files.get(path)
        except FileNotFoundError:
            return False
    return sorted(path for path in {*files, *written_before()} if not is_so(path))


PART_USES = """use Rattle.trace_replay.specs.Moments.{Moment}
use Rattle.trace_replay.specs.Replay.{Replay, Follows, after_moments}
use Rattle.trace_replay.proofs.Following.{follow_on}
"""
LIB_HEAD = """//! Rows of traces: scripts over packs with the traces that belong to them, and lines out of place. Computation proves that each
//! trace is legal, and that its rule refuses each line. The rows stand as text in `docs/trace-rows`, and `rows.py` there writes this
//! crate anew.
//!
//! What is proved: {rows} worked traces are legal, and the rule of each of {refused} lines out of place refuses that line, by computation.
#![tactic(auto)]

"""
LIB_USES = """use Rattle.std.specs.Prelude.{◌≡◌, ◌++◌, true, false, replicate, Some, None, [], ◌∷◌, codes}
use Rattle.partitions.specs.declared.Part.TheVariants as part
use Rattle.drive_registers.specs.declared.OffsetCode.TheVariants.{Plus400, Minus400, Plus800, Minus800, Plus1200, Minus1200}
use Rattle.hardware_table.specs.declared.FaultKind.TheVariants as kind
use Rattle.hardware_table.specs.declared.Moved.TheVariants as verdict
use Rattle.hardware_table.specs.declared.Moved.TheVariants.{Clean, Burst, Hard, Marked, Faulted}
use Rattle.trace_replay.specs.requests.Requests.{Offline, Locked, Unforwarded, Fault, ReadOk, WriteOk, OutsidePartition, EndOfPartition, NoFrames, Failed}
use Rattle.trace_replay.specs.Script.{Submit, ArriveAt, MoveAt, AttendTo, Drain, Turn, Noise, Arm, SetOnline, SetLocked}
use Rattle.trace_replay.specs.Moments.{Search, Seek, Recal, Offset, Centre, Clear, Pack, Transfer, Arrive, Sector, Intr, Try, Attn, End, Played, Told, Idle}
use Rattle.trace_replay.specs.Replay.{after_moments}
use Rattle.trace_replay.specs.Rules.{Breaks, BreaksAlone, IsUnfinished, RuleName, Keeps, Number, Events, Service, Conversation, Drives, Adapters, Packs, Work}
use Rattle.trace_replay.specs.Text.{trace_text, ended}
use Rattle.trace_rows.specs.Accepted.{start_of, moments_of, IsAccepted, EachIs}
use Rattle.trace_rows.specs.Strange.{busy_start, stranded_start, skewed_start}
"""
REFUSED_HEAD = """use Rattle.std.proofs.Common.{ap, arith}
use Rattle.fire_code.specs.Remainder as code
use Rattle.fire_code.specs.Repair as repair
use Rattle.trace_rows.proofs.Given.{byte_given}
use Rattle.trace_rows.proofs.refusals_law.Goals as goal
"""
REFUSED_BURST = """
-- the burst's remainder, computed, is another number than 0
pub returns-clause-burst_as_clean : goal.returns-clause-burst_as_clean
unfolding code.remainder code.power code.times_x
returns-clause-burst_as_clean c = λ h. omega (arith, h)

-- the bytes that a burst flips, computed, are other bytes
pub returns-clause-burst_not_repaired : goal.returns-clause-burst_not_repaired
unfolding repair.burst_byte byte_given
returns-clause-burst_not_repaired c = λ h. omega (arith, ap (byte_given 211) h)

pub returns-clause-repaired_beyond_the_end : goal.returns-clause-repaired_beyond_the_end
unfolding repair.burst_byte
returns-clause-repaired_beyond_the_end c = search arith
"""

# ---- what is printed
def printed(row):
    """the lines that are printed for the answers"""
    out, sizes = [], requests_of(row)
    for line in row['answers']:
        f = line.split()
        if f[0] == 'noise' or f[4] != 'ok' or len(f) < 6:
            out.append(line)
            continue
        out.append(' '.join(f[:5]))
        count, last, _ = sizes[int(f[1])]
        data = bytes_of(f[5])
        for k in range(count):
            block = data[512 * k:512 * k + (last if k == count - 1 else 512)]
            out.append(f'blk {k} fill {block[0]:02x}' if len(set(block)) == 1 else f'blk {k} hex {block.hex()}')
    return out


if __name__ == '__main__':
    args = sys.argv[1:]
    every = sorted(f[:-4] for f in os.listdir(f'{HERE}/rows'))
    if args[:1] == ['run'] and len(args) > 1:
        run(args[1], args[2:] or every)
    elif args[:1] == ['write']:
        files, said = made(args[1:] or every)
        write(files)
        print(said)
    elif args == ['check']:
        if other := differing(made(every)[0]):
            sys.exit(f'crates/trace_rows is not as docs/trace-rows says ({", ".join(other)}): run docs/trace-rows/rows.py write')
    else:
        sys.exit(__doc__)
