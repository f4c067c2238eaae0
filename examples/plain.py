#!/usr/bin/env python3
"""A plain `play`, and `raw`, by `docs/behaviour.md` and `docs/formats.md`: a solution of exercise 6 of `docs/course.md`. It proves nothing,
gathers its text to the end, and takes a thousand times as long as `hpsim`.

    plain.py play < SCRIPT
    plain.py raw read U KIND PART AT LEN; plain.py raw write U KIND PART AT < BYTES
    plain.py --wrong NAME WORDS..    with one rule wrong
    plain.py --list                  the names of these wrong versions, and what is wrong

`wrong-versions.py` shows that `compare.py` finds each of them.
"""
import functools, os, sys

KINDS = {'rp06': (815, 19, 22), 'rm03': (823, 5, 32), 'rm05': (823, 19, 32)}
PARTS = {'rp06': [(15884, 0), (33440, 38), (340522, 0), (15884, 118), (55936, 156), (219296, 290), (291192, 118), (0, 0)],
         'rm03': [(15884, 0), (33440, 100), (131522, 0), (15884, 309), (55936, 409), (10080, 759), (82080, 309), (0, 0)],
         'rm05': [(15884, 0), (33440, 27), (500226, 0), (0, 0), (0, 0), (0, 0), (450370, 82), (0, 0)]}
CODES = ['+400', '-400', '+800', '-800', '+1200', '-1200']
TRIES = [CODES[i] for i in (0, 1, 0, 1, 2, 3, 2, 3, 4, 5, 4, 5)]
FAULTS = ['seek', 'opi', 'dte', 'hcrc', 'late']
WRONG = {
    'pack_clears_offset': 'PACK clears the offset code',
    'no_rtc_after_offline': 'no RTC after the verdict `offline`',
    'writes_of_126': 'raw writes are cut at 126 blocks',
    'end_clears_offset': 'the end of a request clears the offset code',
    'offset_for_writes': 'a retry of a write has OFFSET too',
    'seek_to_first_block': 'SEEK goes to the cylinder of the first block not done, also if a replacement failed',
    'seek_to_cylinder_0': 'SEEK follows RECAL also to cylinder 0',
    'count_goes_on': 'failures are counted through a request, not at one sector',
    'retry_leaves_replacement': 'a retry begins at the own sector, also if the replacement failed',
    'dclr_after_clean': 'DCLR after the verdict `clean` too',
    'near_up_to_6': 'a unit is ready at once if its sector comes 1 to 6 sectors later',
    'turn_while_searching': 'a SEARCH that ends leaves the look-ahead sector as a `turn` set it',
    'mark_moves_heads': 'the heads move on after the verdict `mark`',
    'mark_before_fault': 'a marked sector is judged before an armed fault',
    'write_ends_noise': 'a write uses up noise',
    'youngest_noise': 'the youngest noise of a block decides',
    'ended_noise_lets_next': 'a read that ends noise by its code is struck by younger noise',
    'judge_what_was_asked': 'a short last block is judged by what was asked of it',
    'second_run_in_front': 'a request of a lower cylinder goes before those of the next sweep',
    'equal_in_front': 'a request goes before those of the same cylinder',
    'online_makes_valid': '`online` makes the volume valid',
}
# Those that transfers alone show.
WRONG_TRANSFERS = ['writes_of_126']
wrong = ''


class Pack:
    """The files of a unit, and the geometry of its drive."""

    def __init__(self, unit, kind):
        self.names = f'hp{unit}.dsk', f'hp{unit}.bad'
        self.cylinders, self.tracks, self.sectors = KINDS[kind]
        self.blocks = self.cylinders * self.tracks * self.sectors
        self.limit = self.blocks - self.sectors - 126
        try:
            with open(self.names[1], 'rb') as file:
                self.marks = file.read()
        except FileNotFoundError:
            self.marks = b''
        self.table = next(filter(lambda it: it is not None, (self.table_in(k) for k in range(5))), [])

    def length(self):
        return os.path.getsize(self.names[0]) if os.path.exists(self.names[0]) else 0

    def read(self, block):
        if not os.path.exists(self.names[0]):
            return bytes(512)
        with open(self.names[0], 'rb') as file:
            file.seek(512 * block)
            return file.read(512).ljust(512, b'\0')

    def write(self, block, data):
        with open(self.names[0], 'r+b' if os.path.exists(self.names[0]) else 'w+b') as file:
            file.seek(512 * block)
            file.write(data)

    def marked(self, block):
        return block < len(self.marks) and self.marks[block] != 0

    def place(self, block):
        """cylinder and sector"""
        return block // (self.tracks * self.sectors), block % self.sectors

    def table_in(self, copy):
        """The blocks that a copy lists, or None if it is marked or spells no table."""
        at = self.blocks - self.sectors + 2 * copy
        text = self.read(at)
        if self.marked(at) or text[4:8] != bytes(4):
            return None
        pairs, last = [text[8 + 4 * i:12 + 4 * i] for i in range(126)], -1
        places = pairs[:next((i for i in range(126) if pairs[i] == b'\xff' * 4), 126)]
        listed = []
        for pair in places:
            cylinder, sector, track = pair[0] + 256 * pair[1], pair[2], pair[3]
            block = (cylinder * self.tracks + track) * self.sectors + sector
            if cylinder >= self.cylinders or track >= self.tracks or sector >= self.sectors or block <= last:
                return None
            last = block
            listed.append(block)
        return listed if all(pair == b'\xff' * 4 for pair in pairs[len(places):]) else None


# ---- the code of a sector
GENERATOR = 0x100A00805


def times_x(value):
    value <<= 1
    return value ^ GENERATOR if value >> 32 else value


def over_x(value):
    return (value ^ GENERATOR) >> 1 if value & 1 else value >> 1


POWERS = [1]
while len(POWERS) < 4128:
    POWERS.append(times_x(POWERS[-1]))


@functools.lru_cache(maxsize=None)
def judged(places):
    """The verdict of a read that noise at these places strikes."""
    rest = 0
    for place in places:
        rest ^= POWERS[4127 - place]
    if rest == 0:
        return ('clean',)
    for power in range(4128):
        if rest & 1 and rest < 2048:
            size = rest.bit_length()
            if power + size > 4128:
                break
            return 'burst', 4127 - power - size + 2, int(format(rest, 'b')[::-1], 2)
        rest = over_x(rest)
    return ('ecc',)


def class_of(places):
    if places[-1] - places[0] <= 10:
        return 'short'
    return 'shown' if judged(places) == ('ecc',) else 'alias'


def flipped(data, places):
    data = bytearray(data)
    for place in places:
        if place < 4096:
            data[place // 8] ^= 1 << place % 8
    return bytes(data)


# ---- requests and units
class Request:
    def __init__(self, id, unit, part, block, count, data=None, offset=0, last=512):
        self.id, self.unit, self.part, self.block, self.count, self.offset, self.last = id, unit, part, block, count, offset, last
        self.data, self.write = [], data is not None
        if self.write:
            data = data[:512 * (count - 1) + last].ljust(512 * count, b'\0')
            self.data = [data[512 * k:512 * k + 512] for k in range(count)]
        else:
            self.data = [bytes(512)] * count
        self.frames = (offset + 512 * (count - 1) + last + 511) // 512
        self.done = 0

    def size(self, k):
        return self.last if k == self.count - 1 else 512


class Unit:
    def __init__(self, number, kind):
        self.number, self.kind, self.pack = number, kind, Pack(number, kind)
        self.online, self.locked, self.valid, self.cylinder, self.sector, self.code = True, False, True, 0, 0, None
        self.queue, self.state, self.goal, self.attention = [], 'waiting', None, False
        self.faults, self.noise = dict.fromkeys(FAULTS, 0), []
        self.restart()

    def restart(self):
        """What belongs to the request in hand."""
        self.replacement, self.steps, self.failed, self.failures = None, [], None, 0


class Adapter:
    def __init__(self):
        self.queue, self.unit, self.up, self.turned = [], None, False, False


class Subsystem:
    def __init__(self, units):
        self.units, self.adapters = units, [Adapter() for _ in range(4)]
        self.frames, self.line, self.trace, self.answers = 0, 0, [], []

    def tell(self, word, unit, *more):
        self.trace.append(' '.join(map(str, (word, self.line, unit.number, unit.queue[0].id, *more))))

    def command(self, unit, *words):
        self.trace.append(' '.join(map(str, ('cmd', self.line, unit.number, unit.queue[0].id, *words))))

    def adapter(self, unit):
        return self.adapters[unit.number // 8]

    # -- submission
    def submit(self, request):
        unit = self.units[request.unit]
        size, first = PARTS[unit.kind]['abcdefgh'.index(request.part)]
        refusal = None
        if request.block == size:
            refusal = 'eof'
        elif request.block + request.count > size:
            refusal = 'error partition done 0'
        elif self.frames + request.frames > 16384:
            refusal = 'error frames done 0'
        if refusal:
            self.trace.append(f'end {self.line} {unit.number} {request.id}')
            self.answers.append((request, self.line, refusal))
            return
        request.first = first * unit.pack.tracks * unit.pack.sectors + request.block
        request.cylinder = unit.pack.place(request.first)[0]
        self.frames += request.frames
        self.join(unit, request)
        if len(unit.queue) == 1:
            self.start_unit(unit)
        self.start_adapter(self.adapter(unit))

    def join(self, unit, request):
        head = unit.queue[0] if unit.queue else None
        request.sweep = 0 if head is None else head.sweep + (request.cylinder < head.cylinder)
        if wrong == 'second_run_in_front' and head and request.sweep > head.sweep:
            unit.queue.insert(1, request)
            return
        key = lambda it: (it.sweep, it.cylinder)
        before = (lambda it: key(it) < key(request)) if wrong == 'equal_in_front' else (lambda it: key(it) <= key(request))
        at = sum(1 for it in unit.queue if it is head or before(it))
        unit.queue.insert(at, request)

    # -- what is due
    def may(self, unit, write=False):
        """Whether a command is issued that is due; the request ends if not."""
        if not unit.online:
            self.end(unit, f'error offline done {unit.queue[0].done}')
        elif write and unit.locked:
            self.end(unit, f'error locked done {unit.queue[0].done}')
        else:
            if not unit.valid:
                self.command(unit, 'pack')
                unit.valid = True
                if wrong == 'pack_clears_offset':
                    unit.code = None
            return True
        return False

    def start_unit(self, unit):
        unit.restart()
        if not unit.queue:
            unit.state = 'waiting'
            return
        cylinder, sector = unit.pack.place(unit.queue[0].first)
        sectors = unit.pack.sectors
        if cylinder == unit.cylinder and 1 <= (sector - unit.sector) % sectors <= (6 if wrong == 'near_up_to_6' else 5):
            self.make_ready(unit)
        elif self.may(unit):
            goal = (sector - 3) % sectors
            self.command(unit, 'search', cylinder, goal)
            self.position(unit, (cylinder, goal))

    def position(self, unit, goal):
        unit.state, unit.goal, unit.turned = 'positioning', goal, False

    def make_ready(self, unit):
        unit.state = 'queued'
        self.adapter(unit).queue.append(unit)

    def start_adapter(self, adapter):
        while adapter.unit is None and adapter.queue:
            self.transfer(adapter, adapter.queue.pop(0))

    def transfer(self, adapter, unit):
        """RCOM or WCOM is due."""
        request = unit.queue[0]
        if not self.may(unit, request.write):
            return
        if unit.replacement is None:
            block, count = request.first + request.done, request.count - request.done
        else:
            block, count = unit.replacement, 1
        self.command(unit, 'wcom' if request.write else 'rcom', block, count)
        unit.state = 'transferring'
        adapter.unit, adapter.up, adapter.block, adapter.left, adapter.moved = unit, False, block, count, 0

    def end(self, unit, how):
        self.tell('end', unit)
        request = unit.queue.pop(0)
        self.frames -= request.frames
        self.answers.append((request, self.line, how))
        adapter = self.adapter(unit)
        if adapter.unit is unit:
            adapter.unit = None
        if wrong == 'end_clears_offset':
            unit.code = None
        self.start_unit(unit)

    # -- events
    def can_arrive(self, unit):
        return unit.state == 'positioning' and unit.goal is not None

    def can_attend(self, a):
        return self.adapters[a].unit is not None and self.adapters[a].up or any(it.attention for it in self.units.values() if it.number // 8 == a)

    def can_move(self, a):
        return self.adapters[a].unit is not None and not self.adapters[a].up

    def arrive(self, unit):
        cylinder, sector = unit.goal
        unit.goal, unit.attention, unit.cylinder = None, True, cylinder
        if sector is not None and not (wrong == 'turn_while_searching' and unit.turned):
            unit.sector = sector
        self.tell('arrive', unit)

    def move(self, a):
        adapter = self.adapters[a]
        unit, block = adapter.unit, adapter.block
        request = unit.queue[0]
        verdict = adapter.verdict = self.try_sector(unit, request, block, request.done + adapter.moved)
        words = [verdict[0], *map(str, verdict[1:2]), *(format(it, 'o') for it in verdict[2:])]
        self.tell('sector', unit, block, *words)
        adapter.tried = block
        if verdict[0] in ('clean', 'burst', 'ecc') or wrong == 'mark_moves_heads' and verdict[0] == 'mark':
            unit.cylinder, sector = unit.pack.place(block)
            unit.sector = (sector + 1) % unit.pack.sectors
        if verdict[0] == 'clean':
            adapter.moved += 1
            adapter.block += 1
            adapter.left -= 1
        adapter.up = verdict[0] != 'clean' or adapter.left == 0

    def try_sector(self, unit, request, block, k):
        if not unit.online:
            return ('offline',)
        if wrong == 'mark_before_fault' and unit.pack.marked(block):
            return ('mark',)
        for fault in FAULTS:
            if unit.faults[fault]:
                unit.faults[fault] -= 1
                return (fault,)
        if unit.pack.marked(block):
            return ('mark',)
        if request.write:
            unit.pack.write(block, request.data[k])
            if wrong == 'write_ends_noise':
                self.strike(unit, block)
            return ('clean',)
        places, size = self.strike(unit, block), request.size(k)
        data = flipped(unit.pack.read(block), places)
        request.data[k] = data[:size].ljust(512, b'\0')
        if wrong == 'judge_what_was_asked':
            places = tuple(it for it in places if it < 8 * size)
        return judged(places) if places else ('clean',)

    def strike(self, unit, block):
        """The places that are flipped."""
        live = [it for it in unit.noise if it['block'] == block]
        if wrong == 'youngest_noise':
            live.reverse()
        for noise in live:
            if noise['code'] is None:
                noise['times'] -= 1
                if noise['times'] == 0:
                    unit.noise.remove(noise)
                return noise['places']
            if noise['code'] != unit.code:
                return noise['places']
            unit.noise.remove(noise)
            if wrong != 'ended_noise_lets_next':
                return ()
        return ()

    def attend(self, a):
        adapter = self.adapters[a]
        if adapter.unit is not None and adapter.up:
            self.interrupt(adapter, adapter.unit)
        for unit in sorted((it for it in self.units.values() if it.number // 8 == a), key=lambda it: it.number):
            if unit.attention:
                unit.attention = False
                self.tell('attn', unit)
                self.step(unit)
        self.start_adapter(adapter)

    def interrupt(self, adapter, unit):
        request, verdict, block = unit.queue[0], adapter.verdict, adapter.tried
        self.tell('intr', unit)
        request.done += adapter.moved
        if adapter.moved:
            unit.replacement = None
        if verdict[0] != 'clean' or wrong == 'dclr_after_clean':
            self.command(unit, 'dclr')
        if unit.code and not (wrong == 'no_rtc_after_offline' and verdict[0] == 'offline'):
            self.command(unit, 'rtc')
            unit.code = None
        if verdict[0] == 'burst':
            self.repair(request, *verdict[1:])
            request.done += 1
            unit.replacement = None
        if verdict[0] in ('clean', 'burst'):
            if request.done == request.count:
                self.end(unit, 'ok')
            else:
                self.transfer(adapter, unit)
        elif verdict[0] == 'offline':
            self.end(unit, f'error offline done {request.done}')
        elif verdict[0] == 'mark':
            if unit.replacement is None and block in unit.pack.table:
                unit.replacement = unit.pack.blocks - unit.pack.sectors - 1 - unit.pack.table.index(block)
                self.transfer(adapter, unit)
            else:
                self.end(unit, f'error unforwarded done {request.done}')
        else:
            self.retry(adapter, unit, request, block)

    def repair(self, request, at, pattern):
        k = request.done
        size = request.size(k)
        places = [at - 1 + j for j in range(11) if pattern >> j & 1]
        request.data[k] = flipped(request.data[k], [it for it in places if it < 8 * size])

    def retry(self, adapter, unit, request, block):
        if block != unit.failed and not (wrong == 'count_goes_on' and unit.failed is not None):
            unit.failures = 0
        unit.failed, unit.failures = block, unit.failures + 1
        self.tell('try', unit, block, unit.failures)
        if unit.failures == 28:
            self.end(unit, f'error fault done {request.done}')
            return
        cylinder = unit.pack.place(request.first + request.done if wrong == 'seek_to_first_block' else block)[0]
        if wrong == 'retry_leaves_replacement':
            unit.replacement = None
        if unit.failures in (4, 12, 20):
            unit.steps = [('recal', 0)] + [('seek', cylinder)] * (cylinder != 0 or wrong == 'seek_to_cylinder_0')
        if unit.failures >= 16 and (not request.write or wrong == 'offset_for_writes'):
            unit.steps.append(('offset', TRIES[unit.failures - 16]))
        if unit.steps:
            adapter.unit = None
            self.step(unit)
        else:
            self.transfer(adapter, unit)

    def step(self, unit):
        """The next step of a retry, or the unit is ready."""
        if not unit.steps:
            self.make_ready(unit)
            return
        word, value = unit.steps.pop(0)
        if not self.may(unit):
            return
        self.command(unit, word, *([] if word == 'recal' else [value]))
        if word == 'offset':
            unit.code = value
            self.position(unit, (unit.cylinder, None))
        else:
            self.position(unit, (value, None))

    def drain(self):
        if not any(it.queue for it in self.units.values()):
            self.trace.append(f'idle {self.line}')
        while any(it.queue for it in self.units.values()):
            arriving = sorted(it.number for it in self.units.values() if self.can_arrive(it))
            moving = [a for a in range(4) if self.can_move(a)]
            if arriving:
                self.arrive(self.units[arriving[0]])
            elif moving:
                self.move(moving[0])
            else:
                self.attend(next(a for a in range(4) if self.can_attend(a)))

    def event(self, can, act, what):
        if can(what):
            act(what)
        else:
            self.trace.append(f'idle {self.line}')


# ---- scripts
class Refused(Exception):
    pass


def number(word, least, most, kind='number'):
    if not word.isdigit() or not word.isascii() or not least <= int(word) <= most:
        raise Refused(kind)
    return int(word)


def one_of(word, words):
    if word not in words:
        raise Refused('word')
    return word


class Fields:
    """The fields of a line, read one by one."""

    def __init__(self, words):
        self.words = words

    def next(self):
        if not self.words:
            raise Refused('word')
        return self.words.pop(0)

    def option(self, name, least, most, without):
        if self.words and self.words[0] == name:
            self.words.pop(0)
            return number(self.next(), least, most)
        return without


def data_of(fields, count):
    how, word = one_of(fields.next(), ('fill', 'seq', 'hex')), fields.next()
    if how == 'seq':
        first = number(word, 0, 255, 'data')
        return b''.join(bytes([(first + j + t) % 256 for t in range(512)]) for j in range(count))
    size = 2 if how == 'fill' else 1024 * count
    if len(word) != size or not all(it in '0123456789abcdefABCDEF' for it in word):
        raise Refused('data')
    return bytes.fromhex(word) * (512 * count if how == 'fill' else 1)


class Script:
    """A script, line by line: what each does, as a word with its arguments."""

    def __init__(self, text):
        if len(text) > 16777216:
            self.refuse(0, 'scriptlong')
        lines = text.split(b'\n')
        self.units, self.ids, self.lines, self.noises, self.others = {}, set(), [], 0, False
        if lines[-1] == b'':
            lines.pop()
        self.count = len(lines)
        for at, line in enumerate(lines, 1):
            line = line[:-1] if line.endswith(b'\r') else line
            if at > 1000000:
                self.refuse(at, 'toomany')
            if len(line) > 140000:
                self.refuse(at, 'linelong')
            words = line.decode('latin-1').replace('\t', ' ').split(' ')
            words = [it for it in words if it]
            if not words or line.startswith(b'#'):
                continue
            try:
                self.read(at, words)
            except Refused as why:
                self.refuse(at, why)

    def refuse(self, line, kind):
        sys.stdout.write(f'refused line {line} {kind}\n')
        sys.exit(3)

    def unit(self, word):
        unit = number(word, 0, 31)
        if unit not in self.units:
            raise Refused('unitunknown')
        return unit

    def read(self, at, words):
        word, fields = words[0], Fields(words[1:])
        if word not in ('unit', 'read', 'write', 'arrive', 'turn', 'move', 'attend', 'noise', 'fault', 'offline', 'online', 'lock', 'unlock', 'drain'):
            raise Refused('word')
        if word == 'unit':
            if self.others:
                raise Refused('lateunit')
            unit = number(fields.next(), 0, 31)
            if unit in self.units:
                raise Refused('unittwice')
            self.units[unit] = one_of(fields.next(), KINDS)
            arguments = ()
        else:
            self.others = True
            self.noises += word == 'noise'
            if word in ('read', 'write') and len(self.ids) == 65536 or self.noises > 4096:
                raise Refused('toomany')
            arguments = self.arguments(word, fields)
        if fields.words:
            raise Refused('word')
        self.lines.append((at, word, arguments))

    def arguments(self, word, fields):
        if word in ('read', 'write'):
            id = number(fields.next(), 0, 4294967295)
            if id in self.ids:
                raise Refused('idtwice')
            self.ids.add(id)
            unit, part, block = self.unit(fields.next()), one_of(fields.next(), 'abcdefgh'), number(fields.next(), 0, 4294967295)
            count = number(number_text(fields.next()), 1, 127, 'count')
            data = data_of(fields, count) if word == 'write' else None
            return id, unit, part, block, count, data, fields.option('off', 0, 511, 0), fields.option('last', 1, 512, 512)
        if word in ('move', 'attend'):
            return (number(fields.next(), 0, 3),)
        if word == 'drain':
            return ()
        unit = self.unit(fields.next())
        cylinders, tracks, sectors = KINDS[self.units[unit]]
        if word == 'turn':
            return unit, number(fields.next(), 0, sectors - 1)
        if word == 'fault':
            return unit, one_of(fields.next(), FAULTS), number(fields.next(), 1, 1000)
        if word == 'noise':
            block, code, times = number(fields.next(), 0, cylinders * tracks * sectors - 1), None, 0
            if fields.words[:1] == ['until']:
                fields.next()
                code = one_of(fields.next(), CODES)
            else:
                times = number(fields.next(), 1, 1000)
            places = [fields.next()]
            places += fields.words
            fields.words = []
            last = -1
            for i, it in enumerate(places):
                last = places[i] = number(it, last + 1, 4127, 'bits')
            if len(places) > 64:
                raise Refused('bits')
            return unit, block, times, code, tuple(places)
        return (unit,)


def number_text(word):
    if not word.isdigit() or not word.isascii():
        raise Refused('number')
    return word


def texts(answers):
    for request, line, how in answers:
        yield f'ans {request.id} at {line} {how}'
        for k in range(request.count if how == 'ok' and not request.write else 0):
            data = request.data[k][:request.size(k)]
            yield f'blk {k} fill {data[0]:02x}' if len(set(data)) == 1 else f'blk {k} hex {data.hex()}'


def attach(units):
    made = {}
    for unit, kind in units.items():
        made[unit] = Unit(unit, kind)
        length = made[unit].pack.length()
        if length > 512 * made[unit].pack.blocks:
            sys.stdout.write(f'too long unit {unit} length {length}\n')
            sys.exit(7)
    return Subsystem(made)


def finish(system):
    if system.trace:
        with open('hp.trace', 'w') as file:
            file.write(''.join(line + '\n' for line in system.trace))


def play():
    script = Script(sys.stdin.buffer.read(16777217))
    system, out = attach(script.units), []
    for system.line, word, arguments in script.lines:
        unit = system.units[arguments[0]] if word in ('arrive', 'turn', 'fault', 'offline', 'online', 'lock', 'unlock', 'noise') else None
        if word in ('read', 'write'):
            system.submit(Request(*arguments))
        elif word == 'arrive':
            system.event(system.can_arrive, system.arrive, unit)
        elif word == 'move':
            system.event(system.can_move, system.move, *arguments)
        elif word == 'attend':
            system.event(system.can_attend, system.attend, *arguments)
        elif word == 'drain':
            system.drain()
        elif word == 'turn':
            unit.sector, unit.turned = arguments[1], True
        elif word == 'fault':
            unit.faults[arguments[1]] += arguments[2]
        elif word == 'noise':
            _, block, times, code, places = arguments
            unit.noise.append({'block': block, 'times': times, 'code': code, 'places': places})
            out.append(f'noise {system.line} {class_of(places)}')
        elif word in ('offline', 'online'):
            unit.online = word == 'online'
            unit.valid = unit.valid and word == 'online' or word == 'online' and wrong == 'online_makes_valid'
        elif word in ('lock', 'unlock'):
            unit.locked = word == 'lock'
        out += texts(system.answers)
        system.answers = []
    system.line = script.count + 1
    system.drain()
    out += texts(system.answers)
    finish(system)
    sys.stdout.write(''.join(line + '\n' for line in out))


# ---- transfers
def asked(system, request):
    """How a request ends that is submitted and drained."""
    system.submit(request)
    system.drain()
    return system.answers.pop()[2]


def raw(words):
    how, unit, kind, part, at = words[0], int(words[1]), words[2], words[3], int(words[4])
    data = None if how == 'read' else sys.stdin.buffer.read(16777217)
    size = int(words[5]) if how == 'read' else len(data)
    if at + size > 512 * PARTS[kind]['abcdefgh'.index(part)][0] or size > 16777216:
        sys.stdout.write('refused outside\n')
        sys.exit(10)
    system = attach({unit: kind})
    system.line = 1
    block, stop, done, got = at // 512, (at + size + 511) // 512, 0, b''
    while size and block < stop:
        count = min(127, stop - block)
        if how == 'read':
            request = Request(0, unit, part, block, count)
        else:
            count, request = write_request(system, unit, part, at, data, block, stop)
        end = asked(system, request) if request else 'error unforwarded done 0'
        count = count if end == 'ok' else int(end.split()[-1])
        if how == 'read' and end != 'ok' and count:
            request = Request(0, unit, part, block, count)
            asked(system, request)
        if how == 'read':
            got += b''.join(request.data[:count])
        block += count
        if end != 'ok':
            done = max(0, 512 * block - at)
            finish(system)
            sys.stdout.buffer.write(got[at % 512:] if how == 'read' else f'refused unusable {done}\n'.encode())
            sys.exit(10)
    finish(system)
    sys.stdout.buffer.write(got[at % 512:at % 512 + size] if how == 'read' else f'wrote {size}\n'.encode())


def write_request(system, unit, part, at, data, block, stop):
    """The next request of a write, and how many blocks it has; a block that is covered in part is read before."""
    first, last = at, at + len(data)
    if 512 * block < first or 512 * block + 512 > last:
        read = Request(0, unit, part, block, 1)
        end = asked(system, read)
        if end != 'ok':
            return 0, None
        old = read.data[0]
        low, high = max(first, 512 * block), min(last, 512 * block + 512)
        return 1, Request(0, unit, part, block, 1, old[:low % 512] + data[low - first:high - first] + old[high - 512 * block:])
    count = min(126 if wrong == 'writes_of_126' else 127, last // 512 - block)
    return count, Request(0, unit, part, block, count, data[512 * block - first:512 * (block + count) - first])


if __name__ == '__main__':
    words = sys.argv[1:]
    if words[:1] == ['--list']:
        print('\n'.join(f'{name}: {what}' for name, what in WRONG.items()))
        sys.exit()
    if words[:1] == ['--wrong']:
        wrong = words[1]
        assert wrong in WRONG, wrong
        words = words[2:]
    if words == ['play']:
        play()
    elif words[:1] == ['raw']:
        raw(words[1:])
    else:
        sys.exit(__doc__)
