# Joins instruction counts and times into Markdown tables, or checks the counts: table.py table|all|check JOBS COUNTER_PREFIX [TIMES]
import re
import sys

SIZES, LENGTHS, RECORDS = (1024, 16384), (2, 16, 256), (16, 256)
CALLS = {'wall_send': 1024, 'wall_reply': 0}  # of a wall, and the ring that each is measured with
ASKED = 16                                    # dwords of the requests that a wall sends
RECORDED = {'short_': 1 << 14, '': 1 << 18, 'long_': 1 << 20}  # dwords of records
KINDS = [what + '_' + mix for mix in ('mixed', 'small') for what in ('write', 'read')]
WORDS = {'send': 'send', 'receive': 'receive', 'turn': 'send, then receive', 'straight': '%s, straight',
         'around': '%s, around the end', 'one_left': '%s, one place left before the end',
         'judge': 'image: judge, find uCode (two calls)',
         'locate': 'image: find uCode (one call)', 'image': 'image: copy uCode out',
         'few': 'directory: find the last of 16 entries', 'many': 'directory: find the last of 4,096 entries',
         'alike': 'directory: the same, names alike in eleven bytes',
         'wall_send': 'wall of %d: send a request', 'wall_reply': 'wall of %d: a busy reply',
         'write_mixed': 'record: write a dword, as they come', 'read_mixed': 'record: read a dword, as they come',
         'write_small': 'record: write a dword, all of one byte', 'read_small': 'record: read a dword, all of one byte'}
# Columns of the table of one archive, and the row of the table of all: who, and beside which plain C.
COLUMNS = [('guc:two', 'two words'), ('guc:words', '260 words'), ('inl:wrap', '(a)'), ('lib:wrap', '(a) call'),
           ('inl:runs', '(b)'), ('lib:runs', '(b) call'), ('lib:plain', '(c)')]
ARCHIVES = [('libguc', 'libguc.a', 'lib'), ('fast', 'libguc-fast.a', 'lib'), ('v3', 'libguc-v3.a', 'lib'),
            ('kernel-moves', 'libguc-kernel.a', 'moves'), ('kernel-rep', 'libguc-kernel.a by rep', 'rep')]
PLAIN = {'lib': '(b) call', 'moves': '(b) call, no SSE', 'rep': '(b) call, no SSE, by rep'}
# At most so many instructions: of the two-word side and of the 260-word side as a multiple of (b) call's, of a dword stored and a dword
# copied in steps.
LIMITS = {'libguc': (2.3, 4.0, 84, 67), 'fast': (1.4, 3.0, 80, 57), 'v3': (1.4, 2.0, 80, 57), 'kernel-moves': (1.2, 2.8, 80, 57)}
# Of a wall's calls of any archive: a send or a reply as a multiple of plain C's at 16 and at 256 records, and a reply at 256 records
# as one of a reply at 16. At 16 most of it is the bytes that are zeroed for the table's copy, by 8 at a time in a kernel.
WALL_LIMITS = 3.5, 2, 20
# A dword of a record, written or read, of any archive, as a multiple of plain C's.
RECORD_LIMIT = 1.5
counts, times = {}, {}


def read(jobs_file, prefix, times_file=None):
    # Records come in pairs; the second of a pair holds what its row's block ran inside the measured functions.
    for i, line in enumerate(open(jobs_file)):
        what, n, l, name, k = line.split()
        record = open('%s.%d' % (prefix, 2 * i + 2)).read()
        counts[what, int(n), int(l), name] = int(re.search(r'^totals: (\d+)', record, re.M).group(1)) / int(k)
    for line in open(times_file) if times_file else ():
        what, n, l, name, ns = line.split()
        times[what, int(n), int(l), name] = float(ns)


def cell(key, base):
    if key not in times:
        return '-'
    t = times[key]
    shown = '%.1f' % t if t < 1000 else '%.0f' % t
    # the counter counts a repeated string instruction once for each repeat
    number = '' if 'rep' in key[3].split(':')[0] else ' %.0f' % counts[key]
    return '%s (%.2f)%s' % (shown, t / times[base], number)


def line(*cells):
    print('| %s |' % ' | '.join(str(c) for c in cells))


def row(what, n, l, label, names):
    base = (what, n, l, 'lib:runs' if n else 'lib:reader')
    line(label, n or '-', l or '-', *(cell((what, n, l, name), base) for name in names))


def wall_numbers(numbers, who, plain):
    # The most of plain C's that a send or a reply takes at 16 and at 256 records, and how a reply grows.
    most = [max(numbers[what, n, l, who + ':wall'] / numbers[what, n, l, plain + ':wall'] for what, n in CALLS.items())
            for l in RECORDS]
    return *most, growth(numbers, who)


def walls_part(numbers, who, side, l):
    # What a send through a wall of l records takes beside the same send alone, by the side that the wall sends by.
    return numbers['wall_send', 1024, l, who + ':wall'] - numbers['send', 1024, ASKED, who + side]


def growth(numbers, who):
    few, many = (numbers['wall_reply', 0, l, who + ':wall'] for l in RECORDS)
    return many / few


def wall_rows():
    for what, n in CALLS.items():
        for l in RECORDS:
            base = what, n, l, 'lib:wall'
            cells = [cell((what, n, l, name), base) for name in ('guc:wall', 'inl:wall', 'lib:wall')]
            line(WORDS[what] % l, n or '-', ASKED if n else 2, '-', cells[0], '-', '-', *cells[1:], '-')


def record_key(size, what, who):
    return size + what, 0, RECORDED[size], who + ':record'


def record_rows():
    for size, dwords in RECORDED.items():
        for what in KINDS:
            base = record_key(size, what, 'lib')
            cells = [cell(record_key(size, what, who), base) for who in ('guc', 'inl', 'lib')]
            line(WORDS[what], '-', dwords, '-', cells[0], '-', '-', *cells[1:], '-')


def table():
    names = [name for name, _ in COLUMNS]
    print('Each cell: ns (ratio to "(b) call") instructions, for one message, image or search. two words, 260 words: the archive, by its side.')
    print('(a) C, a wrap test per dword; (b) C, at most two memcpy runs; (c) memcpy alone; call: no memcpy opened in place.')
    print('Rows that say where a message lies (straight, around the end) have every message there; in the rows above them the ring')
    print('goes round, and one message in a round passes its end.')
    print('In the image, directory, wall and record rows the plain C that does the same stands in the (b) columns. A wall of so many records has')
    print('all of them open, or all but the one that is taken. A record of so many dwords is read with as many dwords of room as it has bytes;')
    print('its cells are for one dword.\n')
    line('what', 'N', 'dwords', *(title for _, title in COLUMNS))
    print('|---' * (3 + len(COLUMNS)) + '|')
    for what in ('send', 'receive', 'turn'):
        for n in SIZES:
            for l in LENGTHS:
                row(what, n, l, WORDS[what], names)
    steps = [('steps', 'in steps', (16,)), ('all', 'by look, all at once, publish', LENGTHS)]
    for how, words, lengths in steps:
        for what in ('send', 'receive', 'turn'):
            for n in SIZES:
                for l in lengths:
                    if (what, n, l, 'guc:' + how) in times:
                        row(what, n, l, '%s %s' % (WORDS[what], words), ['-', 'guc:' + how] + names[2:])
    for what in ('send', 'receive'):
        for place in ('straight', 'around', 'one_left'):
            for n in SIZES:
                row(what + '_' + place, n, 256, WORDS[place] % what, names)
    for what in ('judge', 'locate', 'image', 'few', 'many', 'alike'):
        row(what, 0, 0, WORDS[what], ['-', 'guc:reader', '-', '-', 'inl:reader', 'lib:reader', '-'])
    wall_rows()
    record_rows()
    print()
    for what, words in (('store', 'stored'), ('copy', 'copied')):
        key = what, 1024, 16, 'guc:steps'
        print('One dword %s in steps: %.1f ns, %.1f instructions.' % (words, times[key], counts[key]))
    for l in RECORDS:
        parts = [(walls_part(of, 'guc', ':words', l), walls_part(of, 'lib', ':runs', l)) for of in (times, counts)]
        print('A send of %d dwords through a wall of %d records: beside guc_send alone %.0f ns, %.0f instructions; plain C\'s wall %.0f ns, %.0f.'
              % (ASKED, l, parts[0][0], parts[1][0], parts[0][1], parts[1][1]))
    print('A reply at 256 records takes %.1f times the time of one at 16, plain C\'s %.1f times.' % (growth(times, 'guc'), growth(times, 'lib')))


def whole_calls(n):
    def numbers(name, base):
        return [cell((what, n, l, name), (what, n, l, base)) for what in ('send', 'receive') for l in LENGTHS]
    last = None
    for who, archive, plain in ARCHIVES:
        if ('send', n, 2, who + ':two') not in times:
            continue
        base = plain + ':runs'
        if plain != last:
            line(PLAIN[plain], '-', n, *numbers(base, base))
        last = plain
        for how, side in (('two', 'two words'), ('words', '260 words'), ('all', '260 words, look, all, publish')):
            if ('send', n, 2, '%s:%s' % (who, how)) in times:
                line(archive, side, n, *numbers('%s:%s' % (who, how), base))


def all_archives():
    print('Each cell: ns (ratio to the (b) call above it) instructions, for one message; all archives in one run.')
    print('(b) call: plain C with at most two memcpy runs, each a call. libguc-kernel.a and its (b) call have no SSE and one memcpy of 8-byte')
    print('moves; by rep: one memcpy that is `rep movsb`.\n')
    line('archive', 'side', 'N', *('%s %d' % (what, l) for what in ('send', 'receive') for l in LENGTHS))
    print('|---' * 9 + '|')
    for n in SIZES:
        whole_calls(n)
    print('\nOne dword in steps, and the last of 16 entries of a directory (ratio to plain C in the same run):\n')
    line('archive', 'stored', 'copied', 'directory')
    print('|---' * 4 + '|')
    for who, archive, plain in ARCHIVES:
        if ('store', 1024, 16, who + ':steps') in times:
            steps = ['%.1f %.1f' % (times[key], counts[key]) for key in ((what, 1024, 16, who + ':steps') for what in ('store', 'copy'))]
            line(archive, *steps, cell(('few', 0, 0, who + ':reader'), ('few', 0, 0, plain + ':reader')))
    print('\nA wall of 16 and of 256 records (ratio to plain C in the same run), what a send of %d dwords takes beside guc_send alone (ns,' % ASKED)
    print('instructions), and a reply at 256 against one at 16:\n')
    line('archive', *('%s %d' % (what, l) for what in ('send', 'reply') for l in RECORDS), *("wall's part %d" % l for l in RECORDS),
         'reply 256 / 16')
    print('|---' * 8 + '|')
    for who, archive, plain in ARCHIVES:
        if ('wall_reply', 0, 16, who + ':wall') in times:
            cells = [cell((what, n, l, who + ':wall'), (what, n, l, plain + ':wall')) for what, n in CALLS.items() for l in RECORDS]
            parts = ['%.0f %.0f' % (walls_part(times, who, ':words', l), walls_part(counts, who, ':words', l)) for l in RECORDS]
            line(archive, *cells, *parts, '%.1f' % growth(times, who))
    print('\nA dword of a record of %d dwords (ratio to plain C in the same run), as they come on a channel and all of one byte:\n' % RECORDED[''])
    line('archive', *(what.replace('_', ', ') for what in KINDS))
    print('|---' * 5 + '|')
    for who, archive, plain in ARCHIVES:
        if record_key('', KINDS[0], who) in times:
            line(archive, *(cell(record_key('', what, who), record_key('', what, plain)) for what in KINDS))


def check():
    said, above = [], []
    for who, archive, plain in ARCHIVES:
        if ('store', 1024, 16, who + ':steps') not in counts:
            continue
        sides = [[counts[what, n, l, who + side] / counts[what, n, l, plain + ':runs']
                  for what in ('send', 'receive') for n in SIZES for l in LENGTHS] for side in (':two', ':words')]
        found = *map(max, sides), *(counts[what, 1024, 16, who + ':steps'] for what in ('store', 'copy'))
        said.append('%s %.2f to %.2f, %.2f to %.2f, %.0f and %.0f' % (archive, min(sides[0]), found[0], min(sides[1]), *found[1:]))
        if any(number > limit for number, limit in zip(found, LIMITS[who])):
            above.append('%s: at most %.2f, %.2f, %d and %d' % (archive, *LIMITS[who]))
    print('bench: instructions of two words and of 260 against (b) call, and a dword stored and copied: %s' % '; '.join(said))
    above += check_walls() + check_records()
    if above:
        sys.exit('bench: too many. ' + '; '.join(above))


def check_walls():
    said, above = [], []
    for who, archive, plain in ARCHIVES:
        if ('wall_reply', 0, 16, who + ':wall') in counts:
            found = wall_numbers(counts, who, plain)
            parts = [walls_part(counts, who, ':words', l) for l in RECORDS]
            said.append('%s %.2f, %.2f and %.1f (a send\'s part %.0f and %.0f)' % (archive, *found, *parts))
            if any(number > limit for number, limit in zip(found, WALL_LIMITS)):
                above.append('%s: of a wall at most %.1f, %d and %d' % (archive, *WALL_LIMITS))
    print('bench: instructions of a wall\'s calls against plain C at 16 and at 256 records, and of a reply at 256 against 16: %s' % '; '.join(said))
    return above


def check_records():
    said, above = [], []
    for who, archive, plain in ARCHIVES:
        if record_key('short_', KINDS[0], who) in counts:
            ours, theirs = ([counts[record_key('short_', what, by)] for what in KINDS] for by in (who, plain))
            ratios = [our / their for our, their in zip(ours, theirs)]
            said.append('%s %.2f, %.2f, %.2f and %.2f (%.1f, %.1f, %.1f and %.1f)' % (archive, *ratios, *ours))
            if max(ratios) > RECORD_LIMIT:
                above.append('%s: of a record at most %.1f' % (archive, RECORD_LIMIT))
    print('bench: instructions of a record against plain C, a dword written and read, as they come and all of one byte: %s' % '; '.join(said))
    return above


mode = sys.argv[1]
read(*sys.argv[2:])
{'table': table, 'all': all_archives, 'check': check}[mode]()
