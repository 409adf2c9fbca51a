"""Holds a trace of the driver's calls against the table: check.py TABLE SAID TRACE

SAID is what the driver said of its calls, TRACE what valgrind's lackey saw of
every instruction, load and store. Prints a line for each word that was loaded
or stored to otherwise than the table says, and a summary; then how calls copied
(copies.py) and went over what they are lent twice (passes.py); exit status 1 if
anything was wrong.

What this cannot see: lackey shows the archive's own instructions, one after
another, for these inputs only; a processor may still reorder them, and another
input may take another path. It counts bytes: a wide load counts for each byte
that it covers, and a dword that is loaded byte by byte counts once, although
its bytes were read at four moments. A load whose value nobody uses counts too.
"""
import sys
import textwrap
from collections import namedtuple
from fnmatch import fnmatchcase
from functools import lru_cache

from copies import judge_copies
from passes import judge_passes

Rule = namedtuple('Rule', 'calls answers words least most')
Store = namedtuple('Store', 'calls answers words allowed')
Order = namedtuple('Order', 'calls answers left right')
Event = namedtuple('Event', 'load store at bytes instruction')


class Call:
    def __init__(self, function, answer):
        self.function, self.answer = function, answer
        self.lent = []      # (word, address, bytes)
        self.events = []    # in their order


def fits(name, patterns):
    return any(fnmatchcase(name, p) for p in patterns)


def numbers(loads):
    """The least and the most loads that a line allows."""
    if loads == 'any':
        return 0, float('inf')
    least, _, most = loads.partition('-')
    return int(least), int(most or least)


def read_table(path):
    rules, stores, orders = [], [], []
    for line in open(path):
        columns = [tuple(c.split()) for c in line.split('#')[0].split('|')]
        if len(columns) == 4 and columns[3][0] in ('stored', 'unstored'):
            stores.append(Store(*columns[:3], columns[3] == ('stored',)))
        elif len(columns) == 4:
            rules.append(Rule(*columns[:3], *numbers(columns[3][0])))
        elif len(columns) == 5 and columns[3] == ('after',):
            orders.append(Order(*columns[:2], columns[2], columns[4]))
        elif columns != [()]:
            sys.exit('table: not understood: ' + line)
    return tuple(rules), tuple(stores), orders


def read_said(path):
    calls, mark = [], None
    for line in open(path):
        kind, *rest = line.split(maxsplit=3)
        if kind == 'mark':
            mark = int(rest[0], 16)
        elif kind == 'call':
            calls.append(Call(rest[0], rest[1]))
        else:
            calls[-1].lent.append((rest[0], int(rest[1], 16), int(rest[2])))
    return calls, mark


def read_trace(path, calls, mark):
    """A store to the mark begins a call, the next one ends it. An instruction comes before its loads and stores."""
    stores = instructions = 0
    for line in open(path):
        instructions += line[:1] == 'I'
        if line[:1] != ' ' or line[1] not in 'LSM':
            continue
        at, size = line[3:].split(',')
        event = Event(line[1] != 'S', line[1] != 'L', int(at, 16), int(size), instructions)
        if event.store and event.at == mark:
            stores += 1
        elif stores % 2:
            calls[stores // 2].events.append(event)
    if stores != 2 * len(calls):
        sys.exit('the trace has %d marks for %d calls' % (stores, len(calls)))


def loads_of(call):
    count = {}
    for e in call.events:
        for at in range(e.at, e.at + e.bytes) if e.load else ():
            count[at] = count.get(at, 0) + 1
    return count


@lru_cache(maxsize=None)
def last_fit(function, answer, word, rules):
    for r in reversed(rules):
        if fits(function, r.calls) and fits(answer, r.answers) and fits(word, r.words):
            return r
    sys.exit('the table says nothing of %s in %s' % (word, function))


def rule_for(call, word, rules):
    """The last rule that fits."""
    return last_fit(call.function, call.answer, word, rules)


def units(at, size):
    """Dwords where it is dwords, else bytes: what must be loaded need not be loaded in all its bytes."""
    step = 4 if at % 4 == 0 and size % 4 == 0 else 1
    return [range(byte, byte + step) for byte in range(at, at + size, step)]


def loaded_wrongly(call, rules):
    """(function, what is wrong, word, answer) for each word that breaks its rule."""
    count = loads_of(call)
    for word, at, size in call.lent:
        rule = rule_for(call, word, rules)
        if rule.least == 0 and size > len(count):   # the ring, say: look at what was loaded
            loads = [n for byte, n in count.items() if at <= byte < at + size]
        else:
            loads = [max(count.get(byte, 0) for byte in unit) for unit in units(at, size)]
        bad = [n for n in loads if not rule.least <= n <= rule.most]
        if bad:
            may = 'must be %d' % rule.most if rule.least == rule.most else '%d to %d' % (rule.least, rule.most)
            yield call.function, 'loads %d, %s' % (max(bad), may), word, call.answer


def stored_wrongly(call, stores):
    """The same for each word that was stored to and may not be."""
    first = min((at for _, at, _ in call.lent), default=0)
    behind = max((at + size for _, at, size in call.lent), default=0)
    written = [range(e.at, e.at + e.bytes) for e in call.events if e.store and e.at < behind and first < e.at + e.bytes]
    for word, at, size in call.lent:
        touched = any(w.start < at + size and at < w.stop for w in written)
        if touched and not rule_for(call, word, stores).allowed:
            yield call.function, 'stored to', word, call.answer


def moments(call, side):
    """When the words of one side of an order were loaded or stored."""
    kind, *words = side
    ranges = [(at, at + size) for word, at, size in call.lent if fits(word, words)]
    for when, e in enumerate(call.events):
        if (e.load if kind == 'load' else e.store):
            if any(e.at < stop and start < e.at + e.bytes for start, stop in ranges):
                yield when


def out_of_order(call, orders):
    """The same for each order that is broken."""
    for o in orders:
        if fits(call.function, o.calls) and fits(call.answer, o.answers):
            left, right = list(moments(call, o.left)), list(moments(call, o.right))
            if not left or not right or left[0] < right[-1]:
                said = 'must come after the last ' + ' '.join(o.right) if left and right else 'never seen'
                yield call.function, said, ' '.join(o.left), call.answer


def tell(wrong):
    """A line for each function and mistake: its words, and the answers where it was made."""
    lines = {}
    for function, what, word, answer in wrong:
        lines.setdefault((function, what, word), {})[answer] = True
    together = {}
    for (function, what, word), answers in lines.items():
        together.setdefault((function, what, tuple(answers)), []).append(word)
    for (function, what, answers), words in together.items():
        line = '%s: %s: %s (answering %s)' % (function, ' '.join(words), what, ' '.join(answers))
        print(textwrap.fill(line, 80, subsequent_indent='    '))
    return len(lines)


def main():
    table, said, trace = sys.argv[1:]
    rules, stores, orders = read_table(table)
    calls, mark = read_said(said)
    read_trace(trace, calls, mark)
    wrong = [line for call in calls for line in (*loaded_wrongly(call, rules), *stored_wrongly(call, stores),
                                                 *out_of_order(call, orders))]
    broken = tell(wrong)
    words = sum(len(call.lent) for call in calls)
    print('loads: %d calls of %d functions, %d lent words, %d not as the table says'
          % (len(calls), len({c.function for c in calls}), words, broken))
    wrong_copies = judge_copies(calls)
    wrong_passes = judge_passes(calls)
    return 1 if wrong or wrong_copies or wrong_passes else 0


sys.exit(main())
