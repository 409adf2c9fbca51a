"""How calls of a record go over what they are lent, from the trace that check.py reads.

A run that is written, and a file that is read where the output might be too
short, is gone through twice: a first time to judge and to measure it, a second
time to write or lay it. Held here of the words that come out again: nothing is
stored before each of them was loaded once, for nothing may be written on a
refusal; and in the second pass, from the last load of the first word on, each is
loaded exactly once. So what was judged last is what is stored. A file that is gone
through once is held to the same, but that its first messages are stored before
the last are loaded.

What this cannot see: whether what is stored is what was loaded. That is for the
hostile writers and for the comparison with the model.
"""
import textwrap

# Words that come out again, by function; and the answers beside which they do.
WORDS = {'guc_record_write': ('run.judged', 'run.rest'), 'guc_record_read': ('once.laid', 'twice.laid')}
ANSWERS = {'guc_record_write': ('0',), 'guc_record_read': ('0', '29')}
ONCE = 'once.laid'


def spans(call, words):
    return [range(at, at + size) for word, at, size in call.lent if word in words]


def touches(event, where):
    return any(event.at < span.stop and span.start < event.at + event.bytes for span in where)


def dwords(call):
    """4 where the words are dwords, else 1."""
    return 4 if call.function == 'guc_record_write' else 1


def count(events, where, unit):
    """How often each unit of these words was loaded, at its most."""
    loads = {}
    for e in events:
        for byte in range(e.at, e.at + e.bytes):
            loads[byte] = loads.get(byte, 0) + 1
    return [max(loads.get(byte, 0) for byte in range(at, at + unit)) for span in where for at in span[::unit]]


def wrong_in(call):
    """What is wrong with the passes of a call, in words."""
    taken, laid = spans(call, WORDS[call.function]), spans(call, ('out.laid',))
    loads = [(when, e) for when, e in enumerate(call.events) if e.load and touches(e, taken)]
    stores = [when for when, e in enumerate(call.events) if e.store and touches(e, laid)]
    first = range(taken[0].start, taken[0].start + 1)
    starts = [when for when, e in loads if touches(e, [first])]
    if not starts or not stores:
        return ['nothing loaded or nothing stored']
    wrong = []
    last = count([e for when, e in loads if when >= starts[-1]], taken, dwords(call))
    before = count([e for when, e in loads if when < stores[0]], taken, dwords(call))
    if any(times != 1 for times in last):
        wrong.append('not each word is loaded once in the last pass')
    if stores[0] < starts[-1]:
        wrong.append('something is stored before the last pass')
    if min(before) < 1 and not spans(call, (ONCE,)):
        wrong.append('something is stored before all was judged')
    return wrong


def judge_passes(calls):
    """Prints what is wrong and a summary; whether anything is."""
    judged = [c for c in calls if c.answer in ANSWERS.get(c.function, ()) and spans(c, WORDS[c.function])]
    lines = {}
    for call in judged:
        for what in wrong_in(call):
            lines.setdefault((call.function, what), []).append(call)
    for (function, what), bad in lines.items():
        print(textwrap.fill('%s: %s (%d times)' % (function, what, len(bad)), 80, subsequent_indent='    '))
    once = sum(bool(spans(c, (ONCE,))) for c in judged)
    writes = sum(c.function == 'guc_record_write' for c in judged)
    print('passes: %d writes and %d reads gone through twice, %d reads once, %s'
          % (writes, len(judged) - writes - once, once,
             '%d not as they must be' % sum(map(len, lines.values())) if lines else 'each word once in the last pass'))
    return bool(lines) or not once or not writes or len(judged) == writes + once
