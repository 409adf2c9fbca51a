"""How calls that move many dwords copy, from the trace that check.py reads.

A whole send stores its message in at most two straight runs: from the own tail
to the ring's end at most, then from the ring's dword 0. A whole receive loads the
two dwords that it judges one by one, and then the rest in such runs. A call that
makes all moves that are left stores or loads those in such runs. Held here: nothing
outside these runs is touched and nothing of them left out; the second run
starts when the first is done; and a long run is a block copy, by the number of
its instructions. Inside a run any order will do, and a byte may be moved twice,
as a memcpy may.

What this cannot see: a run that is made in pieces, one behind another, or that
tests for the ring's end at every 32 bytes or more, shows only by its
instructions, if they are many. Nor does the trace have values: that the right
dwords are moved is for the comparison with the model.
"""
import textwrap

LONG = 64   # dwords of a run whose instructions are counted
# A block copy of 16 bytes at a time takes about one instruction a dword, with a
# test for the ring's end at each block 1.75 (counted by hand); one dword at a
# time takes five, and more with a test or a remainder.
MOST = 1.5
JUDGED = ('ring.header', 'ring.second')
MESSAGE = JUDGED + ('ring.rest',)
LEFT = ('ring.left',)
SENDS = ('guc_send', 'guc_whole_send', 'guc_wall_send', 'guc_send_store_all')
RECEIVES = ('guc_receive', 'guc_whole_receive', 'guc_receive_copy_all')


def moved(call):
    """The words that a call moves."""
    return LEFT if call.function.endswith('_all') else MESSAGE


def runs(call, words):
    """These words as straight runs of bytes, in the order in which they were lent."""
    found = []
    for word, at, size in call.lent:
        if word in words:
            if found and found[-1].stop == at:
                found[-1] = range(found[-1].start, at + size)
            else:
                found.append(range(at, at + size))
    return found


def touches(event, run):
    return event.at < run.stop and run.start < event.at + event.bytes


def within(event, run):
    return run.start <= event.at and event.at + event.bytes <= run.stop


def whole(events, run):
    """Whether these events cover every byte of the run."""
    seen = {byte for e in events for byte in range(e.at, e.at + e.bytes)}
    return all(byte in seen for byte in run)


def a_dword(events, run):
    """Instructions a dword from a run's first event to its last."""
    return (events[-1].instruction - events[0].instruction) / (len(run) // 4)


class Copy:
    """One call: its events in the ring, what is wrong, and its long runs' instructions a dword."""

    def __init__(self, call):
        self.call, self.wrong, self.costs = call, [], []
        ring = [range(at, at + size) for word, at, size in call.lent if word.startswith('ring.')]
        self.events = [e for e in call.events if any(touches(e, part) for part in ring)]
        if call.function in SENDS:
            self.judge([e for e in self.events if e.store], runs(call, moved(call)), 'stored')
        elif any(e.store for e in self.events):
            self.wrong.append('stores to the ring')
        elif moved(call) == LEFT:
            self.judge(self.events, runs(call, LEFT), 'loaded')
        else:
            self.judge(self.behind_judged(), runs(call, ('ring.rest',)), 'loaded')

    def behind_judged(self):
        """A receive's loads behind those of the judged dwords, which come alone."""
        dwords = [range(at, at + size) for word, at, size in self.call.lent if word in JUDGED]
        judging = [k for k, e in enumerate(self.events) if any(touches(e, d) for d in dwords)]
        if not all(any(within(self.events[k], d) for d in dwords) for k in judging):
            self.wrong.append('a judged dword is loaded together with others')
        if judging != list(range(len(judging))):
            self.wrong.append('a judged dword is loaded after others')
        return [e for k, e in enumerate(self.events) if k not in judging]

    def judge(self, events, wanted, done):
        """These events must be the runs that are wanted, one wholly before the next."""
        places = [[k for k, run in enumerate(wanted) if within(e, run)] for e in events]
        if [] in places:
            self.wrong.append('%s outside the message\'s places or across two runs' % done)
            return
        order = [k for [k] in places]
        if order != sorted(order):
            self.wrong.append('the two runs are mixed')
        for k, run in enumerate(wanted):
            mine = [e for e, of in zip(events, order) if of == k]
            if not whole(mine, run):
                self.wrong.append('not every dword is %s' % done)
            elif len(run) // 4 >= LONG:
                self.costs.append(a_dword(mine, run))
        if any(cost > MOST for cost in self.costs):
            self.wrong.append('more than %.1f instructions a dword in a long run' % MOST)


def where(call):
    """The length and place in words of what is moved."""
    message = runs(call, moved(call))
    length = sum(map(len, message)) // 4
    n = length + sum(size for word, _, size in call.lent if word == 'ring.else') // 4
    place = 'straight' if len(message) == 1 else '%d before the end' % (len(message[0]) // 4)
    return '%d dwords, %s, N = %d' % (length, place, n)


def tell(copies):
    """A line for each function and mistake, with the first call that made it."""
    lines = {}
    for copy in copies:
        for what in copy.wrong:
            lines.setdefault((copy.call.function, what), []).append(copy.call)
    for (function, what), calls in lines.items():
        line = '%s: %s (%d times, first with %s)' % (function, what, len(calls), where(calls[0]))
        print(textwrap.fill(line, 80, subsequent_indent='    '))


def judge_copies(calls):
    """Prints what is wrong and a summary; whether anything is."""
    accepted = [Copy(c) for c in calls if c.function in SENDS + RECEIVES and c.answer == '0']
    sides = [[copy for copy in accepted if copy.call.function in side] for side in (SENDS, RECEIVES)]
    costs = [[cost for copy in side for cost in copy.costs] for side in sides]
    wrong = sum(bool(copy.wrong) for copy in accepted)
    tell(accepted)
    print('copies: %d sends, %d receives, %s; at most %.2f and %.2f instructions a dword in a run of %d or more'
          % (*map(len, sides), '%d not as they must be' % wrong if wrong else 'at most two runs each',
             *(max(side, default=0) for side in costs), LONG))
    called = {copy.call.function for copy in accepted}
    return wrong or not all(costs) or len(called) < len(SENDS + RECEIVES)
