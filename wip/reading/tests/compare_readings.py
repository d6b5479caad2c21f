#!/usr/bin/env python3
"""Random and extreme journals through `depot --raw` and through the model, which must agree on every line and on the status.

    python3 tests/compare_readings.py [JOURNALS [SEED]]      default 300 journals, seed 1; needs crates/depot/out/depot

The first difference ends it: the journal stays in a temporary file, and both lines are printed.
"""
import collections
import os
import random
import subprocess
import sys
import tempfile

import reading_model
from dip_model import Survey

DEPOT = os.path.join(os.path.dirname(os.path.abspath(__file__)), '..', 'crates', 'depot', 'out', 'depot')
HIGHEST = 400_000
WORD = 2 ** 32 - 1
REFUSALS = [*range(10, 14), *range(20, 26), 30, 31, *range(40, 44), *range(50, 57)]
DENSITIES = {'crude': (1221, 2150), 'products': (1306, 2150), 'lubricants': (1600, 2328), 'fixed': (1000, 2400)}
KNOWN = b'''survey 20260101 strapped
row 0 0
row 100000 1000000
tank 7
gauge single 1
gate 2000 1
rule crude
commission
sample 1 level 55555
fit 10000
fit 30000
fit 50000
element 1 2500
element 2 2500
element 3 2500
density 1700
shell 112
read 1
read 2
fit 70000
element 1 2400
element 3 2600
element 4 2700
read 1
sample 1 level 58555
read 1
sample 1 level 58555
read 1
sample 1 level 58655
'''
KNOWN_PARTS = {                              # line: what its answer must hold
    8: 'commissioned tank=7 date=20260101 reach=100001',
    18: 'correction=991480837 gross=5556745 standard=5509406 mass=468300 elements=7 count=3',
    19: 'mass=467693', 24: 'temperature=249199892', 26: 'level=55555', 28: 'refused 1 12 58555', 29: 'done',
}


def near(rng, *values):
    return min(max(0, rng.choice(values) + rng.randint(-2, 2)), WORD)


def survey(rng, date, kind):
    """Lines of a survey and the survey itself; the kind is good, wild (extreme), empty (no reach) or bad (refused)."""
    if rng.random() < 0.3:
        height = rng.randint(20_000, HIGHEST) if kind == 'good' else rng.choice([0, 1, 9, 120_000, HIGHEST])
        per_metre = rng.choice([0, 1, 31_416, rng.randint(0, 5_000_000), 5_000_000])
        if kind == 'bad':
            slips = [(HIGHEST + 1, 5_000_001), (HIGHEST + 1, 5), (HIGHEST, 5_000_001), (WORD, 0), (0, WORD)]
            height, per_metre = rng.choice(slips)
        made, head = Survey('upright', [height, per_metre]), f'upright {height} {per_metre}'
    else:
        made, head = Survey('strapped', []), 'strapped'
        made.rows = rows(rng, kind)
    made.date = date
    top = made.values[0] if made.values else made.rows[-1][0] if made.rows else 0
    lines = [f'survey {date} {head}'] + [f'row {h} {v}' for h, v in made.rows]
    if kind == 'empty' or rng.random() < 0.3:
        made.datum = rng.randint(0, 5_000) if kind == 'good' else near(rng, 0, 10, top, top // 2, HIGHEST + 1, WORD)
        if kind == 'empty':
            made.datum = rng.choice([top + 1, top + 2, HIGHEST + 1, WORD])
        lines.append(f'datum {made.datum}')
    if rng.random() < 0.3:
        made.limit = near(rng, top, top // 2, HIGHEST) if kind == 'good' else near(rng, 0, 1, top, top // 2, HIGHEST, WORD)
        lines.append(f'limit {made.limit}')
    return lines, made


def rows(rng, kind):
    top = rng.choice([50_000, 100_000, rng.randint(20_000, HIGHEST), HIGHEST] + [1, 3, 60] * (kind == 'wild'))
    most = rng.choice([999, 10**6, rng.randint(10**5, 10**8), 200_000_000] + [0, 1] * (kind == 'wild'))
    picks = {0, top} | {rng.randint(1, top) for _ in range(rng.choice([0, 1, 3, 9, 30] + [254] * (kind == 'wild')))}
    volumes = sorted([0, most] + [rng.randint(0, most) for _ in range(len(picks) - 2)])
    made = [list(row) for row in zip(sorted(picks), volumes)]
    if kind != 'bad':
        return made
    slip = rng.choice(['few', 'many', 'first', 'height', 'litres'])
    at = rng.randrange(len(made))
    if slip == 'few':
        return made[:rng.randint(0, 1)]
    if slip == 'many':
        return [[h, h] for h in range(257)]
    if slip == 'first':
        made[0][0] = rng.choice([1, 2, WORD])
    if slip == 'height':
        made[at][0] = HIGHEST + 1 if at in (0, len(made) - 1) else made[at - 1][0] - rng.choice([0, made[at - 1][0]])
    if slip != 'first' and (slip == 'litres' or rng.random() < 0.3):
        made[at][1] = rng.choice([200_000_001, WORD] if at == 0 or made[at - 1][1] == 0 else [made[at - 1][1] - 1, 200_000_001])
    return made


class Writer:
    """Writes one journal, keeping in mind roughly what it has said."""

    def __init__(self, rng):
        self.rng, self.lines = rng, []
        self.level = self.water = self.calls = 0
        self.heights, self.waiting = [], None

    def say(self, *lines):
        """Adds lines, some with a comment, a tab or an empty line about them."""
        for line in lines:
            if self.rng.random() < 0.03:
                self.lines.append(self.rng.choice(['', '# read 1', '   ', '\t# a note']))
            if self.rng.random() < 0.05:
                line = self.rng.choice([line.replace(' ', '\t'), line + '# so', ' ' + line + '  ', line + ' # read 2'])
            self.lines.append(line)
        self.calls += sum(not line.startswith('row') for line in lines)

    def set_up(self, refusal, patience=False):
        """Surveys with some dips, the set-up lines among them, and the commission."""
        rng = self.rng
        self.family = 'fixed' if refusal == 'rule' else rng.choice([*DENSITIES])
        slip = refusal == 'rule' or (refusal == 'table' and rng.random() < 0.3 and self.family == 'fixed')
        c = rng.choice([20_001, 20_001, WORD]) if slip else rng.choice([0, 1, 950, 19_999, 20_000, rng.randint(0, 20_000)])
        gauge = rng.choice(['gauge single %d', 'gauge pair %d %d'])
        gauge %= tuple(rng.choice([1, 2, 1, 2, 0, 3, WORD]) for _ in range(gauge.count('%')))
        self.gated = patience or rng.random() < 0.5
        self.allowance = rng.choice([0, 1, 20, 2_000, rng.randint(0, 9_990), 9_990, 9_991, WORD])
        self.retries = rng.choice([999, 1_000, WORD] if patience else [0, 1, 2, 3, 5, 999, WORD])
        parts = [f'tank {near(rng, 7, 0, WORD)}', gauge, 'rule ' + self.family + f' {c}' * (self.family == 'fixed')]
        rng.shuffle(parts)
        if self.gated:
            parts.insert(rng.randint(parts.index(gauge) + 1, 3), f'gate {self.allowance} {self.retries}')
        self.allowance, self.retries = min(self.allowance, 9_990), min(self.retries, 999)
        kinds = [rng.choice(['good', 'wild', 'empty', 'bad']) for _ in range(rng.choice([0, 0, 1, 2]))]
        kinds.append('bad' if refusal == 'table' else rng.choice(['good'] * 16 + ['wild', 'wild', 'wild', 'empty']))
        for kind in kinds:
            if parts and rng.random() < 0.5:
                self.say(parts.pop(0))
            lines, made = survey(rng, rng.choice([0, 1, 20260101, 20260101, rng.randint(0, WORD), WORD - 1]), kind)
            self.say(*lines)
            if parts and rng.random() < 0.3:
                self.say(parts.pop(0))
            reach = 0 if made.refusal() else made.reach()
            for _ in range(rng.choice([0, 1, 4])):
                self.say(f'dip {rng.choice([near(rng, 0, reach, reach // 2, HIGHEST, WORD), rng.randint(0, reach)])}')
        self.say(*parts, 'commission')
        self.table, self.reach = made, reach

    def read(self):
        if self.rng.random() < 0.6:
            self.remedy()
        self.say(f'read {self.rng.choice([1, 2] * 12 + [0, 3, WORD])}')

    def sample(self, instrument=None, level=None):
        rng = self.rng
        if instrument is None:
            instrument = rng.choice([1, 2] * 12 + [0, 3, WORD])
        if level is None and rng.random() < 0.15:
            self.say(f'sample {instrument} fault {rng.choice([1, 2, 254, 255, rng.randint(1, 255), 0, 256, WORD])}')
            if rng.random() < 0.4:
                self.say('read 1')
            return
        if level is None:
            level = rng.choice([
                rng.randint(0, max(self.reach - 1, 0)), near(rng, self.reach, self.water, *self.heights),
                near(rng, self.level + self.allowance, self.level - self.allowance), near(rng, self.level),
                near(rng, self.level), near(rng, 0, HIGHEST, HIGHEST, WORD), self.level])
        self.say(f'sample {instrument} level {level}')
        if instrument in (1, 2) and level <= HIGHEST:
            self.level = level

    def fit(self):
        last = self.heights[-1] if self.heights else -1
        step = max(self.reach // self.rng.choice([6, 20, 20]), 1)
        height = last + self.rng.choice([1, step, self.rng.randint(1, step), self.rng.randint(1, step)])
        if self.rng.random() < 0.15:
            height = near(self.rng, max(last, 0), max(last, 0), 0, self.reach, HIGHEST, HIGHEST, WORD)
        self.say(f'fit {height}')
        if last < height <= HIGHEST and len(self.heights) < 16:
            self.heights.append(height)

    def warmth(self):
        rng = self.rng
        return rng.choice([rng.randint(-4_000, 15_000), rng.randint(0, 4_000), 1_500, 1_500 + 25 * rng.randint(-9, 99),
                           1_500 + rng.randint(-3, 3), 0, -4_000, 15_000])

    def element(self, n=None, t=None):
        rng = self.rng
        n = n or rng.choice([rng.randint(1, max(len(self.heights), 1))] * 9 + [0, len(self.heights) + 1, WORD])
        if t is None:
            t = rng.choice([self.warmth()] * 5 + [-4_001, 15_001, -2 ** 31, 2 ** 31 - 1])
        self.say(f'element {n} {t}')

    def all_elements(self):
        same = self.warmth() if self.rng.random() < 0.3 else None
        for n in range(1, len(self.heights) + 1):
            self.element(n, self.warmth() if same is None else same)

    def density(self):
        first, last = DENSITIES[self.family]
        edges = [first - 1, first, last, last + 1, near(self.rng, 0, 1_000, 2_400, WORD)]
        self.say(f'density {self.rng.choice(edges)}')
        if self.rng.random() < 0.3:
            self.read()

    def good_density(self):
        first, last = DENSITIES[self.family]
        edges = [1540, 1541, 1575, 1576, 1677, 1678] if self.family == 'products' else [first, last]
        self.say(f'density {self.rng.choice([self.rng.randint(first, last), self.rng.choice(edges)])}')
        if self.rng.random() < 0.3:
            self.read()

    def shell(self):
        self.say(f'shell {self.rng.choice([0, 112, self.rng.randint(0, 300), 299, 300, 301, WORD])}')

    def set_water(self, height=None):
        if height is None:
            height = self.rng.choice([0, self.rng.randint(0, self.level), near(self.rng, self.level, *self.heights),
                                      near(self.rng, HIGHEST, HIGHEST, WORD)])
        self.say(f'water {height}')
        if height <= HIGHEST:
            self.water = height

    def survey(self):
        """A survey, later than the one in force or not."""
        now = self.table.date
        date = min(self.rng.choice([now + 1, now + 1, now + 2, now + self.rng.randint(1, 9_999), now, max(now - 1, 0), 0]), WORD)
        lines, self.waiting = survey(self.rng, date, self.rng.choice(['good'] * 5 + ['wild', 'empty', 'bad', 'bad', 'bad']))
        self.say(*lines)

    def adopt(self):
        if self.waiting is None:
            self.survey()
        self.say('adopt')
        made, self.waiting = self.waiting, None
        if not made.refusal() and made.date > self.table.date and made.reach() > 0:
            self.table, self.reach = made, made.reach()

    def remedy(self):
        """Brings the gauge, the water and an element into order, as far as that can be done."""
        rng = self.rng
        level = rng.randint(self.reach // 2, max(self.reach - 1, 0))
        if self.heights and self.heights[0] < self.reach and rng.random() < 0.7:
            level = rng.randint(self.heights[0], self.reach - 1)
        if self.level < self.reach and rng.random() < 0.5:
            level = min(max(0, self.level + rng.randint(-self.allowance, self.allowance)), max(self.reach - 1, 0))
        for _ in range(2):
            self.sample(1, level)
            self.sample(2, level)
        under = [n for n, height in enumerate(self.heights, 1) if height <= level]
        if self.water >= level or (under and self.water > self.heights[under[-1] - 1]) or rng.random() < 0.1:
            highest = self.heights[under[-1] - 1] if under else 0
            self.set_water(rng.choice([0, rng.randint(0, highest), min(highest, max(level - 1, 0))]))
        if under and rng.random() < 0.7:
            self.element(under[-1], self.warmth())

    def jump(self):
        """A move of the level by the gate's allowance or one more, after it has settled."""
        base = self.rng.randint(0, max(self.reach - 1, 0))
        step = self.rng.choice([-1, 1]) * (self.allowance + self.rng.randint(0, 1))
        for level in [base, base] + [min(max(base + step, 0), HIGHEST)] * self.rng.randint(1, 3):
            self.sample(1, level)
            self.sample(2, level)
        self.say('read 1')

    def patience(self):
        """Jumps up to the most retries that a gate can have."""
        first, jump = self.reach // 3, min(self.reach // 3 + self.allowance + 1, HIGHEST)
        self.sample(1, first)
        self.sample(2, first)
        for count in range(self.retries + 8):
            self.sample(self.rng.choice([1, 2]), jump)
            if count > self.retries - 4 or count % 100 == 0:
                self.say('read 1')

    def journal(self, refusal=None, patience=False):
        rng = self.rng
        self.set_up(refusal, patience)
        if rng.random() < 0.2:               # the worst order: everything is asked before anything is told
            for _ in range(rng.randint(1, 3)):
                rng.choice([self.read, self.element, self.density, self.shell])()
                self.say('read 1')
        for part in rng.sample([self.fit_some, self.good_density, self.shell, self.sample], 4):
            part()
        if rng.random() < 0.1:
            self.say('read 2')
        self.all_elements()
        if patience:
            self.patience()
        weights = {self.read: 30, self.sample: 26, self.element: 14, self.set_water: 6, self.density: 3, self.shell: 4,
                   self.fit: 4, self.survey: 1, self.adopt: 3, self.all_elements: 2, self.good_density: 4,
                   self.jump: 4 * self.gated}
        end = self.calls + rng.choice([20, 60, rng.randint(20, 150)])
        while self.calls < end:
            rng.choices([*weights], [*weights.values()])[0]()
        return '\n'.join(self.lines) + '\n'

    def fit_some(self):
        for _ in range(self.rng.choice([0, 1, 2, 4, 8, 8, 20])):
            self.fit()


def first_difference(want, got):
    """The first lines that differ, the missing one as None; nothing where there are none."""
    for n in range(max(len(want), len(got))):
        pair = (want[n] if n < len(want) else None, got[n] if n < len(got) else None)
        if pair[0] != pair[1]:
            return pair
    return None


def differs(name, text, want, status):
    """Runs depot on the journal; says what differs, if anything."""
    with open(name, 'wb') as file:
        file.write(text)
    got = subprocess.run([DEPOT, '--raw', name], stdin=subprocess.DEVNULL, capture_output=True)
    pair = first_difference(want, got.stdout.decode('latin-1').split('\n')[:-1])
    if pair is not None:
        print('model:', pair[0])
        print('depot:', pair[1])
    if got.returncode != status:
        print(f'status {status} in the model, {got.returncode} of depot')
    if pair is None and got.returncode == status:
        return False
    sys.stdout.write(got.stderr.decode('latin-1'))
    return True


def check_known():
    """The figures known beforehand, of which the model must know every one."""
    answers = dict(line.split(' ', 1) for line in reading_model.run(KNOWN)[0])
    for line, part in KNOWN_PARTS.items():
        assert part in answers[str(line)], (line, part, answers[str(line)])
    assert reading_model.Family('crude').coefficient(1700) == 849_788_651
    assert reading_model.Family('products').coefficient(1541) == 1_151_710_581
    assert reading_model.wall_factor(112, 10 ** 8) == 1_000_224_013


class Tally:
    def __init__(self):
        self.served, self.refused = collections.Counter(), collections.Counter()
        self.reads = self.stopped = 0

    def add(self, text, want, status):
        lines = text.decode().split('\n')
        self.stopped += status
        for answer in want:
            n, kind, *rest = answer.split(' ')
            self.reads += lines[int(n) - 1].split()[0] == 'read'
            if kind == 'refused':
                self.refused[int(rest[1])] += 1
            else:
                self.served[kind] += 1

    def show(self, journals):
        print(f'{journals} journals, {self.stopped} of them with a refused commission: all as in the model')
        print(f'{self.served["reading"]} readings of {self.reads} reads; {self.served["done"]} other calls served, '
              f'{self.served["commissioned"]} commissions, {self.served["dip"]} dips')
        print('refused:', ', '.join(f'{n} x{count}' for n, count in sorted(self.refused.items())))
        print('never came:', ', '.join(str(n) for n in REFUSALS if not self.refused[n]) or 'none')


def main():
    journals = int(sys.argv[1]) if len(sys.argv) > 1 else 300
    rng = random.Random(int(sys.argv[2]) if len(sys.argv) > 2 else 1)
    check_known()
    if not os.path.exists(DEPOT):
        print(f'{os.path.normpath(DEPOT)} is not built')
        return 1
    tally = Tally()
    handle, name = tempfile.mkstemp(prefix='journal-')
    os.close(handle)
    for n in range(journals):
        refusal = rng.choice(['table', 'table', 'rule']) if rng.random() < 0.12 else None
        patience = n % 100 == 1
        text = KNOWN if n == 0 else Writer(rng).journal(None if patience else refusal, patience).encode()
        want, status = reading_model.run(text)
        if differs(name, text, want, status):
            print(f'journal {n} differs: it stays in {name}')
            return 1
        tally.add(text, want, status)
    os.remove(name)
    tally.show(journals)
    return 0


if __name__ == '__main__':
    sys.exit(main())
