#!/usr/bin/env python3
"""An independent model of `depot --raw` for whole journals: exact numbers, written from the rules and not from the program.

    python3 tests/reading_model.py FILE      prints what depot --raw must print, and ends with its status

The journal must be well-formed. An answer is a number or None where all went well, and a tuple (layer, number, place)
where it is a refusal. The surveys and their tables are those of dip_model.
"""
import sys
from fractions import Fraction

from dip_model import HIGHEST, Survey, rounded

MOST_ELEMENTS = 16
COLDEST, HOTTEST = -4_000, 15_000            # hundredths of a degree
MOST_SHELL = 300
MOST_ALLOWANCE, MOST_RETRIES = 9_990, 999
MOST_FIXED = 20_000
UNIT = 10 ** 9


def ratio(above, below):
    """A quotient of whole numbers, rounded."""
    return rounded(Fraction(above, below))


def refused(answer):
    return isinstance(answer, tuple)


# ---- gauges: say() is a level or a refusal

class Single:
    """The last sample of its own instrument."""

    def __init__(self, instrument):
        self.instrument = min(max(instrument, 1), 2)
        self.last = (1, 11, self.instrument)

    def hear(self, instrument, level, code):
        if instrument == self.instrument:
            self.last = level if code is None else (1, 10, 1000 * instrument + code)

    def say(self):
        return self.last


class Pair:
    """The first's level, else the second's level, else the first's fault."""

    def __init__(self, first, second):
        self.first, self.second = Single(first), Single(second)

    def hear(self, instrument, level, code):
        self.first.hear(instrument, level, code)
        self.second.hear(instrument, level, code)

    def say(self):
        first, second = self.first.say(), self.second.say()
        return second if refused(first) and not refused(second) else first


class Gate:
    """Holds a level against jumps of the gauge below it, until they have lasted beyond the retries."""

    def __init__(self, below, allowance, retries):
        self.below = below
        self.allowance, self.retries = min(allowance, MOST_ALLOWANCE), min(retries, MOST_RETRIES)
        self.state, self.level, self.count = 'empty', None, 0

    def hear(self, instrument, level, code):
        self.below.hear(instrument, level, code)
        heard = self.below.say()
        if not refused(heard):
            self.look(heard)

    def look(self, heard):
        if self.state == 'empty' or abs(heard - self.level) <= self.allowance:
            self.state, self.level = 'settled', heard
        elif self.state == 'lost':
            self.level = heard
        else:
            count = 1 if self.state == 'settled' else self.count + 1
            if count > self.retries:
                self.state, self.level = 'lost', heard
            else:
                self.state, self.count = 'suspect', count

    def say(self):
        below = self.below.say()
        if refused(below):
            return below
        if self.state == 'empty':
            return (1, 11, 0)
        return (1, 12, self.level) if self.state == 'lost' else self.level


def sample_refusal(instrument, level, code):
    if instrument not in (1, 2):
        return (1, 13, instrument)
    if code is None:
        return None if level <= HIGHEST else (1, 13, level)
    return None if 1 <= code <= 255 else (1, 13, code)


# ---- rules: what a density says of the liquid's expansion

RULES = {                                    # first density, last density, K0, K1, K2
    'crude': [(1221, 2150, 6_139_723, 0, 0)],
    'products': [(1306, 1540, 3_464_228, 4_388, 0), (1541, 1575, 26_803_206, 0, -336_312),
                 (1576, 1677, 5_945_418, 0, 0), (1678, 2150, 1_869_696, 4_862, 0)],
    'lubricants': [(1600, 2328, 0, 6_278, 0)],
}


class Family:
    """Crude, products or lubricants."""

    def __init__(self, name):
        self.bands = RULES[name]

    def refusal(self):
        return None

    def coefficient(self, r):
        for first, last, k0, k1, k2 in self.bands:
            if first <= r <= last:
                return rounded(Fraction(10 ** 8 * (4 * k0 + 2 * k1 * r), r * r) + 10 ** 4 * k2)
        return (4, 30, r)


class Fixed:
    """One coefficient for every density."""

    def __init__(self, per_ten_million):
        self.c = per_ten_million

    def refusal(self):
        return (4, 31, self.c) if self.c > MOST_FIXED else None

    def coefficient(self, r):
        return self.c * 10 ** 5 if 1_000 <= r <= 2_400 else (4, 30, r)


# ---- thermometer elements

class Elements:
    """Heights from the bottom up, each with a good temperature or None."""

    def __init__(self):
        self.heights, self.temperatures = [], []

    def fit(self, height):
        if len(self.heights) == MOST_ELEMENTS:
            return (2, 42, MOST_ELEMENTS)
        if height > HIGHEST or (self.heights and height <= self.heights[-1]):
            return (2, 41, height)
        self.heights.append(height)
        self.temperatures.append(None)

    def tell(self, n, hundredths):
        if not 1 <= n <= len(self.heights):
            return (2, 40, n)
        self.temperatures[n - 1] = hundredths if COLDEST <= hundredths <= HOTTEST else None

    def counting(self, water, level):
        """The places, from 0, of the good elements within the liquid."""
        return [i for i, (height, good) in enumerate(zip(self.heights, self.temperatures))
                if good is not None and water <= height <= level]

    def temperature(self, water, level):
        """The mean in 10^-7 of a degree: each element weighs the liquid nearest to it."""
        places = self.counting(water, level)
        if not places:
            return (2, 43, level)
        heights = [self.heights[i] for i in places]
        bounds = [2 * water] + [a + b for a, b in zip(heights, heights[1:])] + [2 * level]
        weights = [above - below for below, above in zip(bounds, bounds[1:])]
        total = sum(w * self.temperatures[i] for w, i in zip(weights, places))
        return ratio(10 ** 5 * total, sum(weights))


# ---- the steps of a reading

def wall_factor(shell, d):
    y = shell * d
    z = ratio(y, 10 ** 5)
    return UNIT + ratio(20_000 * y + z * z, UNIT)


def liquid_factor(coefficient, d):
    u = ratio(coefficient * d, 10 ** 10)
    v = u + ratio(8 * u * u, 10 ** 10)
    p = UNIT
    for k in range(12, 0, -1):
        p = UNIT - ratio(v * p, k * UNIT)
    return p


def mass_of(standard, r, method):
    return ratio(standard * r, 20_000) if method == 1 else ratio(standard * (5 * r - 11), 100_000)


class Computer:
    """What stands on the tank after commission; every call answers None, a refusal, or a reading's text."""

    def __init__(self, tank, gauge, rule, survey):
        self.tank, self.gauge, self.rule, self.survey = tank, gauge, rule, survey
        self.elements = Elements()
        self.water, self.shell, self.r = 0, 0, None

    def sample(self, instrument, level, code):
        refusal = sample_refusal(instrument, level, code)
        if refusal is None:
            self.gauge.hear(instrument, level, code)
        return refusal

    def set_water(self, height):
        if height > HIGHEST:
            return (5, 56, height)
        self.water = height

    def set_shell(self, value):
        if value > MOST_SHELL:
            return (5, 55, value)
        self.shell = value

    def set_density(self, r):
        coefficient = self.rule.coefficient(r)
        if refused(coefficient):
            return coefficient
        self.r = r

    def adopt(self, survey):
        refusal = survey.refusal()
        if refusal is not None:
            return refusal
        if survey.date <= self.survey.date:
            return (5, 53, survey.date)
        if survey.reach() == 0:
            return (5, 54, survey.date)
        self.survey = survey

    def read(self, method):
        if method not in (1, 2):
            return (5, 50, method)
        level = self.gauge.say()
        if refused(level):
            return level
        if self.r is None:
            return (5, 51, 0)
        full = self.survey.dip(level)
        if refused(full):
            return full
        if self.water >= level:
            return (5, 52, self.water)
        temperature = self.elements.temperature(self.water, level)
        if refused(temperature):
            return temperature
        return self.reading(method, level, full - self.survey.dip(self.water), temperature)

    def reading(self, method, level, plain, temperature):
        d = temperature - 150_000_000
        gross = ratio(plain * wall_factor(self.shell, d), UNIT)
        correction = liquid_factor(self.rule.coefficient(self.r), d)
        standard = ratio(gross * correction, UNIT)
        places = self.elements.counting(self.water, level)
        return (f'reading tank={self.tank} date={self.survey.date} method={method} density={self.r} level={level} '
                f'water={self.water} temperature={temperature} correction={correction} gross={gross} '
                f'standard={standard} mass={mass_of(standard, self.r, method)} '
                f'elements={sum(1 << i for i in places)} count={len(places)}')


# ---- the journal

def lines_of(text):
    """The lines that say something: (line number, words)."""
    for n, raw in enumerate(text.split(b'\n'), 1):
        words = raw.split(b'#')[0].decode('latin-1').replace('\r', ' ').replace('\t', ' ').split(' ')
        words = [w for w in words if w]
        if words:
            yield n, words


class Journal:
    """The journal so far: the latest survey, the set-up lines, and the computer once commissioned."""

    def __init__(self):
        self.survey = self.computer = None
        self.tank = self.gauge = self.rule = None

    def silent(self, word, rest):
        """Takes a line that is not answered, or says that it is none of those."""
        numbers = [int(w) for w in rest if w.isdigit()]
        if word == 'survey':
            self.survey = Survey(rest[1], numbers[1:])
            self.survey.date = numbers[0]
        elif word == 'row':
            self.survey.rows.append(tuple(numbers))
        elif word in ('datum', 'limit'):
            setattr(self.survey, word, numbers[0])
        elif word == 'tank':
            self.tank = numbers[0]
        elif word == 'gauge':
            self.gauge = (Single if rest[0] == 'single' else Pair)(*numbers)
        elif word == 'gate':
            self.gauge = Gate(self.gauge, *numbers)
        elif word == 'rule':
            self.rule = Fixed(numbers[0]) if rest[0] == 'fixed' else Family(rest[0])
        else:
            return False
        return True

    def take_survey(self):
        """The latest survey, used up by the taking."""
        survey, self.survey = self.survey, None
        return survey

    def dip(self, height):
        tenths = self.survey.dip(height)
        return tenths if refused(tenths) else f'dip height={height} tenths={tenths}'

    def commission(self):
        survey = self.take_survey()
        refusal = survey.refusal() or self.rule.refusal()
        if refusal:
            return refusal
        self.computer = Computer(self.tank, self.gauge, self.rule, survey)
        return f'commissioned tank={self.tank} date={survey.date} reach={survey.reach()}'

    def call(self, word, rest):
        computer = self.computer
        if word == 'adopt':
            return computer.adopt(self.take_survey())
        if word == 'sample':
            level, code = (int(rest[2]), None) if rest[1] == 'level' else (None, int(rest[2]))
            return computer.sample(int(rest[0]), level, code)
        calls = {'fit': computer.elements.fit, 'element': computer.elements.tell, 'water': computer.set_water,
                 'density': computer.set_density, 'shell': computer.set_shell, 'read': computer.read}
        return calls[word](*[int(w) for w in rest])

    def answer(self, word, rest):
        if self.computer is not None:
            return self.call(word, rest) or 'done'
        return self.commission() if word == 'commission' else self.dip(int(rest[0]))


def run(text):
    """What depot --raw prints for a well-formed journal, line by line, and its status."""
    journal, out = Journal(), []
    for n, (word, *rest) in lines_of(text):
        if journal.silent(word, rest):
            continue
        answer = journal.answer(word, rest)
        out.append(f'{n} refused %d %d %d' % answer if refused(answer) else f'{n} {answer}')
        if word == 'commission' and refused(answer):
            return out, 1
    return out, 0


def main():
    with open(sys.argv[1], 'rb') as file:
        out, status = run(file.read())
    for line in out:
        print(line)
    return status


if __name__ == '__main__':
    sys.exit(main())
