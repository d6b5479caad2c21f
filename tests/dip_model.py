#!/usr/bin/env python3
"""An independent model of `depot --raw`: exact fractions, written from the documents and not from the program.

    python3 tests/dip_model.py FILE      prints what depot --raw must print; a malformed line ends it with status 1
"""
import sys
from fractions import Fraction

HIGHEST = 400_000
MOST_LITRES = 200_000_000
MOST_PER_METRE = 5_000_000


class Malformed(Exception):
    pass


def rounded(x):
    """The nearest whole number, a half away from zero."""
    size = abs(x)
    whole = int(size + Fraction(1, 2))
    return whole if x >= 0 else -whole


def number(word):
    if not word or any(c not in '0123456789' for c in word) or int(word) >= 2 ** 32:
        raise Malformed('number')
    return int(word)


class Survey:
    def __init__(self, kind, values):
        self.kind, self.values, self.rows = kind, values, []
        self.datum, self.limit, self.stage = 0, HIGHEST, 0   # stage: 0 rows, 1 datum, 2 limit, 3 dips

    def refusal(self):
        if self.kind == 'upright':
            height, per_metre = self.values
            if height > HIGHEST:
                return (3, 25, height)
            if per_metre > MOST_PER_METRE:
                return (3, 25, per_metre)
            return None
        if not 2 <= len(self.rows) <= 256:
            return (3, 20, len(self.rows))
        if self.rows[0][0] != 0:
            return (3, 21, 0)
        for i, (height, litres) in enumerate(self.rows):
            if height > HIGHEST or (i > 0 and height <= self.rows[i - 1][0]):
                return (3, 22, i)
            if litres > MOST_LITRES or (i > 0 and litres < self.rows[i - 1][1]):
                return (3, 23, i)
        return None

    def reach(self):
        below = (self.values[0] if self.kind == 'upright' else self.rows[-1][0]) + 1
        above_datum = max(below - min(self.datum, HIGHEST + 1), 0)
        return min(above_datum, min(self.limit, HIGHEST) + 1)

    def volume(self, height):
        height += min(self.datum, HIGHEST + 1)
        if self.kind == 'upright':
            return Fraction(height * self.values[1], 10_000)
        for (h0, v0), (h1, v1) in zip(self.rows, self.rows[1:]):
            if h0 <= height <= h1:
                return v0 + Fraction((v1 - v0) * (height - h0), h1 - h0)
        raise AssertionError('a covered height lies between two rows')

    def dip(self, height):
        refusal = self.refusal()
        if refusal:
            return refusal
        if height >= self.reach():
            return (3, 24, height)
        return rounded(10 * self.volume(height))


def parse(data):
    """The surveys' dips in order: (line, height, survey)."""
    survey, dips = None, []
    for n, raw in enumerate(data.split(b'\n'), 1):
        if raw.endswith(b'\r'):
            raw = raw[:-1]
        words = [w.decode('latin-1') for w in raw.split(b'#')[0].replace(b'\t', b' ').split(b' ') if w]
        if not words:
            continue
        try:
            word, rest = words[0], words[1:]
            if word == 'survey':
                date, kind = number(rest[0]), rest[1]
                if kind not in ('strapped', 'upright') or len(rest) != (2 if kind == 'strapped' else 4):
                    raise Malformed('survey')
                survey = Survey(kind, [number(w) for w in rest[2:]])
            elif word in ('row', 'datum', 'limit', 'dip'):
                values = [number(w) for w in rest]
                if len(values) != (2 if word == 'row' else 1) or survey is None:
                    raise Malformed(word)
                if word == 'row':
                    if survey.kind != 'strapped' or survey.stage != 0:
                        raise Malformed('place')
                    survey.rows.append(tuple(values))
                elif word == 'datum':
                    if survey.stage > 0:
                        raise Malformed('place')
                    survey.datum, survey.stage = values[0], 1
                elif word == 'limit':
                    if survey.stage > 1:
                        raise Malformed('place')
                    survey.limit, survey.stage = values[0], 2
                else:
                    survey.stage = 3
                    dips.append((n, values[0], survey))
            else:
                raise Malformed('word')
        except (Malformed, IndexError):
            raise Malformed(f'line {n}')
    return dips


def main():
    data = open(sys.argv[1], 'rb').read() if len(sys.argv) > 1 else sys.stdin.buffer.read()
    try:
        dips = parse(data)
    except Malformed as e:
        print(e, file=sys.stderr)
        return 1
    for line, height, survey in dips:
        answer = survey.dip(height)
        if isinstance(answer, tuple):
            print(line, 'refused', *answer)
        else:
            print(f'{line} dip height={height} tenths={answer}')
    return 0


if __name__ == '__main__':
    sys.exit(main())
