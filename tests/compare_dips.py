#!/usr/bin/env python3
"""Random and extreme journals through `depot --raw` and through the model, which must agree on every line.

    python3 tests/compare_dips.py [JOURNALS [SEED]]      default 300 journals, seed 1, after make run
"""
import os
import random
import subprocess
import sys

import dip_model

DEPOT = os.path.join(os.path.dirname(os.path.abspath(__file__)), '..', 'crates', 'depot', 'out', 'depot')


def near(rng, *values):
    return max(0, rng.choice(values) + rng.randint(-2, 2))


def heights(rng, count, top):
    picks = {0, top} | {rng.randint(1, top) for _ in range(count)}
    return sorted(picks)[:256]


def survey(rng):
    lines, tops = [f'survey {rng.randint(0, 2**32 - 1)} '], []
    if rng.random() < 0.3:
        height, per_metre = near(rng, 0, 120_000, 400_000), near(rng, 0, 31_416, 5_000_000)
        lines[0] += f'upright {height} {per_metre}'
        tops = [0, height]
    else:
        lines[0] += 'strapped'
        top = rng.choice([3, 50, 100_000, 400_000])
        litres = rng.choice([1, 999, 10**6, 200_000_000])
        levels = heights(rng, rng.choice([0, 1, 5, 40, 250]), top)
        volumes = sorted(rng.choice([0, litres, rng.randint(0, litres)]) for _ in levels)
        rows = [list(r) for r in zip(levels, volumes)]
        if rng.random() < 0.15:   # a slip of the pen
            row = rng.choice(rows)
            row[rng.randint(0, 1)] = near(rng, 0, row[0], 400_000, 200_000_000)
        lines += [f'row {h} {v}' for h, v in rows]
        tops = [h for h, _ in rows]
    if rng.random() < 0.4:
        lines.append(f'datum {near(rng, 0, 10, 400_001, tops[-1])}')
    if rng.random() < 0.4:
        lines.append(f'limit {near(rng, 0, 400_000, tops[-1], tops[-1] // 2)}')
    for _ in range(rng.randint(0, 60)):
        lines.append(f'dip {rng.choice([near(rng, *tops), rng.randint(0, max(tops) + 1), near(rng, 2**32 - 3)])}')
    return lines


def main():
    journals = int(sys.argv[1]) if len(sys.argv) > 1 else 300
    rng = random.Random(int(sys.argv[2]) if len(sys.argv) > 2 else 1)
    answers = refused = 0
    for n in range(journals):
        text = '\n'.join(line for _ in range(rng.randint(1, 8)) for line in survey(rng)) + '\n'
        got = subprocess.run([DEPOT, '--raw'], input=text.encode(), capture_output=True)
        want = []
        for line, height, tank in dip_model.parse(text.encode()):
            answer = tank.dip(height)
            refused += isinstance(answer, tuple)
            want.append(f'{line} refused %d %d %d' % answer if isinstance(answer, tuple) else f'{line} dip height={height} tenths={answer}')
        answers += len(want)
        if got.returncode != 0 or got.stdout.decode().splitlines() != want:
            print(f'journal {n} differs:')
            sys.stdout.write(text)
            return 1
    print(f'{journals} journals, {answers} dips, {refused} of them refused: all as in the model')
    return 0


if __name__ == '__main__':
    sys.exit(main())
