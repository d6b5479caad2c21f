#!/usr/bin/env python3
"""An independent table of the rules' coefficients, with exact fractions: what crates/rule_table must print.

    python3 tests/rule_model.py > crates/rule_table/stdout
"""
from fractions import Fraction

# rule, densities from and to (half kilograms per cubic metre), K0 and K1 in 10^-4, K2 in 10^-8
GROUPS = {
    'crude': [(1221, 2150, 6139723, 0, 0)],
    'products': [
        (1306, 1540, 3464228, 4388, 0),
        (1541, 1575, 26803206, 0, -336312),
        (1576, 1677, 5945418, 0, 0),
        (1678, 2150, 1869696, 4862, 0),
    ],
    'lubricants': [(1600, 2328, 0, 6278, 0)],
}


def coefficient(k0, k1, k2, r):
    """Per °C, from the density in kg/m³ as the standard writes it: K0/rho² + K1/rho + K2."""
    rho = Fraction(r, 2)
    return Fraction(k0, 10**4) / rho**2 + Fraction(k1, 10**4) / rho + Fraction(k2, 10**8)


def rounded(x):
    return int(x + Fraction(1, 2))


for name, lines in GROUPS.items():
    for r in [*range(990, 2411), 2**32 - 1]:
        line = next((l for l in lines if l[0] <= r <= l[1]), None)
        if line is None:
            print(name, r, 'refused 4 30', r)
        else:
            value = coefficient(*line[2:], r) * 10**12
            assert 0 <= value <= 2 * 10**9
            print(name, r, rounded(value))

# a fixed coefficient in 10^-7 per °C; one that is not made prints a single line
for value in [0, 1, 8371, 20000, 20001, 2**32 - 1]:
    name = f'fixed-{value}'
    if value > 20000:
        print(name, value, 'refused 4 31', value)
        continue
    for r in [*range(990, 2411), 2**32 - 1]:
        if 1000 <= r <= 2400:
            print(name, r, rounded(Fraction(value, 10**7) * 10**12))
        else:
            print(name, r, 'refused 4 30', r)
