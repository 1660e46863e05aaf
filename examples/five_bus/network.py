#!/usr/bin/env python3
"""The DC power flow of the PJM five-bus system: prints the line from E to D as `nostwier flowgate` takes it.

The system is the well-known one (after F. Li and R. Bo, 2010). Its loads and offers differ from one text to the next; those
that are used here stand below and in five_bus.json: five buses, six lines, five generators, 300 MW of load at each of B, C and
D. The line from E to D carries 240 MW at the most, and is the only one with a limit. All arithmetic is exact.
"""

import json
from fractions import Fraction

BUSES = "ABCDE"
REACTANCES = {"AB": "2.81", "AD": "3.04", "AE": "0.64", "BC": "1.08", "CD": "2.97", "ED": "2.97"}  # per cent
GENERATORS = [  # name, bus, kW
    ("Alta", "A", 110_000), ("Park City", "A", 100_000), ("Solitude", "C", 520_000), ("Sundance", "D", 200_000),
    ("Brighton", "E", 600_000),
]
LOADS = {"B": 300_000, "C": 300_000, "D": 300_000}
LINE, LIMIT = "ED", 240_000


def shift_factors(line, reference="D"):
    """The flow on a line, from its first bus to its second, for one unit sent from each bus to the reference."""
    buses = [bus for bus in BUSES if bus != reference]
    susceptance = {ends: 1 / Fraction(reactance) for ends, reactance in REACTANCES.items()}
    matrix = {bus: {other: Fraction(0) for other in buses} for bus in buses}
    for (first, second), value in susceptance.items():
        for bus, other in ((first, second), (second, first)):
            if bus in matrix:
                matrix[bus][bus] += value
                if other in matrix:
                    matrix[bus][other] -= value
    factors = {reference: Fraction(0)}
    for bus in buses:
        angles = {reference: Fraction(0), **solved(matrix, {other: Fraction(other == bus) for other in buses})}
        factors[bus] = susceptance[line] * (angles[line[0]] - angles[line[1]])
    return factors


def solved(matrix, right):
    """The solution of matrix x = right, by elimination."""
    rows = {bus: (dict(matrix[bus]), right[bus]) for bus in matrix}
    for pivot in matrix:
        row, value = rows[pivot]
        scale = row[pivot]
        rows[pivot] = row, value = {bus: entry / scale for bus, entry in row.items()}, value / scale
        for bus in matrix:
            if bus != pivot:
                other, of_other = rows[bus]
                by = other[pivot]
                rows[bus] = {b: other[b] - by * row[b] for b in other}, of_other - by * value
    return {bus: rows[bus][1] for bus in matrix}


def line():
    factors = shift_factors(LINE)
    digits = {bus: round(float(factor), 12) for bus, factor in factors.items()}
    return {
        "name": "E to D",
        "limit": LIMIT,
        "resources": [{"name": name, "shift_factor": digits[bus], "maximum": most} for name, bus, most in GENERATORS],
        "loads": [{"name": bus, "shift_factor": digits[bus], "load": load} for bus, load in LOADS.items()],
    }


def text():
    """The line as JSON, a resource or load a line."""
    parts = line()
    lists = [f'  "{part}": [\n    ' + ",\n    ".join(json.dumps(one) for one in parts[part]) + "\n  ]" for part in ("resources", "loads")]
    return f'{{\n  "name": "{parts["name"]}", "limit": {parts["limit"]},\n' + ",\n".join(lists) + "\n}"


if __name__ == "__main__":
    print(text())
