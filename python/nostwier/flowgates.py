"""A line's limit as a flowgate of a case: from exact shift factors to whole thousandths, with the least error.

The flow on a line is the sum of factor x energy of the resources less the sum of factor x load. So the line keeps its limit
if the sum of factor x energy is at most limit + sum of factor x load: that is a flowgate's limit 'net of other flows'. A
case has shift factors in thousandths, and plain rounding of the factors costs up to half a kW of flow for each MW of energy.
Two freedoms make that smaller:

- the energies sum to demand, so a constant may be taken off all factors, if constant x demand is taken off the limit;
- a row may be multiplied by a scale, limit and factors alike, so the factors may fill their range of -1000 to 1000.

`flowgate` tries every scale at which the greatest and the least factor become whole and takes the one with the least error;
errors within a kW count as equal, and of such ones it takes the scale nearest to 1.
The error that is left is given in kW of the line's flow, for the worst schedule that meets demand. A flowgate has one
direction; a line that may be overloaded in both takes two: the second with every factor's sign turned.

The line of the PJM five-bus system from E to D, which carries 240 MW at the most (examples/five_bus):

    >>> from nostwier.flowgates import flowgate
    >>> made = flowgate(240_000, [0.368495266232, 0.368495266232, 0.159538038004, 0.0, 0.48045178413], name="E to D",
    ...                 loads=[(0.217551870006, 300_000), (0.159538038004, 300_000), (0.0, 300_000)],
    ...                 maxima=[110_000, 100_000, 520_000, 200_000, 600_000])
    >>> made.flowgate
    Flowgate(limit=640112, shift_factors=[633, 633, -52, -575, 1000], name='E to D')
    >>> round(made.above, 3), round(made.below, 3)
    (0.877, 0.917)

So a schedule that keeps this flowgate overloads the line by 0.9 kW at the most, and its least cost is $0.002 an interval
from that of the exact line. Rounded to thousandths as they stand, the same factors move that cost by $1.58.
"""

import argparse
import json
import math
from fractions import Fraction
from typing import Iterable, NamedTuple, Optional, Sequence, Tuple, Union

from .layout import FLOWGATE_LIMIT
from .records import Flowgate, Misfiled

Number = Union[int, float, str, Fraction]  # a text is a decimal number
HIGHEST = 10**12  # kW: beyond any system
FACTOR = 1000  # the greatest shift factor, and how many of its units are one


class FiledFlowgate(NamedTuple):
    """A flowgate to be filed, and what it has to do with the line.

    flowgate  limit in whole kW and shift factors in whole thousandths, as a case has them
    constant  what was taken off each exact factor
    scale     what factors and limit were then multiplied by: the line's price is the flowgate's price x scale
    above     by so many kW, at the most, may a schedule that keeps the flowgate overload the line
    below     by so many kW, at the most, may the line be below its limit in a schedule that the flowgate forbids
    """

    flowgate: Flowgate
    constant: float
    scale: float
    above: float
    below: float


def flowgate(limit: Number, factors: Sequence[Number], loads: Iterable[Tuple[Number, Number]] = (), demand: Optional[Number] = None,
             maxima: Optional[Sequence[Number]] = None, name: str = "") -> FiledFlowgate:
    """The flowgate of a line, with the least error.

    limit    what the line carries at the most, in kW
    factors  exact shift factors, one for each resource in the case's order: kW on the line for one kW more of energy
    loads    pairs of shift factor and load in kW, one for each bus with load
    demand   the case's demand in kW, if it is not the sum of the loads (losses, say)
    maxima   the most energy of each resource in kW; demand, if they are not known
    """
    exact = [_number(f"shift factor {place}", factor) for place, factor in enumerate(factors, 1)]
    carried = _number("limit", limit)
    drawn = [(_number(f"load {place}: factor", factor), _number(f"load {place}", load))
             for place, (factor, load) in enumerate(loads, 1)]
    total = sum((load for _, load in drawn), Fraction(0)) if demand is None else _number("demand", demand)
    most_of = [total] * len(exact) if maxima is None else [_number(f"maximum {p}", m) for p, m in enumerate(maxima, 1)]
    _check_line(exact, drawn, total, most_of)
    net = carried + sum((factor * load for factor, load in drawn), Fraction(0))

    filed, scale = _best(exact, net, total, most_of)
    low, high = _ends(_errors(filed, scale, exact), total, most_of)
    filed_limit = round((net + (low + high) / 2) * scale)
    if abs(filed_limit) > FLOWGATE_LIMIT:
        raise Misfiled(
            f"the flowgate's limit comes to {filed_limit:,} kW, outside {-FLOWGATE_LIMIT:,} to {FLOWGATE_LIMIT:,}: are limit and "
            "loads in kW? A limit so high never binds; leave the flowgate out"
        )
    # A schedule keeps the flowgate if flow - limit of the line <= room - error, where room is what rounding left.
    room = Fraction(filed_limit) / scale - net
    constant = sum(factor - Fraction(number, FACTOR) / scale for number, factor in zip(filed, exact)) / len(exact)
    return FiledFlowgate(
        Flowgate(limit=filed_limit, shift_factors=filed, name=name), float(constant), float(scale),
        float(max(0, room - low)), float(max(0, high - room)),
    )


def _check_line(exact, drawn, total, most_of):
    """Misfiled, where no flowgate can be made of the line."""
    if not exact:
        raise Misfiled("a flowgate wants a shift factor for each resource; there is none")
    if len(most_of) != len(exact):
        raise Misfiled(f"there are {len(exact)} shift factors and {len(most_of)} maxima; give one of each for every resource")
    if any(abs(factor) > 1 for factor in exact + [factor for factor, _ in drawn]):
        raise Misfiled("a shift factor is outside -1 to 1; give kW on the line for one kW more at the bus, not thousandths")
    if total <= 0:
        raise Misfiled("demand is not above 0; give the loads in kW, or the demand")
    if sum(most_of) < total:
        raise Misfiled(f"the resources' maxima sum to {_kw(sum(most_of))} kW, under the demand of {_kw(total)} kW; is one in MW?")
    if min(exact) == max(exact):
        raise Misfiled("all shift factors are equal, so no schedule changes the flow on the line; leave the flowgate out")


def _best(exact, net, demand, maxima):
    """Whole factors, and the scale, of the least error. An error within a kW counts as a kW: of such ones the scale nearest to 1
    is taken, since a flowgate's price is in whole cents, and a larger scale makes them coarser."""
    least, most = min(exact), max(exact)
    factors, width = [float(factor) for factor in exact], float(most - least)
    maxima, demand, net = [float(maximum) for maximum in maxima], float(demand), float(net)
    chosen = None
    for span in range(1, 2 * FACTOR + 1):
        scale = span / FACTOR / width
        # Near the exact factors themselves, if the range lets them.
        first = min(max(round(FACTOR * scale * float(least)), -FACTOR), FACTOR - span)
        filed = [first + round(FACTOR * scale * (factor - float(least))) for factor in factors]
        low, high = _ends(_errors(filed, scale, factors), demand, maxima)
        limit = (net + (low + high) / 2) * scale
        error = (high - low) / 2 + abs(limit - round(limit)) / scale
        key = (max(1.0, error), abs(math.log(scale)))
        if chosen is None or key < chosen[0]:
            chosen = (key, filed, span)
    _, filed, span = chosen
    return filed, Fraction(span, FACTOR) / (most - least)


def _errors(filed, scale, exact):
    """How far each filed factor is from the exact one. The error of a flow is the sum of error x energy; its middle, which all
    schedules share, goes into the limit."""
    return [number / (FACTOR * scale) - factor for number, factor in zip(filed, exact)]


def _ends(errors, demand, maxima):
    """The least and the greatest sum of error x energy, over energies within their maxima that sum to demand."""
    pairs = sorted(zip(errors, maxima))
    return _filled(pairs, demand), _filled(reversed(pairs), demand)


def _filled(pairs, demand):
    total, left = 0, demand
    for error, maximum in pairs:
        energy = min(maximum, left)
        total += error * energy
        left -= energy
    return total


def _number(what, value):
    """An exact fraction; a decimal text or a float stands for the decimal that is printed of it."""
    try:
        if isinstance(value, bool):
            raise ValueError
        text = str(value)
        if "e" in text.lower():
            text = str(float(text))  # exact, but for exponents that no flow has
        number = Fraction(value) if isinstance(value, (int, Fraction)) else Fraction(text)
    except (ValueError, ZeroDivisionError):
        raise Misfiled(f"{what}: a number is wanted, not {str(value)[:40]!r}") from None
    if abs(number) > HIGHEST:
        raise Misfiled(f"{what}: no number so large is possible; power is in kW")
    if what.startswith(("maximum", "load")) and "factor" not in what and number < 0:
        raise Misfiled(f"{what}: {value} is below 0")
    return number


def _kw(number):
    return f"{float(number):,.0f}"


# ---- The command.

SUMMARY = "turn a line's exact shift factors, loads and limit into a flowgate of a case, with the least error"
DESCRIPTION = """\
Turns exact shift factors, loads and a limit of a line into a flowgate of a case, with the least error that factors in whole
thousandths allow, and says how many kW of flow are left to be wrong. LINE is a JSON file:

  {"name": "E to D", "limit": 240000,
   "resources": [{"name": "Alta", "shift_factor": 0.368495, "maximum": 110000}, ...],
   "loads": [{"name": "B", "shift_factor": 0.217552, "load": 300000}, ...]}

Power is in kW; a shift factor is the kW on the line for one kW more at the bus, as a fraction, with as many digits as there
are. Resources stand in the case's order. "demand" may be given, where it is not the sum of the loads.
examples/five_bus/line.json is such a file.
"""


def arguments(parser: argparse.ArgumentParser) -> None:
    """Tells a parser of command lines what the command takes."""
    parser.formatter_class = argparse.RawDescriptionHelpFormatter
    parser.description = DESCRIPTION
    parser.add_argument("line", metavar="LINE", help="the JSON file with shift factors, loads and limit")
    parser.add_argument("--reverse", action="store_true",
                        help="the other direction, every factor's sign turned: a line that may be overloaded both ways takes two "
                        "flowgates")
    parser.add_argument("--json", action="store_true", help="print one JSON object: flowgate, constant, scale, above, below")


def command(content: bytes, options: argparse.Namespace) -> str:
    """What the command prints for the bytes of a line's JSON file."""
    try:
        text = content.decode("utf-8")
    except UnicodeDecodeError:
        raise Misfiled(f"'{options.line}' is no text in UTF-8: a JSON file is wanted") from None
    try:
        made = flowgate_of_json(text, options.reverse)
    except Misfiled as error:
        raise Misfiled(f"'{options.line}': {error}") from None
    return as_json(made) if options.json else shown(made)


def flowgate_of_json(text: str, reverse: bool = False) -> FiledFlowgate:
    """The flowgate of a line given as the command's JSON text."""
    try:
        line = json.loads(text, parse_float=str)
    except (ValueError, RecursionError) as error:
        raise Misfiled(f"the line is no JSON: {error}") from None
    _only(line, "the line", {"name", "note", "limit", "resources", "loads", "demand"}, {"limit", "resources"})
    for part in ("resources", "loads"):
        if not isinstance(line.get(part, []), list):
            raise Misfiled(f"{part}: a list is wanted")
    for place, resource in enumerate(line["resources"]):
        _only(resource, f"resources[{place}]", {"name", "shift_factor", "maximum"}, {"shift_factor"})
    for place, load in enumerate(line.get("loads", [])):
        _only(load, f"loads[{place}]", {"name", "shift_factor", "load"}, {"shift_factor", "load"})
    sign = -1 if reverse else 1
    factors = [sign * _number(f"resources[{place}].shift_factor", resource["shift_factor"])
               for place, resource in enumerate(line["resources"])]
    loads = [(sign * _number(f"loads[{place}].shift_factor", load["shift_factor"]), load["load"])
             for place, load in enumerate(line.get("loads", []))]
    given = ["maximum" in resource for resource in line["resources"]]
    if any(given) and not all(given):
        raise Misfiled(f"resources[{given.index(False)}].maximum is missing; give it for every resource or for none")
    maxima = [resource["maximum"] for resource in line["resources"]] if all(given) else None
    return flowgate(line["limit"], factors, loads, line.get("demand"), maxima, str(line.get("name", "")))


def _only(value, where, known, needed):
    if not isinstance(value, dict):
        raise Misfiled(f"{where}: an object is wanted")
    for key in sorted(set(value) - known):
        raise Misfiled(f"{where}: there is no field '{key}'; the fields are {', '.join(sorted(known))}")
    for key in sorted(needed - set(value)):
        raise Misfiled(f"{where}: the field '{key}' is missing")


def shown(made: FiledFlowgate) -> str:
    """A filed flowgate in words, and as the line that goes into a case's JSON source."""
    return (
        f"To be filed among the case's \"flowgates\":\n\n  {json.dumps(_fields(made.flowgate))}\n\n"
        f"Taken off each factor: {made.constant:.6f}. Then multiplied by: {made.scale:.6f}.\n"
        f"The price of the line is the flowgate's price x {made.scale:.6f}.\n"
        f"Error that is left: a schedule that keeps the flowgate overloads the line by {_up(made.above)} kW at the most;\n"
        f"one that the flowgate forbids leaves {_up(made.below)} kW of the line at the most.\n"
    )


def as_json(made: FiledFlowgate) -> str:
    """A filed flowgate as one JSON object."""
    return json.dumps({**made._asdict(), "flowgate": _fields(made.flowgate)}, indent=2) + "\n"


def _fields(made):
    named = {"name": made.name} if made.name else {}
    return {**named, "limit": made.limit, "shift_factors": list(made.shift_factors)}


def _up(kw):
    """To a thousandth, rounded up."""
    return f"{math.ceil(kw * 1000) / 1000:,.3f}"
