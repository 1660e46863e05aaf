"""The Python module against the reference, the corpus and the shipped example.

    python3 checks.py TOP REFERENCE HOST SIZES [--answers]

TOP is the top of the repository, REFERENCE the program nostwier-reference, HOST the built examples/host.c, SIZES the built
tests/library/sizes.c. With --answers only the library's answers are compared. Last line 'N passed, M failed'.
"""

import copy
import ctypes
import ctypes.util
import hashlib
import inspect
import json
import os
import re
import subprocess
import sys
import tempfile
from pathlib import Path

import nostwier
from nostwier import Names, explain, layout, library, messages, model
from nostwier.__main__ import COMMANDS

TOP, REFERENCE, HOST, SIZES = (Path(word) for word in sys.argv[1:5])
ANSWERS_ALONE = "--answers" in sys.argv
EXAMPLE = TOP / "examples" / "small"
UNIT_HELP = ("power is in kW, ramps in kW a minute, prices of offers, curves and flowgates in cents per MWh, other prices in thousandths "
             "of a cent, factors, shares and multipliers in thousandths")

passed, failed = 0, 0


def check(what, holds):
    global passed, failed
    if holds:
        passed += 1
    else:
        failed += 1
        if failed <= 20:
            print(f"failed: {what}")


def same(what, got, expected):
    check(f"{what}: {_short(got)}, and not {_short(expected)}", got == expected)


def _short(value):
    text = repr(value)
    return text if len(text) < 300 else text[:300] + "..."


def reference(command, given):
    """What the reference prints, or the words of its refusal: ('refused', number, place)."""
    done = subprocess.run([REFERENCE, *command.split()], input=given, capture_output=True, check=False)
    if done.returncode == 1 and done.stdout.startswith(b"refused "):
        number, *place = map(int, done.stdout.split()[1:])
        return ("refused", number, *(place or [0]))
    if done.returncode != 0:
        raise RuntimeError(f"the reference failed on {command}: {done.stderr.decode()}")
    return done.stdout


def numbers(text):
    return text if isinstance(text, tuple) else [int(line) for line in text.split()]


def answer(call, *arguments):
    """What a call returns, or its refusal in the same words."""
    try:
        return call(*arguments)
    except nostwier.Refused as refusal:
        return ("refused", refusal.number, refusal.place)


def lines(given):
    """Numbers as the reference takes them."""
    return "".join(f"{number}\n" for number in given).encode()


def raised(kind, call, *arguments):
    """What a call raises, or None if it returns."""
    try:
        call(*arguments)
    except kind as error:
        return error
    return None


def refusal_of(call, *arguments):
    """Number, place and words of a call's refusal, or None."""
    refusal = raised(nostwier.Refused, call, *arguments)
    return refusal and (refusal.number, refusal.place, refusal.where)


def text_of(number, where="", question="", place=0):
    """The text of a refusal; its meaning and advice are held to the header's in refusals()."""
    at = f" {place}" if place else ""
    words = (f": {where}" if where else "") + "." + (f" {question}" if question else "")
    return f"refused {number}{at}: {nostwier.MEANING[number]}{words} What to do: {nostwier.ADVICE[number]}."


KW_ASKED = "Is the unit right? Power is in kW: is a number here in MW or in W?"


# ---- The pairs: the shipped example first. A pair whose case is of a wrong length is parted elsewhere by the reference's
# program, so what is due is said here: 1.

pairs = {}
due = set()  # names of the pairs that are to be accepted
for path in [EXAMPLE / "small.case", *sorted((TOP / "tests" / "corpus" / "pairs").glob("*.case"))]:
    pairs[path.stem] = (path.read_bytes(), path.with_suffix(".cert").read_bytes())
    if path.with_suffix(".expected").read_bytes().startswith(b"cost "):
        due.add(path.stem)
whole = {
    name: (case, certificate) for name, (case, certificate) in pairs.items()
    if len(case) >= 4 and int.from_bytes(case[:4], "big") + 4 == len(case)
}
accepted = {}
met = set()  # refusal numbers


def answers():
    for name, (case, certificate) in whole.items():
        both = case + certificate
        expected = reference("charges", both)
        result = answer(nostwier.check_certificate, case, certificate)
        if isinstance(expected, tuple):
            met.add(expected[1])
            same(f"check of {name}", result, expected)
            same(f"prices of {name}", answer(nostwier.prices, case, certificate), expected)
            same(f"charges of {name}", answer(nostwier.charges, case, certificate), expected)
            continue
        accepted[name] = (case, certificate)
        charges = numbers(expected)
        same(f"charges of {name}", nostwier.charges(case, certificate), charges)
        printed = reference("check", both).decode().splitlines()
        same(f"check of {name}", [f"{key} {value}" for key, value in zip(result._fields, result)], printed[:3])
        prices = nostwier.prices(case, certificate)
        same(f"prices of {name}", prices.lmps + [price for zone in prices.zones for price in zone],
             numbers(reference("prices", both)))
        same(f"sum of the charges of {name}", sum(charges), result.gap)
    for name in sorted(pairs.keys() - whole.keys()):
        for call in (nostwier.check_certificate, nostwier.prices, nostwier.charges):
            same(f"{call.__name__} of {name}", answer(call, *pairs[name]), ("refused", 1, 0))
    same("accepted pairs", sorted(accepted), sorted(due))

    for name, (case, certificate) in pairs.items():
        expected = numbers(reference("read-case", case))
        same(f"numbers of the case {name}", answer(nostwier.read_case, case), expected)
        if isinstance(expected, tuple):
            met.add(expected[1])
            same(f"check of the case {name}", answer(nostwier.check_case, case), expected)
        else:
            same(f"check of the case {name}", answer(nostwier.check_case, case), None)
            same(f"the case {name} written", nostwier.write_case(expected), case)
        expected = numbers(reference("read-certificate", certificate))
        same(f"numbers of the certificate {name}", answer(nostwier.read_certificate, certificate), expected)
        if not isinstance(expected, tuple):
            same(f"the certificate {name} written", nostwier.write_certificate(expected), certificate)

    # Writers' refusals, against the reference: lists that are short, long or out of range.
    case, certificate = (call(file) for call, file in
                         zip((nostwier.read_case, nostwier.read_certificate), pairs["small"]))
    for what, call, good in (("case", nostwier.write_case, case), ("certificate", nostwier.write_certificate, certificate)):
        lists = [[], [1], [1, 1], [1, 1, 0], [0, 1, 0], [65, 1, 0], [1, 9, 0], [1, 1, 13], [-1, 1, 0], [2**40, 1, 0], good[:-1],
                 good + [0], good]
        # Numbers that no 64 bits hold are refused as the ends of those are: 16, but 3 before it.
        for trial, number in (([65, 1, 0, 2**70], 3), ([2**70, 1, 0], 3), ([1, -2**70, 0], 3), ([1, 1, 0, 2**70], 16),
                              (good[:9] + [2**70] + good[10:], 16), (good[:9] + [-2**70] + good[10:], 16)):
            same(f"{what} of the list {trial[:4]}.. beyond 64 bits", answer(call, trial), ("refused", number, 0))
        lists += [good[:place] + [number] + good[place + 1:]
                  for place in range(0, len(good), 7) for number in (-(2**63), -1, 0, 2**31, 2**32, 2**63 - 1)]
        for trial in lists:
            expected = reference(f"write-{what}", lines(trial))
            if isinstance(expected, tuple):
                met.add(expected[1])
            same(f"{what} of the list {trial[:4]}..", answer(call, trial), expected)


def refusals():
    # 15 is never met through the module, which lends enough; the library itself says it, and writes nothing then.
    case, certificate = pairs["small"]
    counts = nostwier.Counts.of_file(case)
    sizes = counts.sizes(case[4])
    case_numbers, certificate_numbers = nostwier.read_case(case), nostwier.read_certificate(certificate)
    for name, lent, item, size in (
        ("prices", (case, certificate), ctypes.c_int64, counts.prices), ("charges", (case, certificate), ctypes.c_int64, sizes.charges),
        ("read_case", (case,), ctypes.c_int64, sizes.case_numbers),
        ("read_certificate", (certificate,), ctypes.c_int64, sizes.certificate_numbers),
        ("write_case", ((ctypes.c_int64 * len(case_numbers))(*case_numbers),), ctypes.c_uint8, sizes.case_bytes),
        ("write_certificate", ((ctypes.c_int64 * len(certificate_numbers))(*certificate_numbers),), ctypes.c_uint8,
         sizes.certificate_bytes),
    ):
        words = [word for part in lent for word in (part, len(part))]
        for short, refusal in ((1, 15), (0, 0)):
            before = [7] * (size - short)
            room = (item * len(before))(*before)
            got = library.function(f"nostwier_{name}")(*words, room, len(room))
            second = got.count if hasattr(got, "count") else got.place
            same(f"{name} with a buffer {short} too short", (got.refusal, second, room[:] == before),
                 (refusal, size if hasattr(got, "count") and not refusal else 0, bool(refusal)))
            met.add(got.refusal)
    same("refusals that were met", sorted(met - {0}), list(range(1, 17)))

    # Each has its own words, which are the header's.
    listed = subprocess.run([SIZES, "refusals"], capture_output=True, check=True, text=True).stdout.splitlines()
    header = {int(number): words for number, *words in (line.split("\t") for line in listed)}
    for number in range(1, 18):
        same(f"the words of {number}", [nostwier.MEANING[number], nostwier.ADVICE[number]], header[number])
        meaning, advice = header[number]
        same(f"the text of {number}", str(nostwier.Refused(number)), f"refused {number}: {meaning}. What to do: {advice}.")
    same("refusals that have words", (sorted(nostwier.MEANING), sorted(nostwier.ADVICE)), (list(range(1, 18)), list(range(1, 18))))

    # Places in words: the quantity or row, both sides, and why.
    for name, number, place, where, question in (
        ("worked-e", 14, 13, "resource 1: e <= HI: e is 65,001 kW, and it must be at most HI, the initial energy 50,000 plus 5 minutes of "
                             "ramp up at 3,000 kW a minute: 65,000 kW; 1 kW is too many", ""),
        ("worked-f", 14, 1, "energy equals demand: the energy of all resources is 59,999 kW, and it must be equal to the demand: "
                            "60,000 kW; 1 kW is missing", ""),
        ("worked-g", 13, 5, "resource 1: energy e is 60,000 kW, and at most 0 kW is possible: it is off-line, because its estimated output "
                            "is 499 kW, and 500 kW or more (or -500 kW or less) is needed",
         "Is the unit right? Power is in kW: is the estimated output in MW?"),
        ("worked-i-15", 13, 5, "resource 1: energy e is 60,000 kW, and at most 0 kW is possible: it is tripped: it tripped 15 minutes "
                               "ago, and more than 15 are needed", ""),
        ("worked-tripped-short-term", 13, 9, "resource 1: off-line short-term o is 10,000 kW, and at most 0 kW is possible: it is tripped: it "
                                             "tripped 15 minutes ago, and more than 15 are needed", ""),
        ("worked-k-42858", 13, 7, "resource 1: contingency c is 42,858 kW, and at most 42,857 kW is possible: this is the ramp rate 3,000 kW "
                                  "a minute times the minutes 10 of contingency reserve, divided by its multiplier 700 / 1,000", ""),
        ("worked-self-schedule-below-hi", 14, 14, "resource 1: e >= LO: e is 64,999 kW, and it must be at least LO, the HI that the "
                                                  "self-schedule of 80,000 yields to: 65,000 kW; 1 kW is missing", ""),
        ("worked-self-schedule-below-max", 14, 14, "resource 1: e >= LO: e is 59,999 kW, and it must be at least LO, the MAX that the "
                                                   "self-schedule of 80,000 yields to: 60,000 kW; 1 kW is missing", ""),
        ("refused-13-07", 13, 7, "resource 1: contingency c is 1 kW, and at most 0 kW is possible: this is the share 0 / 1,000 of the "
                                 "market's contingency requirement 1,698,916 kW", ""),
        ("refused-14-15", 14, 15, "flowgate 2: the flow is 302,861.154 kW, and it must be at most the limit: 302,861.000 kW; 0.154 kW are "
                                  "too many", ""),
        ("refused-05-1", 5, 0, "demand is 128,000,001 kW, and not 0 to 128,000,000", KW_ASKED),
        ("refused-06-1", 6, 0, "curves.operating, the operating demand curve: the price 8 of step 2 is above the price 7 of step 1", ""),
        ("refused-07-1", 7, 0, "resources[0].economic of resource 1: the minimum is 155,783 kW, and the maximum 155,782 kW", ""),
        ("refused-10-1", 10, 0, "it has 3 resources, and the case has 2", ""),
        ("refused-12-3", 12, 0, "resources[1].row_prices.above_lo of resource 2 is 400,000,001 thousandths of a cent, and not 0 to "
                                "400,000,000", "Is the unit right? Prices here are in thousandths of a cent per MWh: is it in another unit?"),
        ("refused-01-2", 1, 0, "the file has 361 bytes, and its first four bytes announce 526", "Was it cut short by 165 bytes?"),
        ("refused-01-empty", 1, 0, "the file is empty", ""),
        ("refused-02-1", 2, 0, "its version is 0", ""),
    ):
        same(f"the refusal of {name}", refusal_of(nostwier.check_certificate, *pairs[name]), (number, place, where))
        same(f"the text of {name}", str(raised(nostwier.Refused, nostwier.check_certificate, *pairs[name])),
             text_of(number, where, question, place))
    twice = pairs["small"][0]  # one object, given as both
    same("a case given twice", raised(nostwier.Refused, nostwier.check_certificate, twice, twice).question,
         "Is it the wrong file? It has the form of a case, and a certificate is wanted.")
    for name, (case, certificate) in pairs.items():  # none is without words
        refusal = raised(nostwier.Refused, nostwier.check_certificate, case, certificate)
        check(f"the refusal of {name} says what it is about", refusal is None or refusal.where)


def records():
    for name, (case, certificate) in accepted.items():
        read = nostwier.Case.from_bytes(case)
        same(f"{name} by its record", read.to_bytes(), case)
        same(f"{name} by its dictionary", nostwier.Case.from_dict(read.to_dict()), read)
        same(f"{name} by JSON", nostwier.Case.from_json(read.to_json()).to_bytes(), case)
        same(f"the counts of {name}", read.counts, nostwier.Counts.of_file(case))
        same(f"the version of {name}", read.version, case[4])
        made = nostwier.Certificate.from_bytes(certificate)
        same(f"certificate {name} by its record", made.to_bytes(), certificate)
        same(f"certificate {name} by JSON", nostwier.Certificate.from_json(made.to_json()).to_bytes(), certificate)
        same(f"the version of the certificate {name}", made.version, certificate[4])
        same(f"the rows of {name}", len(made.prices_of_rows()), made.counts.sizes(made.version).rows)

    # The paper's worked interval from a dictionary, with everything left out that is 0.
    reserve = {"multiplier": 1000, "minutes": 10}
    k = {
        "demand": 60_000, "reserves": {"contingency": reserve, "regulating": reserve, "short_term": reserve}, "zones": [{}],
        "resources": [{
            "kind": "conventional", "zone": 1, "breaker": "closed", "estimated_output": 50_000,
            "economic": {"minimum": 20_000, "maximum": 100_000}, "ramp_up": 3_000, "ramp_down": 3_000, "ramp_rate": 3_000,
            "initial_energy": 50_000,
            "energy_steps": [{"width": 40_000, "price": 2_000}, {"width": 60_000, "price": 3_000}],
        }],
    }
    q = {"row_prices": {"energy": 3_000_000, "zones": [{}]}, "resources": [{"e": 60_000}]}
    same("the worked interval", (nostwier.Case.from_dict(k).to_bytes(), nostwier.Certificate.from_dict(q).to_bytes()), pairs["worked-a"])
    case, certificate = nostwier.Case.from_dict(k), nostwier.Certificate.from_dict(q)
    case.demand = certificate.resources[0].e = 65_000
    certificate.row_prices.energy = 3_500_000
    certificate.resources[0].row_prices.within_hi = 500_000
    same("(d) of the worked interval", nostwier.check_certificate(case.to_bytes(), certificate.to_bytes()),
         (155_000_000_000, 155_000_000_000, 0))

    # What is wrong with a dictionary is said with its place.
    def misfiled(what, words, change, record=nostwier.Case, source=k):
        data = copy.deepcopy(source)
        change(data)
        same(what, str(raised(nostwier.Misfiled, lambda: record.from_dict(data).to_bytes())), words)

    misfiled("a field too many",
             "resources[0]: there is no field 'ramp_upp'; the fields are kind, zone, breaker, estimated_output, economic, ramp_up, "
             "ramp_down, ramp_rate, initial_energy, energy_steps, name, status, minutes_since_trip, flags, regulating, emergency, "
             "off_line_response_limit, off_line_short_term_limit, self_schedule, regulating_price, contingency_price, "
             "off_line_short_term_price", lambda d: d["resources"][0].update(ramp_upp=1))
    misfiled("a missing field", "resources[0]: the field 'ramp_up' is missing; it is a field of Resource", lambda d: d["resources"][0].pop("ramp_up"))
    misfiled("a fraction", f"demand: a whole number is wanted, not 60000.5 ({UNIT_HELP})", lambda d: d.update(demand=60000.5))
    misfiled("a truth value", "demand: a whole number is wanted, not true", lambda d: d.update(demand=True))
    misfiled("a wrong kind", "resources[0].kind: there is no 'nuclear'; the names are conventional, intermittent, external_asynchronous",
             lambda d: d["resources"][0].update(kind="nuclear"))
    misfiled("a wrong flag",
             "resources[0].flags[1]: there is no \"spinnig\"; the names are regulating, spinning, off_line_supplemental, "
             "off_line_short_term, emergency_maximum_released, self_scheduled, emergency_minimum_released, on_line_short_term",
             lambda d: d["resources"][0].update(flags=["regulating", "spinnig"]))
    misfiled("a price without its name", "resources[0].energy_steps[0]: a dictionary is wanted, with width, price",
             lambda d: d["resources"][0].update(energy_steps=[[40_000, 2_000]]))
    misfiled("eleven steps", "resources[0].energy_steps: at most 10 are possible, not 11",
             lambda d: d["resources"][0].update(energy_steps=[{"width": 1, "price": 1}] * 11))
    misfiled("factors too few", "flowgates[0].shift_factors: 1 are wanted, one for each resource",
             lambda d: d.update(flowgates=[{"limit": 1, "shift_factors": []}]))
    misfiled("a row price by a wrong name",
             "resources[0].row_prices: there is no field 'HI'; the fields are within_max, short_term_within_max, above_min, within_hi, "
             "above_lo",
             lambda d: d["resources"][0].update(row_prices={"HI": 1}), nostwier.Certificate, q)
    same("a text that is no JSON", str(raised(nostwier.Misfiled, nostwier.Case.from_json, "{")),
         f"the text is no JSON: {raised(json.JSONDecodeError, json.loads, '{')}")
    for wrong, name in (("a text", "str"), (None, "NoneType"), (5, "int")):
        same(f"{wrong!r} is no file", str(raised(TypeError, nostwier.check_case, wrong)),
             f"a file is wanted as bytes, or a Case or Certificate, not {name}")

    # Rules of steps and of limits, with their place.
    def refused(what, number, where, change):
        data = copy.deepcopy(k)
        change(data["resources"][0], data)
        same(what, refusal_of(lambda: nostwier.Case.from_dict(data).to_bytes()), (number, 0, where))

    step = lambda width, price: {"width": width, "price": price}
    steps = "resources[0].energy_steps of resource 1: "
    refused("falling energy prices", 6, steps + "the price 1 of step 2 is below the price 2 of step 1",
            lambda r, d: r.update(energy_steps=[step(1, 2), step(1, 1)]))
    refused("a step of width 0 before others", 6, steps + "step 1 has width 0, and steps after it have not",
            lambda r, d: r.update(energy_steps=[step(0, 0), step(1, 1)]))
    refused("a step of width 0 with a price", 6, steps + "step 1 has width 0 and price 1", lambda r, d: r.update(energy_steps=[step(0, 1)]))
    refused("energy widths above 2,000,000", 6, steps + "the widths sum to 2,000,001 kW, and 2,000,000 is the most",
            lambda r, d: r.update(energy_steps=[step(2_000_000, 1), step(1, 1)]))
    refused("rising curve prices", 6, "curves.regulating, the regulating demand curve: the price 2 of step 2 is above the price 1 of step 1",
            lambda r, d: d.update(curves={"regulating": [step(1, 1), step(1, 2)]}))
    for pair in ("economic", "regulating", "emergency"):
        refused(f"a {pair} minimum above its maximum", 7,
                f"resources[0].{pair} of resource 1 (Alta): the minimum is 2 kW, and the maximum 1 kW",
                lambda r, d, pair=pair: r.update({pair: {"minimum": 2, "maximum": 1}}, name="Alta"))


def order():
    """Fields that all differ stand in the file in the paper's order, which is written out here."""
    step = lambda width, price: {"width": width, "price": price}
    case = nostwier.Case.from_dict({
        "demand": 1001,
        "reserves": {
            "short_term": {"multiplier": 1006, "minutes": 7, "share": 10, "requirement": 1013},
            "regulating": {"multiplier": 1004, "minutes": 5, "share": 8, "requirement": 1011},
            "contingency": {"multiplier": 1002, "minutes": 3, "share": 9, "requirement": 1012},
        },
        "curves": {
            "short_term": [step(1020, 620), step(1021, 619)], "regulating": [step(1018, 618)],
            "regulating_plus_spinning": [step(1016, 616)], "operating": [step(1014, 615), step(1015, 614), step(1, 3), step(2, 1)],
        },
        "zones": [{"short_term": 1034, "regulating": 1033, "regulating_plus_spinning": 1032, "operating": 1031},
                  {"short_term": 1038, "regulating": 1037, "regulating_plus_spinning": 1036, "operating": 1035}],
        "resources": [{
            "kind": "external_asynchronous", "zone": 2, "breaker": "closed", "status": ["available", "on_line_supplemental"],
            "minutes_since_trip": 44, "flags": ["spinning", "off_line_supplemental", "self_scheduled", "on_line_short_term"],
            "estimated_output": -1050, "economic": {"minimum": 1051, "maximum": 1052},
            "regulating": {"minimum": 1053, "maximum": 1054}, "emergency": {"minimum": 1055, "maximum": 1056},
            "ramp_up": 1057, "ramp_down": 1058, "ramp_rate": 1059, "initial_energy": 1060, "off_line_response_limit": 1061,
            "off_line_short_term_limit": 1062, "self_schedule": 1063, "regulating_price": 1064, "contingency_price": 1065,
            "off_line_short_term_price": 1066, "energy_steps": [step(1070, -1071), step(1072, 1073)],
        }],
        "flowgates": [{"limit": -1080, "shift_factors": [-81]}, {"limit": 1082, "shift_factors": [83]}],
    })
    none = [0, 0]
    same("the order of a case", nostwier.read_case(case.to_bytes()), [
        1, 2, 2, 1001, 1002, 3, 1004, 5, 1006, 7, 8, 9, 10, 1011, 1012, 1013,
        1014, 615, 1015, 614, 1, 3, 2, 1, 1016, 616, *none * 3, 1018, 618, *none * 3, 1020, 620, 1021, 619, *none * 2,
        1031, 1032, 1033, 1034, 1035, 1036, 1037, 1038,
        3, 2, 1, 10, 44, 166, -1050, 1051, 1052, 1053, 1054, 1055, 1056, 1057, 1058, 1059, 1060, 1061, 1062, 1063, 1064, 1065, 1066,
        1070, -1071, 1072, 1073, *none * 8, -1080, -81, 1082, 83])
    certificate = nostwier.Certificate.from_dict({
        "cleared": {"short_term": 14, "regulating": 13, "regulating_plus_spinning": 12, "operating": 11},
        "row_prices": {
            "flowgates": [28, 29], "energy": -15, "market": {"short_term": 19, "regulating": 18, "regulating_plus_spinning": 17, "operating": 16},
            "zones": [{"short_term": 23, "regulating": 22, "regulating_plus_spinning": 21, "operating": 20},
                      {"short_term": 27, "regulating": 26, "regulating_plus_spinning": 25, "operating": 24}],
        },
        "resources": [{"o": 34, "s": 33, "c": 32, "g": 31, "e": 30, "row_prices": {
            "e >= LO": 39, "e <= HI": 38, "e-g >= MIN": 37, "e+s <= MAX": 36, "e+g+c <= MAX": 35}}],
    })
    same("the order of a certificate", nostwier.read_certificate(certificate.to_bytes()), [1, 2, 2, 11, 12, 13, 14, -15, *range(16, 40)])
    same("the prices of its rows", certificate.prices_of_rows(), [-15, *range(16, 30), *range(35, 40)])
    # Every bit by its name.
    for names, bits in ((nostwier.Status, "committed available active_schedule on_line_supplemental"),
                        (nostwier.Flags, "regulating spinning off_line_supplemental off_line_short_term emergency_maximum_released "
                                         "self_scheduled emergency_minimum_released on_line_short_term")):
        same(f"the bits of {names.__name__}", [(bit.name, bit.value) for bit in names], [(name, 1 << i) for i, name in enumerate(bits.split())])
    same("the kinds", [(kind.name, kind.value) for kind in nostwier.Kind],
         [("conventional", 1), ("intermittent", 2), ("external_asynchronous", 3)])


def exchanged(record, where, value):
    """Puts a value into the field that is named; returns what stood there."""
    *path, last = (int(word) if word.isdecimal() else word for word in re.findall(r"\w+", where))
    for key in path:
        record = record[key] if isinstance(key, int) else getattr(record, key)
    if isinstance(last, int):
        before, record[last] = record[last], value
    else:
        before = getattr(record, last)
        setattr(record, last, value)
    return before


def ranges():
    """Past an end of its range each field is refused, and named; at its ends it is not refused for that. Which number is due
    then (5 or 16; 6, 7 or none), the reference says."""
    case = nostwier.Case.from_bytes(pairs["small"][0])
    for steps, most in [(steps, 4) for steps in case.curves] + [(resource.energy_steps, 10) for resource in case.resources]:
        steps += [nostwier.Step(0, 0) for _ in range(most - len(steps))]  # so that each field has a place in the record
    good = case.numbers()
    same("the numbers of a case", good, nostwier.read_case(pairs["small"][0]))
    for place, field in enumerate(case.fields()):
        if place < 3:
            continue
        for number, inside in ((field.least, True), (field.most, True), (field.least - 1, False), (field.most + 1, False)):
            trial = good[:place] + [number] + good[place + 1:]
            got = answer(nostwier.write_case, trial)
            same(f"{field.where} at {number:,}", got, reference("write-case", lines(trial)))
            check(f"{field.where} at {number:,} is {'inside' if inside else 'outside'}: {_short(got)}",
                  (isinstance(got, tuple) and got[1] in (5, 16)) != inside)
            if not inside:
                before = exchanged(case, field.where, number)
                item = re.search(r"(resource|zone|flowgate)s\[(\d+)\]", field.where)
                of, unit = f" of {item[1]} {int(item[2]) + 1}" if item else "", f" {field.unit}" if field.unit else ""
                same(f"{field.where} at {number:,} in words", refusal_of(case.to_bytes),
                     (got[1], 0, f"{field.where}{of} is {number:,}{unit}, and not {field.least:,} to {field.most:,}"))
                exchanged(case, field.where, before)

    # The same ends, written out, with the question that is asked.
    cents = "Is the unit right? Prices here are in cents per MWh: is it in dollars, or in thousandths of a cent?"
    negative = "Is its sign the wrong way round? No negative {} is possible here."
    for number, where, question, change in (
        (5, "demand is 128,000,001 kW, and not 0 to 128,000,000", KW_ASKED, lambda c: setattr(c, "demand", 128_000_001)),
        (5, "resources[4].zone of resource 5 is 3, and not 1 to 2", "", lambda c: setattr(c.resources[4], "zone", 3)),
        (16, "resources[3].flags of resource 4 is 256, and not 0 to 255", "", lambda c: setattr(c.resources[3], "flags", 256)),
        (5, "flowgates[2].shift_factors[9] of flowgate 3 is 1,001 thousandths, and not -1,000 to 1,000",
         "Is the unit right? It is in thousandths: is it in another unit?", lambda c: c.flowgates[2].shift_factors.__setitem__(9, 1001)),
        (5, "reserves.contingency.minutes is 61, and not 1 to 60", "", lambda c: setattr(c.reserves.contingency, "minutes", 61)),
        (5, "curves.short_term[1].price is 400,001 cents per MWh, and not 0 to 400,000", cents,
         lambda c: setattr(c.curves.short_term[1], "price", 400_001)),
        (16, "zones[1].regulating of zone 2 is -1 kW, and not 0 to 2,000,000", negative.format("number"),
         lambda c: setattr(c.zones[1], "regulating", -1)),
        (16, "resources[0].contingency_price of resource 1 is -210 cents per MWh, and not 0 to 400,000", negative.format("price"),
         lambda c: setattr(c.resources[0], "contingency_price", -210)),
        (3, "the number of zones is 9, and not 1 to 8", "", lambda c: setattr(c, "zones", c.zones[:1] * 9)),
        (3, "the number of flowgates is 13, and not 0 to 12", "", lambda c: setattr(c, "flowgates", c.flowgates[:1] * 13)),
        (5, "resources[2].ramp_rate of resource 3 is 30,000,000 kW a minute, and not 0 to 400,000",
         "Is the unit right? Ramps are in kW a minute: is a number here in MW, or for five minutes or an hour?",
         lambda c: setattr(c.resources[2], "ramp_rate", 30_000_000)),
        # 16 is about what no bytes hold, though an earlier field is outside its range.
        (16, "resources[3].flags of resource 4 is 256, and not 0 to 255", "",
         lambda c: (setattr(c, "demand", 128_000_001), setattr(c.resources[3], "flags", 256))),
    ):
        changed = nostwier.Case.from_bytes(pairs["small"][0])
        change(changed)
        same(where, str(raised(nostwier.Refused, changed.to_bytes)), text_of(number, where, question))

    # In a file a negative number is one above the range: the words ask for its sign.
    file = bytearray(pairs["small"][0])
    file[202 + 66:202 + 70] = (-210).to_bytes(4, "big", signed=True)  # resource 1, price of c
    where = "resources[0].contingency_price of resource 1 is 4,294,967,086 cents per MWh, and not 0 to 400,000"
    question = "Its four bytes are -210 as a signed number. " + negative.format("price")
    same("a negative price in a file", str(raised(nostwier.Refused, nostwier.check_case, file)), text_of(5, where, question))
    certificate = bytearray(pairs["small"][1])
    certificate[28:32] = (-175_000).to_bytes(4, "big", signed=True)  # row 2
    same("a price of the wrong sign in a file", str(raised(nostwier.Refused, nostwier.check_certificate, pairs["small"][0], certificate)),
         text_of(12, "row_prices.market.operating is 4,294,792,296 thousandths of a cent, and not 0 to 400,000,000",
                 "Its four bytes are -175,000 as a signed number. Is its sign the wrong way round? The price of every row but row 1 is 0 "
                 "or more, whichever way the solver counts: write it without the minus."))


LABELS = nostwier.row_labels, nostwier.charge_labels, nostwier.quantity_labels


def labels():
    # The C host lists the same charges in the same words.
    for name, (case, certificate) in accepted.items():
        folder = EXAMPLE if name == "small" else TOP / "tests" / "corpus" / "pairs"
        printed = subprocess.run([HOST, folder / f"{name}.case", folder / f"{name}.cert", "100000"], capture_output=True, check=True,
                                 text=True).stdout
        listing = printed[printed.index("charges above 0"):].splitlines()[1:]
        counts = nostwier.Counts.of_file(case)
        listed = [c for c in nostwier.listed_charges(counts, nostwier.charges(case, certificate), version=case[4]) if c.grains > 0]
        same(f"the charges of {name} in words",
             [f"{c.grains:>22} grains  ${nostwier.dollars(c.grains, 9):f}  {c.label}" for c in listed], listing)
        sizes = counts.sizes(case[4])
        same(f"labels of {name}", [len(label(counts, version=case[4])) for label in LABELS],
             [sizes.rows, sizes.charges, {1: 4 + 5 * counts.resources}[case[4]]])
    counts = nostwier.Counts(2, 2, 1)
    rows = nostwier.row_labels(counts, Names(zones=["North", ""], resources=["", "Wind"], flowgates=["Tie"]))
    same("rows in words", [rows[number - 1] for number in (1, 2, 5, 6, 13, 14, 15, 24)], [
        "energy equals demand", "market-wide operating reserve", "market-wide short-term reserve", "zone 1 (North): operating reserve",
        "zone 2: short-term reserve", "flowgate 1 (Tie)", "resource 1: e+g+c <= MAX", "resource 2 (Wind): e >= LO"])
    charges = nostwier.charge_labels(counts)
    same("charges in words", [charges[number - 1] for number in (1, 25, 34, 35, 38, 39, 52, 53, 68)], [
        "row 1, energy equals demand", "resource 1: energy step 1", "resource 1: energy step 10", "resource 1: regulating g",
        "resource 1: off-line short-term o", "resource 2: energy step 1", "resource 2: off-line short-term o", "operating curve: step 1",
        "short-term curve: step 4"])


def gone_through():
    """What there is for each curve, or for each row of a resource, is gone through in their order, without a name."""
    for made, values in ((nostwier.ByCurve(1, 2, 3, 4), [1, 2, 3, 4]), (nostwier.Zone(1, 2, 3, 4, "North"), [1, 2, 3, 4]),
                         (nostwier.Curves([1], [2], [3], [4]), [[1], [2], [3], [4]]), (nostwier.ResourceRows(1, 2, 3, 4, 5), [1, 2, 3, 4, 5])):
        same(f"what a {type(made).__name__} has", list(made), values)


def versions():
    """Sizes by version are the header's; of a version that is not known there is nothing."""

    def printed(*words):
        return [int(word) for word in subprocess.run([SIZES, *map(str, words)], capture_output=True, check=True).stdout.split()]

    unknown = (-1, 0, layout.FILE_VERSIONS[-1] + 1, 255, 256, 257)
    same("the versions are the header's", list(layout.FILE_VERSIONS), printed("versions"))
    for counts in (layout.LEAST, nostwier.Counts(3, 2, 1), nostwier.Counts(10, 8, 5), layout.MOST):
        for version in (*layout.FILE_VERSIONS, *unknown):
            *sizes, rows, charges = counts.sizes(version)
            same(f"sizes of {counts} in version {version}", [*sizes, rows, counts.prices, charges], printed(version, *counts))
        same(f"sizes of {counts} without a version",
             [counts.case_bytes, counts.certificate_bytes, counts.case_numbers, counts.certificate_numbers, counts.rows, counts.prices,
              counts.charges], printed(1, *counts))
        for version in unknown:
            same(f"labels of version {version}", [label(counts, version=version) for label in LABELS], [[], [], []])
    *sizes, rows, charges = layout.LARGEST
    same("the sizes of the largest case", [*sizes, rows, layout.MOST.prices, charges], printed("most"))
    same("versions that were met", sorted({file[4] for pair in accepted.values() for file in pair}), list(layout.FILE_VERSIONS))


def unknown_versions():
    """A file of a version that is not known is refused by the library, and a record of one is not written."""
    case, certificate = pairs["small"]
    for version in (0, layout.FILE_VERSIONS[-1] + 1, 255):
        other_case, other_certificate = (file[:4] + bytes([version]) + file[5:] for file in (case, certificate))
        where = f"its version is {version}"
        for number, call, *files in (
            (2, nostwier.check_case, other_case), (2, nostwier.read_case, other_case), (2, nostwier.Case.from_bytes, other_case),
            (2, nostwier.check_certificate, other_case, other_certificate), (9, nostwier.check_certificate, case, other_certificate),
            (9, nostwier.charges, case, other_certificate), (9, nostwier.read_certificate, other_certificate),
            (9, nostwier.Certificate.from_bytes, other_certificate),
        ):
            same(f"{call.__qualname__} in version {version}", refusal_of(call, *files), (number, 0, where))
        swapped = raised(nostwier.Refused, nostwier.check_certificate, other_certificate, other_case)
        check(f"files of version {version} swapped", "Are the files swapped?" in str(swapped))
        for number, record, file, other in ((2, nostwier.Case, case, other_case), (9, nostwier.Certificate, certificate, other_certificate)):
            read = record.from_bytes(file)
            check(f"{record.__name__} of version {version} unjudged", raised(ValueError, record.unjudged, other))
            check(f"the version is no field of a {record.__name__}'s source", "version" not in read.to_dict())
            read.version = version
            same(f"{record.__name__} written in version {version}", refusal_of(read.to_bytes), (number, 0, where))


# Versions 2 and 3 as they might be: lines of the module, and what stands in their place. A curve, a flag byte and a quantity are
# new with version 2, and version 3 has no emergency minimum.
LATER = (
    ("layout.py", "FILE_VERSIONS: Tuple[int, ...] = (1,)", "FILE_VERSIONS: Tuple[int, ...] = (1, 2, 3)"),
    ("layout.py", '    Listed("short_term", "short-term"),\n', '    Listed("short_term", "short-term"),\n    Listed("up", "up", (2, 3)),\n'),
    ("layout.py", "ZONE_REQUIREMENTS = CURVES ", "ZONE_REQUIREMENTS = CURVES[:4] "),
    ("layout.py", '    Listed("o", "off-line short-term o"),\n', '    Listed("o", "off-line short-term o"),\n    Listed("u", "up u", (2, 3)),\n'),
    ("layout.py", '        Entry("ramp_up",', '        Entry("second_flags", "B", 0, 3, "", (2, 3)),\n        Entry("ramp_up",'),
    ("layout.py", '        Entry("emergency.minimum", "I", 0, POWER, KW),', '        Entry("emergency.minimum", "I", 0, POWER, KW, (1, 2)),'),
    ("records.py", '    """The four demand curves."""\n\n', '    up: List[Step] = _field(STEPS_OF_CURVE, list)\n'),
    ("records.py", '    """Quantities in kW, or prices in thousandths of a cent."""\n\n', '    up: int = _field(WHOLE, 0)\n'),
    ("records.py", "    self_schedule: int = _field(WHOLE, 0)\n", "    self_schedule: int = _field(WHOLE, 0)\n    second_flags: int = _field(WHOLE, 0)\n"),
    ("records.py", "    o: int = _field(WHOLE, 0)\n", "    o: int = _field(WHOLE, 0)\n    u: int = _field(WHOLE, 0)\n"),
)
LATER_FILES = """
import struct, sys
from nostwier import Case, Certificate, Step, charge_labels, layout, row_labels
for version in (1, 2, 3):
    for record, path in ((Case, sys.argv[1]), (Certificate, sys.argv[2])):
        filed = record.unjudged(open(path, "rb").read())
        filed.version = version
        if record is Case:
            filed.curves.up = [Step(7, 5)] if version > 1 else []
        else:
            filed.cleared.up, filed.row_prices.market.up = (6, 4) if version > 1 else (0, 0)
        for resource in filed.resources:
            if record is Case:
                resource.second_flags = 3 if version > 1 else 0
                resource.emergency.minimum = 5 if version < 3 else 0
            else:
                resource.u = 77 if version > 1 else 0
        sizes, before = filed.counts.sizes(version), filed.counts.sizes(1)
        size, letters = getattr(sizes, record.FILE + "_bytes"), layout.letters(record.FILE, filed.counts, version)
        file = struct.pack(">IB" + letters, size - 4, version, *filed.numbers())
        names = [place.where[13:] for place in layout.places(record.FILE, filed.counts, version) if place.where.startswith("resources[1].")]
        print(version, record.FILE, *[now - then for now, then in zip(sizes, before)], *names[5 if record is Certificate else 11:][:3])
        assert size == len(file) and record.unjudged(file) == filed and not list(filed.misfits())
        assert getattr(sizes, record.FILE + "_numbers") == len(letters) == len(filed.numbers())
    labels = row_labels(filed.counts, version=version)
    assert (len(labels), len(filed.prices_of_rows())) == (sizes.rows, sizes.rows)
    assert (labels[5:6] == ["market-wide up reserve"]) == (filed.prices_of_rows()[5:6] == [4]) == (version > 1)
    assert len(charge_labels(filed.counts, version=version)) == sizes.charges
assert layout.LARGEST == tuple(max(layout.MOST.sizes(version)[which] for version in (1, 2, 3)) for which in range(len(sizes)))
"""


def later_versions():
    """A curve, field or quantity that some versions alone have is a line of a table and a field of the record, and no more."""
    with tempfile.TemporaryDirectory() as folder:
        subprocess.run(["cp", "-r", Path(layout.__file__).parent, folder], check=True)
        for file, old, new in LATER:
            path = Path(folder) / "nostwier" / file
            text = path.read_text(encoding="utf-8")
            same(f"the line of {file}: {old.strip()}", text.count(old), 1)
            path.write_text(text.replace(old, new), encoding="utf-8")
        done = subprocess.run([sys.executable, "-c", LATER_FILES, EXAMPLE / "small.case", EXAMPLE / "small.cert"], capture_output=True,
                              text=True, check=False, env={**os.environ, "PYTHONPATH": folder})
    r = nostwier.Counts.of_file(pairs["small"][0]).resources
    wanted = []
    for version, sizes, in_case, in_certificate in (
        (1, (0, 0, 0, 0, 0, 0), "emergency.minimum emergency.maximum ramp_up", "row_prices.within_max row_prices.short_term_within_max row_prices.above_min"),
        (2, (32 + r, 8 + 4 * r, 8 + r, 2 + r, 1, 5 + r), "emergency.minimum emergency.maximum second_flags", "u row_prices.within_max row_prices.short_term_within_max"),
        (3, (32 - 3 * r, 8 + 4 * r, 8, 2 + r, 1, 5 + r), "emergency.maximum second_flags ramp_up", "u row_prices.within_max row_prices.short_term_within_max"),
    ):
        for file, names in (("case", in_case), ("certificate", in_certificate)):
            wanted.append(" ".join(map(str, (version, file, *sizes, names))))
    same("files of later versions", (done.stdout.splitlines(), done.stderr), (wanted, ""))


def units():
    same("a half", str(nostwier.dollars(600, 6)), "0.000001")
    for grains, text in ((1_200_000_000, "1.000000"), (0, "0.000000"), (-600_000_000, "-0.500000"), (1_200, "0.000001"), (1, "0.000000")):
        same(f"{grains} grains", str(nostwier.dollars(grains)), text)
    same("rounded up", str(nostwier.dollars(1, 6, "up")), "0.000001")
    same("rounded down", str(nostwier.dollars(1199, 6, "down")), "0.000000")
    same("the largest", str(nostwier.dollars(2**63 - 1, 9)), "7686143364.045646506")
    same("the least", str(nostwier.dollars(-(2**63), 9)), "-7686143364.045646507")


def run(*words, **environment):
    """The command in a process of its own: status, output, errors."""
    done = subprocess.run([sys.executable, "-m", "nostwier", *map(str, words)], capture_output=True, text=True, check=False,
                          env={**os.environ, **environment})
    return done.returncode, done.stdout, done.stderr


def commands():
    case, certificate = EXAMPLE / "small.case", EXAMPLE / "small.cert"
    demo = (TOP / "tests" / "example" / "demo.expected").read_text(encoding="utf-8")
    shown = demo.split("quantities that carry it:\n\n")[1].split("\nA charge is a price")[0]
    same("explain prints the part of the demo", run("explain", case, certificate, "--names", EXAMPLE / "small.json"), (0, shown, ""))
    table = [line.split(None, 2) for line in shown.splitlines() if "%  " in line]
    charges = nostwier.charges(case.read_bytes(), certificate.read_bytes())
    same("the table's dollars", [line[0] for line in table],
         [f"{nostwier.dollars(number, 9):f}" for number in sorted(filter(None, charges), reverse=True)])
    nameless = re.sub(r"(resource|flowgate) (\d) \([^)]*\)", r"\1 \2", shown)
    same("explain without names", run("explain", case, certificate), (0, nameless, ""))
    first = nameless.splitlines()[:-2]
    same("the rest of the charges is summed up", run("explain", case, certificate, "--most", 1),
         (0, "\n".join([*first, "             0.000134440    5.7%  2 smaller ones", ""]), ""))
    same("prices and amounts behind the charges", [line.split("charge of")[-1].split(": ")[-1] for line in nameless.splitlines()[-3:]], [
        "9,384 kW of slack at 0.00283 $/MWh", "2 kW used at a net price of 0.72845 $/MWh", "0.014 kW of slack at 11.17 $/MWh"])
    same("the largest of the charges", first[-1],
         "             0.002213060   94.3%  row 20, resource 1: e <= HI: 9,384 kW of slack at 0.00283 $/MWh")
    same("a gap of 0", explain(*pairs["worked-a"]).splitlines()[4:],
         ["", "demand 60.000 MW; 1 of 1 resources on-line, which can give 35.000 to 65.000 MW", "energy offers 20.00 to 30.00 $/MWh",
          "LMPs 30.00000 to 30.00000 $/MWh", "", "No schedule of this case is cheaper than this one: the gap is 0, and so is every charge."])
    same("the sentence to publish", run("cite", case, certificate), (
        0, "The schedule costs -$18,845.297440 in the five-minute interval, and no schedule of the case, in whole kilowatts\n"
           "within its limits and rows, is cheaper by more than $0.002348 (rounded up).\n"
           "The sentence is about the case as filed: what was rounded on the way into it (shift factors to thousandths, power to kW,\n"
           "prices to cents) is no part of the gap.\n"
           f"Checked by Nostwier {library.VERSION}.\n"
           f"Case SHA-256 {hashlib.sha256(case.read_bytes()).hexdigest()}\n"
           f"Certificate SHA-256 {hashlib.sha256(certificate.read_bytes()).hexdigest()}\n", ""))
    header = (TOP / "include" / "nostwier.h").read_text(encoding="utf-8")
    same("the version is the header's", re.findall(r'^#define NOSTWIER_VERSION "(.*)"$', header, re.MULTILINE), [library.VERSION])
    needs = "the file has {} bytes, and 10 resources, 2 zones and 3 flowgates need {}"
    for command in ("check", "explain", "prices", "cite"):
        same(f"{command} of a case given twice", run(command, case, case), (
            1, "", f"nostwier: {text_of(11, needs.format('1,814', 488), 'Is it the wrong file? It has the form of a case, and a certificate is wanted.')}\n"))
        same(f"{command} of swapped files", run(command, certificate, case), (
            1, "", f"nostwier: {text_of(4, needs.format(488, '1,814'), 'Are the files swapped? This one has the form of a certificate, and the other one that of a case.')}\n"))
        same(f"{command} of a certificate given twice", run(command, certificate, certificate), (
            1, "", f"nostwier: {text_of(4, needs.format(488, '1,814'), 'Is it the wrong file? It has the form of a certificate, and a case is wanted.')}\n"))
    short = pairs["worked-a"][1], pairs["worked-a"][0]  # a certificate below 170 bytes
    check("swapped files of a small case", "Are the files swapped?" in str(raised(nostwier.Refused, nostwier.check_certificate, *short)))
    for words, why in (
        (("nothing",), f"there is no command 'nothing'; the commands are {', '.join(COMMANDS)}"),
        (("explain", case, EXAMPLE / "none"), f"cannot read '{EXAMPLE / 'none'}': No such file or directory"),
        (("explain", EXAMPLE, certificate), f"cannot read '{EXAMPLE}': Is a directory"),
        (("write-case", EXAMPLE / "small.json", EXAMPLE), f"cannot write '{EXAMPLE}': Is a directory"),
        (("write-case", EXAMPLE / "small.json", "/dev/full"), "cannot write '/dev/full': No space left on device"),
        ((), f"a command is wanted: {', '.join(COMMANDS)}; see 'nostwier --help'"),
    ):
        same(f"misuse {words}", run(*words), (2, "", f"nostwier: {why}\n"))
    for words in (("explain", case), ("explain", case, certificate, "--names"), ("explain", case, certificate, "--most", "x"), ("read-case",),
                  ("write-case", case, case, case), ("explain", case, certificate, "--x"), ("--x",), ("explain", "--json", "--csv", case, certificate),
                  ("cite", case, certificate, "--csv"), ("check", case, certificate, "--js")):
        status, output, errors = run(*words)
        check(f"misuse {words}: {status}, {output!r}, {errors!r}",
              (status, output) == (2, "") and re.fullmatch(r"nostwier: [^\n]+; see 'nostwier( [a-z-]+)? --help'\n", errors))

    # Help of the whole and of each command says the exit statuses; the version.
    status = "Exit status: 0 accepted or done, 1 a file is refused or a source is wrong, 2 wrong use, or a file or the machine at fault."
    top = run("--help")
    same("help", (top, top[0], top[2]), (run("-h"), 0, ""))
    for command in COMMANDS:
        check(f"help lists {command}", re.search(rf"^    {command}( |$)", top[1], re.MULTILINE))
        shown = run(command, "--help")
        check(f"help of {command}: {shown}", shown[0] == 0 and not shown[2] and status in " ".join(shown[1].split())
              and shown[1].startswith(f"usage: nostwier {command} "))
    check("help says the exit statuses", status in " ".join(top[1].split()))
    same("the version", run("--version"), (0, f"nostwier {nostwier.__version__}\n", ""))
    same("the version is the library's", nostwier.__version__, library.VERSION)

    # Output that cannot be written: a line and status 2, no traceback.
    for command in (("explain", case, certificate), ("--help",)):
        with open("/dev/full", "wb") as full:
            done = subprocess.run([sys.executable, "-m", "nostwier", *map(str, command)], stdout=full, stderr=subprocess.PIPE, check=False)
        same(f"{command[0]} to a full disk", (done.returncode, done.stderr), (2, b"nostwier: cannot print: No space left on device\n"))
    reader, writer = os.pipe()
    os.close(reader)
    with open(writer, "wb") as pipe:
        done = subprocess.run([sys.executable, "-m", "nostwier", "explain", case, certificate], stdout=pipe, stderr=subprocess.PIPE, check=False)
    same("a closed pipe", (done.returncode, done.stderr), (2, b"nostwier: cannot print: Broken pipe\n"))
    done = subprocess.run(["bash", "-c", f"exec '{sys.executable}' -m nostwier cite '{case}' '{certificate}' >&-"], stderr=subprocess.PIPE, check=False)
    check(f"no standard output: {done}", done.returncode == 2 and done.stderr.startswith(b"nostwier: cannot print: ") and done.stderr.count(b"\n") == 1)

    # A fault of a command is a line; a command is an entry of COMMANDS.
    for action, expected in (("1 / 0", (2, "", "nostwier: a fault of this command, and not of the files: ZeroDivisionError: division by zero\n")),
                             ("'done\\n'", (0, "done\n", "")), ("[][0]", None), ("(_ for _ in ()).throw(KeyboardInterrupt())", (2, "", "nostwier: interrupted\n")),
                             ("(_ for _ in ()).throw(MemoryError())", (2, "", "nostwier: the machine has too little memory\n"))):
        done = subprocess.run([sys.executable, "-c", "import sys; from nostwier import __main__ as command; command.COMMANDS['try'] = "
                               f"command.Command('try it', lambda parser: None, lambda options: {action}); sys.exit(command.main(['try']))"],
                              capture_output=True, text=True, check=False)
        got = done.returncode, done.stdout, done.stderr
        check(f"a command that is {action}: {got}", got == expected if expected else got[0] == 2 and got[2].count("\n") == 1)

    # What the program prints, and the same as JSON and CSV.
    for name in accepted:
        folder = EXAMPLE if name == "small" else TOP / "tests" / "corpus" / "pairs"
        if name in ("small", "worked-a", "worked-b", "worked-l"):
            same(f"check of {name} prints what the program does", run("check", folder / f"{name}.case", folder / f"{name}.cert"),
                 (0, (folder / f"{name}.expected").read_text(encoding="utf-8"), ""))
    result, prices = nostwier.check_certificate(*pairs["small"]), nostwier.prices(*pairs["small"])
    told = json.loads(run("check", case, certificate, "--json")[1])
    same("check as JSON", ([told[key] for key in ("cost", "bound", "gap")], [resource["lmp"] for resource in told["resources"]],
                           [list(zone.values()) for zone in told["zones"]], [told["resources"][7][key] for key in ("on_line", "availability")]),
         (list(result), prices.lmps, [list(zone) for zone in prices.zones], [False, "off-line"]))
    same("check as CSV", run("check", case, certificate, "--csv")[1].splitlines(), [
        "item,grains,dollars,dollars_an_hour", "cost,-22614356928000,-18845.297440000,-226143.569280000",
        "bound,-22614359745000,-18845.299787500,-226143.597450000", "gap,2817000,0.002347500,0.028170000"])
    told = json.loads(run("explain", case, certificate, "--json", "--names", EXAMPLE / "small.json")[1])
    same("explain as JSON", (told["gap"], sum(charge["grains"] for charge in told["charges"]), told["lmps"], told["dollars"]["gap"],
                             told["dollars_an_hour"]["gap"], [line["resource"] for line in told["case"]["not_on_line"]]),
         (result.gap, result.gap, prices.lmps, 0.0023475, 0.02817, ["resource 8 (Bayou turbine 2)"]))
    same("the largest charge as JSON", told["charges"][0], {
        "number": 20, "label": "row 20, resource 1 (Elk Ridge coal 1): e <= HI", "grains": 2655672, "dollars": 0.00221306,
        "amount_is": "slack", "amount_kw": 9384, "price_dollars_per_mwh": 0.00283})
    same("explain as CSV", run("explain", case, certificate, "--csv")[1].splitlines()[::3], [
        "number,label,grains,dollars,amount_is,amount_kw,price_dollars_per_mwh", '14,"row 14, flowgate 1",15638,0.000013032,slack,0.014,11.17'])
    table = run("prices", case, certificate, "--csv")[1].splitlines()
    same("prices as CSV", (len(table), table[1], table[11]), (
        1 + 10 + 8, "LMP,resource 1,energy,2217283,22.17283", "zone price,zone 1,regulating,850000,8.50000"))
    listed = json.loads(run("prices", case, certificate, "--json", "--names", EXAMPLE / "small.json")[1])
    same("prices as JSON", ([line["thousandths_of_a_cent_per_mwh"] for line in listed], listed[10]["of"]),
         (prices.lmps + [price for zone in prices.zones for price in zone], "zone 1 (North)"))
    same("prices as text", run("prices", case, certificate)[1].splitlines()[0], "        22.17283 $/MWh  resource 1: energy")

    with tempfile.TemporaryDirectory() as folder:
        folder = Path(folder)
        made, none = folder / "made", folder / "none"
        summary = ("case written, 1,814 bytes\ndemand 1,612.000 MW; 9 of 10 resources on-line, which can give 1,229.500 to 1,919.000 MW\n"
                   "energy offers -15.00 to 53.40 $/MWh\nnot on-line: resource 8 (Bayou turbine 2): its estimated output is 0 kW, and 500 kW or "
                   "more (or -500 kW or less) is needed, and its breaker is open\n")
        same("write-case", run("write-case", EXAMPLE / "small.json", made), (0, summary, ""))
        same("the case written", made.read_bytes(), case.read_bytes())
        same("write-case as JSON", json.loads(run("write-case", EXAMPLE / "small.json", made, "--json")[1])["most_kw"], 1_919_000)
        status, output, errors = run("read-certificate", certificate)
        same("read-certificate", (status, errors), (0, ""))
        same("the sample of a certificate", output, (EXAMPLE / "small.certificate.json").read_text(encoding="utf-8"))
        same("write-certificate", run("write-certificate", EXAMPLE / "small.certificate.json", folder / "cert"),
             (0, "certificate written, 488 bytes\nenergy 1,612.000 MW; price of row 1 26.78604 $/MWh\n", ""))
        same("the certificate written", (folder / "cert").read_bytes(), certificate.read_bytes())
        wrong = json.loads(output)
        wrong["row_prices"]["zones"][1]["operating"] = -5
        made.write_text(json.dumps(wrong), encoding="utf-8")
        same("a price of the wrong sign in a source", run("write-certificate", made, none), (1, "", "nostwier: " + text_of(
            16, "row_prices.zones[1].operating of zone 2 is -5 thousandths of a cent, and not 0 to 400,000,000",
            "Is its sign the wrong way round? The price of every row but row 1 is 0 or more, whichever way the solver counts: write it "
            "without the minus.") + "\n"))
        check("the sample has the names of the fields", all(f'"{name}"' in output for name in (
            "within_max", "short_term_within_max", "above_min", "within_hi", "above_lo", "row_prices", "cleared")) and "<=" not in output)

        def source(change, text=None):
            data = json.loads((EXAMPLE / "small.json").read_text(encoding="utf-8"))
            change(data)
            made.write_text(json.dumps(data), encoding="utf-8")
            return run("write-case", made, none)

        same("a refused source", source(lambda d: d.update(demand=128_000_001)),
             (1, "", f"nostwier: {text_of(5, 'demand is 128,000,001 kW, and not 0 to 128,000,000', KW_ASKED)}\n"))
        check("a refused source makes no file", not none.exists())
        same("a fraction", source(lambda d: d.update(demand=1612.5)),
             (1, "", f"nostwier: '{made}': demand: a whole number is wanted, not 1612.5 ({UNIT_HELP})\n"))
        same("a field of a resource, by its name", source(lambda d: d["resources"][7].update(contingency_price=-1))[2],
             "nostwier: " + text_of(16, "resources[7].contingency_price of resource 8 (Bayou turbine 2) is -1 cents per MWh, and not 0 to 400,000",
                                    "Is its sign the wrong way round? No negative price is possible here.") + "\n")
        for what, content, why in (
            ("no JSON", b"demand", "the text is no JSON: Expecting value: line 1 column 1 (char 0)"),
            ("an empty source", b"", "the text is no JSON: Expecting value: line 1 column 1 (char 0)"),
            ("a list", b"[]", "the whole: a dictionary is wanted, with demand, reserves, zones, resources, name, curves, flowgates"),
            ("a field given twice", b'{"demand": 1, "demand": 2}', "the field 'demand' is given twice"),
        ):
            made.write_bytes(content)
            same(what, run("write-case", made, none), (1, "", f"nostwier: '{made}': {why}\n"))
        made.write_bytes(b"[" * 100_000)
        check("lists without end", run("write-case", made, none)[0] == 1 and "Traceback" not in run("write-case", made, none)[2])
        made.write_bytes(b'{"demand": 1' + b"0" * 5_000 + b"}")
        check("a number without end", run("write-case", made, none)[0] == 1 and "Traceback" not in run("write-case", made, none)[2])
        same("a case as a source", run("write-case", case, none),
             (1, "", f"nostwier: '{case}' is no text in UTF-8: a JSON source is wanted. Is it a case file already? 'nostwier read-case' makes a "
                     "source of one\n"))
        same("a source as a case", run("cite", EXAMPLE / "small.json", certificate), (1, "", "nostwier: " + text_of(
            1, f"the file has {(EXAMPLE / 'small.json').stat().st_size:,} bytes, and its first four bytes announce 2,064,261,156",
            "Is it a JSON source? Make a case file of it by 'nostwier write-case SOURCE FILE'.") + "\n"))
        made.write_bytes(b"Please find the case attached.\n" * 8)
        check("a text as a certificate", "Is it a text? A certificate file is binary; 'nostwier write-certificate SOURCE FILE' makes it of a JSON "
              "source." in run("cite", case, made)[2])
        with open(made, "wb") as huge:
            huge.truncate(16 * 1024 * 1024 + 1)
        same("a huge file", run("cite", made, certificate), (
            1, "", f"nostwier: '{made}' is above 16,777,216 bytes, and no case or certificate is above 11,738: look whether it is another file\n"))

        # Names of another source are refused; those of the source serve for a damaged file too.
        data = json.loads((EXAMPLE / "small.json").read_text(encoding="utf-8"))
        data["demand"] -= 1
        made.write_text(json.dumps(data), encoding="utf-8")
        wrong = "is not the source of this case: {}. Give the source from which the case was written, or make the case anew by 'nostwier write-case'"
        for command in ("check", "explain", "prices"):
            same(f"{command} with another source", run(command, case, certificate, "--names", made), (
                1, "", f"nostwier: '{made}' {wrong.format('demand is 1,611,999 in it, and 1,612,000 in the case')}\n"))
        data["zones"].append(data["zones"][0])
        made.write_text(json.dumps(data), encoding="utf-8")
        same("a source of another size", run("explain", case, certificate, "--names", made), (1, "", f"nostwier: '{made}' " + wrong.format(
            "it has 10 resources, 3 zones and 3 flowgates, and the case 10 resources, 2 zones and 3 flowgates") + "\n"))
        damaged = bytearray(case.read_bytes())
        damaged[202:203] = b"\7"
        made.write_bytes(damaged)
        same("a damaged case by name", run("explain", made, certificate, "--names", EXAMPLE / "small.json"), (1, "", "nostwier: " + text_of(
            5, "resources[0].kind of resource 1 (Elk Ridge coal 1) is 7, and not 1 to 3") + "\n"))
        record = nostwier.Certificate.from_bytes(certificate.read_bytes())
        record.resources[7].e = 1
        record.save(made)
        same("a quantity by name", run("explain", case, made, "--names", EXAMPLE / "small.json"), (1, "", "nostwier: " + text_of(
            13, "resource 8 (Bayou turbine 2): energy e is 1 kW, and at most 0 kW is possible: it is off-line, because its estimated output is "
                "0 kW, and 500 kW or more (or -500 kW or less) is needed, and its breaker is open", "", 40) + "\n"))
        record.resources[7].e, record.resources[0].e = 0, 340
        record.save(made)
        same("MW for kW in a certificate", run("cite", case, made)[2], "nostwier: " + text_of(
            14, "energy equals demand: the energy of all resources is 1,271,724 kW, and it must be equal to the demand: 1,612,000 kW; 340,276 "
                "kW are missing", "", 1) + "\n")
        for resource in record.resources:
            resource.e = resource.e // 1000
        record.save(made)
        check("all of it in MW", "Is the unit right? That is about 1,268 times as much, and power is in kW: is a number here in MW or in W?"
              in run("cite", case, made)[2])

        # What is accepted but odd: all in MW, offers in dollars; nothing to be met.
        def smaller(d, power, price):
            def go(item, key=""):
                if isinstance(item, dict):
                    return {k: v if k in ("zone", "multiplier", "minutes", "share", "shift_factors", "minutes_since_trip") else go(v, k)
                            for k, v in item.items()}
                if isinstance(item, list):
                    return [go(v, key) for v in item]
                return item // (price if key.endswith("price") else power) if isinstance(item, int) else item
            scaled = go({**d, "zones": d["zones"]})
            d.update(scaled)
        status, output, errors = source(lambda d: smaller(d, 1000, 1))
        check(f"MW for kW: {output}", status == 0 and "\ndemand 1.612 MW; " in output and "not on-line: resource 1 (Elk Ridge coal 1): its estimated "
              "output is 331 kW, and 500 kW or more" in output and "warning: no power in this case is above 1,612 kW. Is it filed in MW? Power is "
              "in kW: multiply by 1,000\n" in output and "warning: no schedule can meet the demand of 1.612 MW" in output)
        status, output, errors = source(lambda d: smaller(d, 1, 100))
        check(f"dollars for cents: {output}", status == 0 and "energy offers -0.15 to 0.53 $/MWh\nnot" in output and "warning: no energy offer is "
              "above 0.53 $/MWh. Is it filed in dollars? Prices of offers are in cents per MWh: multiply by 100\n" in output)
        status, output, errors = source(lambda d: d.update(demand=1_000_000))
        check(f"too little demand: {output}", status == 0 and "warning: no schedule can keep to the demand of 1,000.000 MW: the resources that are "
              "on-line must give at least 1,229.500 MW (each the larger of MIN and LO)\n" in output)
        check("nothing odd in the example", "warning" not in summary)
        def cold(d):
            for resource in d["resources"]:
                resource["estimated_output"] = 0
        status, output, errors = source(cold)
        check(f"no output: {output}", status == 0 and "1 of 10 resources on-line" in output and "warning: no schedule can meet the demand of "
              "1,612.000 MW: the resources that are on-line can give at most 125.000 MW (each the least of its steps' widths, MAX and HI); see above "
              "what keeps the others off-line\n" in output)
        state = nostwier.Case.load(EXAMPLE / "small.json").states()
        most = sum(its.g.kw for its in state[:4])  # zone 1 has resources 1 to 4, and 10, which has no flag
        for requirement, odd in ((most, False), (most + 1, True)):
            status, output, errors = source(lambda d: d["zones"][0].update(regulating=requirement))
            same(f"a requirement of {requirement}", (status, f"warning: no schedule can meet the regulating requirement of zone 1 (North), {requirement:,} "
                 f"kW: its resources can give at most {most:,} kW by their flags, ramps and shares\n" in output), (0, odd))
        status, output, errors = source(lambda d: d["resources"][0].update(initial_energy=30_000, ramp_up=1))
        check(f"a resource that cannot reach its minimum: {output}", "warning: no schedule: resource 1 (Elk Ridge coal 1) must give at least 165,000 kW "
              "and can give at most 30,005 kW (steps' widths 420,000, MAX 405,000, HI 30,005, MIN 165,000, LO 10,000)\n" in output)

        # Prices of the wrong sign or unit: the gap that another would have is the library's.
        record = nostwier.Certificate.from_bytes(certificate.read_bytes())
        record.row_prices.energy *= -1
        record.save(made)
        check("row 1's sign", "\nquestion: Is the sign of row 1's price the wrong way round? With the other one the gap is $0.002348.\n"
              in run("explain", case, made)[1])
        worked = nostwier.Certificate.from_bytes(pairs["worked-a"][1])
        worked.row_prices.energy //= 1000
        check("prices in cents", "question: Are the prices of rows in cents? They are in thousandths of a cent per MWh (those of flowgates in cents). "
              "With 1,000 times as much the gap is $0.000000." in explain(pairs["worked-a"][0], worked))
        check("no question of the example", "question" not in explain(*pairs["small"]))


def questions():
    """Other prices, which a question is tried with, are those of every row but of flowgates; the rest stays."""
    before = nostwier.Certificate.from_bytes(pairs["small"][1])
    after = sys.modules["nostwier.explain"]._with_prices(before, lambda price: price + 1, 7)
    first = 1 + 4 + 4 * before.counts.zones
    prices = [7] + [price + 1 for price in before.prices_of_rows()[1:]]
    prices[first:first + before.counts.flowgates] = before.row_prices.flowgates
    same("prices for a question", (after.prices_of_rows(), after.cleared, [d.e for d in after.resources], after.version),
         (prices, before.cleared, [d.e for d in before.resources], before.version))


def models():
    """The model that serves messages, against the library: states, bounds, rows, and what is behind each charge."""
    with tempfile.TemporaryDirectory() as folder:
        subprocess.run([REFERENCE, "generate", "7", "40", folder, "--accepted"], check=True)
        tried = dict(accepted)
        for path in sorted(Path(folder).glob("*.case")):
            tried[f"generated {path.stem}"] = path.read_bytes(), path.with_suffix(".cert").read_bytes()
    same("generated pairs", len(tried), len(accepted) + 40)
    kinds, whys = set(), set()
    for name, (case, certificate) in tried.items():
        record, made = nostwier.Case.from_bytes(case), nostwier.Certificate.from_bytes(certificate)
        same(f"{name} unjudged", (nostwier.Case.unjudged(case), nostwier.Certificate.unjudged(certificate)), (record, made))
        printed = reference("check", case + certificate).decode().splitlines()[3:3 + len(record.resources)]
        states = record.states()
        same(f"on-line of {name}", [int(state.on_line) for state in states], [int(line.split()[1]) for line in printed])
        same(f"on-line of {name} by resource", [(state.on_line, state.availability) for state in states],
             [(resource.on_line, resource.availability) for resource in record.resources])
        check(f"reasons of {name}", all(bool(state.reasons) != state.on_line for state in states))
        kinds |= {(int(resource.kind), resource.availability.value) for resource in record.resources}
        whys |= {re.sub(r"\d[\d,]*", "#", getattr(state, part).why) for state in states for part in ("lo", "e", "g", "c", "s", "o")}

        # Each bound: a quantity of so much is not refused for it, one kW more is, there.
        counts, quantities = record.counts, nostwier.quantities(record, made)
        for place, quantity in enumerate(quantities, 1):
            at = 8 + 4 * (place - 1) if place <= 4 else \
                44 + 16 * counts.zones + 4 * counts.flowgates + 40 * ((place - 5) // 5) + 4 * ((place - 5) % 5)
            got = []
            for amount in (quantity.bound.kw, quantity.bound.kw + 1):
                trial = bytearray(certificate)
                trial[at:at + 4] = amount.to_bytes(4, "big")
                answered = library.function("nostwier_check_certificate")(case, len(case), bytes(trial), len(trial))
                got.append((answered.refusal == 13, answered.place if answered.refusal == 13 else 0))
            same(f"the bound of quantity {place} of {name}", got, [(False, 0), (True, place)])

        # With prices of 1 and of 3,000,000 in every row the charges show every slack and every net price.
        check(f"rows of {name}", all(row.met for row in nostwier.rows(record, made)))
        for trial in (made, *(_priced(made, price) for price in (1, 3_000_000))):
            same(f"parts of {name}", [part.grains for part in nostwier.parts(record, trial)], nostwier.charges(case, trial))
    same("kinds that were met", kinds, {(kind, what) for kind in (1, 2, 3) for what in ("on-line", "off-line")} | {(1, "tripped")})
    for why in ("its flag 'regulating' is clear", "this is the share", "this is the ramp rate", "this is MAX", "off-line response limit",
                "off-line short-term limit", "'off_line_supplemental' is clear", "the self-schedule, as", "the HI that the self-schedule",
                "the MAX that the self-schedule", "it is tripped"):
        check(f"a bound for the reason {why}", any(why in text for text in whys))

    # The first quantity or row that is broken, by the model, is what the library refuses.
    for name, (case, certificate) in pairs.items():
        refused = answer(nostwier.check_certificate, case, certificate)
        if refused[0] == "refused" and refused[1] in (13, 14):
            record, made = nostwier.Case.from_bytes(case), nostwier.Certificate.from_bytes(certificate)
            above = [place for place, (amount, bound) in enumerate(nostwier.quantities(record, made), 1) if amount > bound.kw]
            broken = [number for number, row in enumerate(nostwier.rows(record, made), 1) if not row.met]
            same(f"what is broken in {name}", (13, above[0]) if above else (14, broken[0]), refused[1:])

    state = nostwier.Case.load(EXAMPLE / "small.json").state(6)
    same("limits of a resource", (state.on_line, state.maximum.kw, state.minimum.kw, state.hi.kw, state.lo, state.e.kw), (
        True, 160_000, 60_000, 102_500, (90_000, "the self-schedule, as flag 'self_scheduled' is set"), 160_000))
    # A self-schedule yields to HI and to MAX; what the ramp down leaves yields to neither.
    floor = (87_500, "the initial energy 95,000 less 5 minutes of ramp down at 1,500 kW a minute, at least 0")
    for scheduled, most, low in ((200_000, 160_000, (102_500, "the HI that the self-schedule of 200,000 yields to")),
                                 (200_000, 100_000, (100_000, "the MAX that the self-schedule of 200,000 yields to")),
                                 (80_000, 160_000, floor), (200_000, 80_000, floor)):
        small = nostwier.Case.load(EXAMPLE / "small.json")
        small.resources[5].self_schedule, small.resources[5].economic.maximum = scheduled, most
        same(f"LO with a self-schedule of {scheduled} and MAX {most}", small.state(6).lo, low)
    # A trip of 15 minutes ago or less decides before breaker and output, of a conventional resource alone.
    kinds = {int(resource.kind): number for number, resource in reversed(list(enumerate(small.resources, 1))) if resource.on_line}
    for number, minutes, what in ((kinds[1], 15, "tripped"), (kinds[1], 16, "on-line"), (8, 0, "tripped"), (8, 16, "off-line"),
                                  (kinds[2], 15, "on-line"), (kinds[3], 0, "on-line")):
        small.resources[number - 1].minutes_since_trip = minutes
        state = small.state(number)
        same(f"resource {number}, {minutes} minutes after a trip", state.availability.value, what)
        if what == "tripped":
            economic = small.resources[number - 1].economic.maximum
            same(f"limits and bounds of resource {number}, tripped", [figure.kw for figure in state[2:11]], [economic, 0, economic] + [0] * 6)
    small.resources[7].minutes_since_trip = 0
    same("why resource 8 is not on-line", small.state(8).reasons, [
        "it is tripped: it tripped 0 minutes ago, and more than 15 are needed",
        "its estimated output is 0 kW, and 500 kW or more (or -500 kW or less) is needed", "its breaker is open"])
    for large, small, asked in ((100, 1, True), (1000, 1, True), (49, 1, False), (300, 1, False), (2001, 1, False), (100, 0, False)):
        same(f"{large} for {small}", bool(model.asks(large, small, "kW")), asked)
    for number in (-1, 0, 11):
        same(f"resource {number}", str(raised(IndexError, nostwier.Case.load(EXAMPLE / "small.json").state, number)),
             f"there is no resource {number}: they are numbered from 1 to 10")
    # A library that refuses what it should not: no words, and no fault.
    for number in range(1, 18):
        for place in (0, 1, 10_000):
            for files in (pairs["small"], (b"", b""), (b"\0" * 8, b"\0" * 8), pairs["small"][::-1], (pairs["small"][0], b"")):
                refusal = messages.of_files(number, place, *files)
                same(f"words of {number} without ground", (refusal.number, refusal.place in (0, place)), (number, True))


def _priced(certificate, price):
    """A certificate with that price in every row; of flowgates a cent."""
    made = copy.deepcopy(certificate)
    four = nostwier.ByCurve(price, price, price, price)
    made.row_prices = nostwier.RowPrices(price, four, [four] * len(made.row_prices.zones), [1] * len(made.row_prices.flowgates))
    for resource in made.resources:
        resource.row_prices = nostwier.ResourceRows(*[price] * 5)
    return made


class Whole:
    """A whole number of another library, as NumPy's are."""

    def __init__(self, number):
        self.number = number

    def __index__(self):
        return self.number


def methods_of(thing):
    """The public functions, class functions and properties that a class of the module, or one above it, defines."""
    for kind in (thing.__mro__ if isinstance(thing, type) else ()):
        if kind.__module__.startswith("nostwier"):
            for name, member in vars(kind).items():
                function = getattr(member, "fget", None) or getattr(member, "__func__", member)
                if not name.startswith("_") and isinstance(function, type(check)):
                    yield function


def package():
    """What a user of the module finds in it."""
    for name in nostwier.__all__:
        thing = getattr(nostwier, name)
        check(f"{name} has a text", name in ("GRAINS_PER_DOLLAR", "ADVICE", "MEANING", "NO_TRIP", "__version__") or
              # a text that Python makes of the fields is none
              (thing.__doc__ and not thing.__doc__.startswith(f"{name}(")))
    for name in ("explain", "cite", "Names", "Kind", "Status", "Flags", "Breaker", "__version__", "Case", "Certificate"):
        check(f"{name} is public", name in nostwier.__all__)
    functions = [thing for name in nostwier.__all__ if isinstance(thing := getattr(nostwier, name), type(check))]
    check("functions", len(functions) > 15)
    methods = [method for name in nostwier.__all__ for method in methods_of(getattr(nostwier, name))]
    check("methods", len(methods) > 20)
    for function in functions + methods:
        signature = inspect.signature(function)
        check(f"{function.__qualname__} has the type of what it returns", signature.return_annotation is not signature.empty)
        for parameter in signature.parameters.values():
            check(f"{function.__qualname__} has the type of {parameter.name}",
                  parameter.annotation is not parameter.empty or parameter.name in ("self", "cls"))
        check(f"{function.__qualname__} has a text", function.__doc__)
    check("the types are for others too", (TOP / "python" / "nostwier" / "py.typed").exists())

    case, certificate = nostwier.Case.from_bytes(pairs["small"][0]), nostwier.Certificate.from_bytes(pairs["small"][1])
    result = nostwier.check_certificate(*pairs["small"])
    for given in ((case, certificate), (pairs["small"][0], certificate), (case, bytearray(pairs["small"][1])),
                  (memoryview(pairs["small"][0]), certificate)):
        same("records for files", (nostwier.check_certificate(*given), nostwier.charges(*given), nostwier.prices(*given)),
             (result, nostwier.charges(*pairs["small"]), nostwier.prices(*pairs["small"])))
        same("the sentence of records", nostwier.cite(*given), nostwier.cite(*pairs["small"]))
    same("a record for a case", (nostwier.check_case(case), nostwier.read_case(case)), (None, nostwier.read_case(pairs["small"][0])))
    named = nostwier.Case.load(EXAMPLE / "small.json")
    certificate.resources[7].e = 1
    check("the names of a record", refusal_of(nostwier.check_certificate, named, certificate)[2].startswith("resource 8 (Bayou turbine 2): energy"))
    check("names that are given", refusal_of(lambda: nostwier.check_certificate(case, certificate, named.names))[2]
          .startswith("resource 8 (Bayou turbine 2): energy"))
    check("explain has the names of a record", "(Elk Ridge coal 1)" in explain(named, pairs["small"][1]))

    # Whole numbers of others, in lists, dictionaries and records; what is none is named where it was given.
    good = nostwier.read_case(pairs["small"][0])
    same("whole numbers in a list", nostwier.write_case(map(Whole, good)), pairs["small"][0])
    data = named.to_dict()
    data["demand"] = Whole(data["demand"])
    data["resources"][0]["kind"] = Whole(1)
    same("whole numbers in a dictionary", nostwier.Case.from_dict(data).to_bytes(), pairs["small"][0])
    case.demand, case.resources[0].economic.maximum = Whole(case.demand), Whole(case.resources[0].economic.maximum)
    same("whole numbers in a record", nostwier.read_case(case), good)
    for value, words in ((1.5, f"1.5 ({UNIT_HELP})"), (True, "true"), ("7", f'"7" ({UNIT_HELP})'), (None, "null")):
        case = nostwier.Case.from_bytes(pairs["small"][0])
        case.resources[3].economic.maximum = value
        same(f"{value!r} in a record", str(raised(nostwier.Misfiled, case.to_bytes)),
             f"resources[3].economic.maximum: a whole number is wanted, not {words}")
        certificate.resources[3].row_prices.above_lo = value
        same(f"{value!r} in a certificate", str(raised(nostwier.Misfiled, certificate.to_bytes)),
             f"resources[3].row_prices.above_lo: a whole number is wanted, not {words}")
        same(f"{value!r} in a list", str(raised(TypeError, nostwier.write_case, [1, value])),
             f"number 2 of the list is {value!r}, and no whole number")

    # Lists of others too, as NumPy's arrays are; a text, a number or a dictionary is no list.
    data = named.to_dict()
    data["flowgates"][0]["shift_factors"] = tuple(map(Whole, data["flowgates"][0]["shift_factors"]))
    same("a tuple for a list", nostwier.Case.from_dict(data).to_bytes(), pairs["small"][0])
    for value, words in (("1, 2", '"1, 2"'), (7, "7"), ({"a": 1}, '{"a": 1}'), ("x" * 100, '"' + "x" * 56 + "...")):
        data["flowgates"][0]["shift_factors"] = value
        same(f"{words} for a list", str(raised(nostwier.Misfiled, nostwier.Case.from_dict, data)),
             f"flowgates[0].shift_factors: a list is wanted, not {words}")

    # Bits that have no name are kept.
    case = nostwier.Case.from_bytes(pairs["small"][0])
    case.resources[0].status = 16 + 1
    same("unknown status bits", (case.to_dict()["resources"][0]["status"], nostwier.Case.from_dict(case.to_dict()).resources[0].status), (17, 17))
    case.resources[0].kind = 9
    same("an unknown kind", case.to_dict()["resources"][0]["kind"], 9)

    # Row prices of a resource by their names, or by the rows' own words; not by both.
    rows = {"e+g+c <= MAX": 1, "e+s <= MAX": 2, "e-g >= MIN": 3, "e <= HI": 4, "e >= LO": 5}
    made = {"row_prices": {"energy": 1, "zones": [{}]}, "resources": [{"e": 1, "row_prices": rows}]}
    same("rows by their words", list(nostwier.Certificate.from_dict(made).resources[0].row_prices), [1, 2, 3, 4, 5])
    same("rows by their names", nostwier.Certificate.from_dict(made).to_dict()["resources"][0]["row_prices"],
         {"within_max": 1, "short_term_within_max": 2, "above_min": 3, "within_hi": 4, "above_lo": 5})
    rows["within_hi"] = 4
    same("a row given twice", str(raised(nostwier.Misfiled, nostwier.Certificate.from_dict, made)),
         "resources[0].row_prices: the field 'within_hi' is given twice, as 'e <= HI' too")

    same("a certificate without zones", refusal_of(nostwier.Certificate.from_dict({
        "row_prices": {"energy": 1}, "resources": [{"e": 1}]}).to_bytes), (3, 0, "the number of row_prices.zones is 0, and not 1 to 8"))

    with tempfile.TemporaryDirectory() as folder:
        folder = Path(folder)
        for record, file, source, made in (
            (nostwier.Case, pairs["small"][0], EXAMPLE / "small.json", folder / "case"),
            (nostwier.Certificate, pairs["small"][1], EXAMPLE / "small.certificate.json", folder / "cert"),
        ):
            loaded = record.load(source)
            loaded.save(made)
            same(f"{record.__name__}.save", made.read_bytes(), file)
            same(f"{record.__name__}.load of a file", record.load(made).to_bytes(), file)
            loaded.save(f"{made}.json")
            same(f"{record.__name__}.save as a source", record.load(f"{made}.json"), loaded)
            made.write_bytes(b"\xef\xbb\xbf" + source.read_bytes())
            same(f"{record.__name__}.load of a text with a mark", record.load(made), loaded)
            same("and by the command", run(f"write-{record.__name__.lower()}", made, folder / "again")[0], 0)
            same("the file of it", (folder / "again").read_bytes(), file)
        case.demand = -1
        check("a refused record makes no file", raised(nostwier.Refused, case.save, folder / "none") and not (folder / "none").exists())

        # Installed by pip, where a Python has it with setuptools.
        project = (TOP / "python" / "pyproject.toml").read_text(encoding="utf-8")
        same("the installed command", re.findall(r'^nostwier = "(.*)"$', project, re.MULTILINE), ["nostwier.__main__:main"])
        from nostwier.__main__ import main
        check("its function", callable(main))
        environment = {**os.environ, "PYTHONPATH": str(folder / "site")}
        pythons = [python for python in (sys.executable, "/usr/bin/python3") if Path(python).exists() and all(
            subprocess.run([python, "-c", f"import {module}"], capture_output=True, check=False).returncode == 0
            for module in ("setuptools", "wheel", "pip"))]
        if pythons:
            subprocess.run(["cp", "-r", TOP / "python", folder / "python"], check=True)  # the build leaves files beside it
            done = subprocess.run([pythons[0], "-m", "pip", "install", "-q", "--no-deps", "--no-build-isolation", "--no-index",
                                   "--disable-pip-version-check", "--root-user-action=ignore", "--target", folder / "site", folder / "python"],
                                  capture_output=True, text=True, check=False)
            check(f"pip installs it: {done.stderr}", done.returncode == 0)
            done = subprocess.run([folder / "site" / "bin" / "nostwier", "cite", EXAMPLE / "small.case", EXAMPLE / "small.cert"],
                                  capture_output=True, text=True, check=False, env=environment)
            same("the command that is installed", (done.returncode, done.stdout), (0, nostwier.cite(*pairs["small"])))
            check("its types are installed", (folder / "site" / "nostwier" / "py.typed").exists())
        else:
            print("skipped: pip install ./python, 3 checks: no Python here has pip, setuptools and wheel")


def finding():
    """Where the library is looked for."""
    explained = ("explain", EXAMPLE / "small.case", EXAMPLE / "small.cert")
    expected = run(*explained)
    same("with the library that is tested", expected[0], 0)

    nowhere = "/nothing/here.so"
    system_says = str(raised(OSError, ctypes.CDLL, nowhere))

    def missing(path):
        return (2, "", f"nostwier: the library libnostwier.so.1 was not found; tried {path} ({system_says.replace(nowhere, path)}). "
                       "Build it by 'make lib', install it by 'make install', or name it in the environment's NOSTWIER_LIBRARY.\n")

    same("a library that is missing", run(*explained, NOSTWIER_LIBRARY=nowhere), missing(nowhere))
    other = ctypes.util.find_library("c")
    same("another library", run(*explained, NOSTWIER_LIBRARY=other), (
        2, "", f"nostwier: {other} has no function nostwier_check_case: it is another library, or an older one. Build it anew by "
               "'make lib', or name the right one in the environment's NOSTWIER_LIBRARY.\n"))
    same("the library of the build tree", run(*explained, NOSTWIER_LIBRARY=""), expected)
    with tempfile.TemporaryDirectory() as folder:  # the module away from its build tree
        subprocess.run(["cp", "-r", TOP / "python" / "nostwier", folder], check=True)
        same("no library anywhere", run(*explained, NOSTWIER_LIBRARY="", PYTHONPATH=folder), missing("libnostwier.so.1"))
        same("the library of the system's paths", run(*explained, NOSTWIER_LIBRARY="", PYTHONPATH=folder,
                                                      LD_LIBRARY_PATH=str(TOP / "target" / "lib")), expected)


answers()
if not ANSWERS_ALONE:
    for part in (refusals, records, order, ranges, labels, gone_through, versions, unknown_versions, later_versions, units, models,
                 package, commands, questions, finding):
        part()
print(f"{passed} passed, {failed} failed")
sys.exit(0 if passed and not failed else 1)
