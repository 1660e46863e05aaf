"""A refusal in words: which field, quantity or row it is about, with its value, what is possible, and why.

It looks at the files after the library has refused them, and changes no verdict.
"""

import re
from typing import Optional

from . import model
from .enums import Kind
from .labels import Names, quantity_labels, row_labels
from .layout import CURVES, FILE_VERSIONS, POWER, QUANTITIES, Counts, of_version
from .refusals import Refused

TWO_31, TWO_32 = 2**31, 2**32


def of_record(number: int, record) -> Refused:
    """The refusal to write a record as a file."""
    names = getattr(record, "names", Names())
    if number == 16:
        for entry in record.misfits():
            return Refused(16, where=_out(entry, names), question=_sign(entry) or _unit(entry))
    return _of_fields(number, record, names)


def of_files(number: int, place: int, case: Optional[bytes], certificate: Optional[bytes], names: Names = Names()) -> Refused:
    """The refusal of a case or of a certificate, or of both together; None stands for a file that was not lent."""
    try:
        return _of_files(number, place, case, certificate, names)
    except (ValueError, IndexError, ZeroDivisionError):  # a library that refuses what it should not: its number alone
        return Refused(number, place)


def _of_files(number, place, case, certificate, names):
    from .records import Case, Certificate

    if number in (1, 2, 3, 4, 8, 9, 11):
        is_case = number <= 4 and case is not None  # 3 is a certificate's too, where that is read alone
        return _of_form(number, case if is_case else certificate, certificate if is_case else case, is_case)
    if number in (5, 6, 7):
        return _of_fields(number, Case.unjudged(case), names)
    if number == 10:
        own, others = Counts.of_file(certificate), Counts.of_file(case)
        return Refused(10, where="; ".join(
            f"it has {mine} {what}, and the case has {theirs}"
            for what, mine, theirs in zip(Counts._fields, own, others) if mine != theirs))
    if number == 12:
        return _of_fields(number, Certificate.unjudged(certificate), names)
    if number in (13, 14):
        read = Case.unjudged(case), Certificate.unjudged(certificate)
        if read[0].counts == read[1].counts:
            return (_of_quantity if number == 13 else _of_row)(place, *read, names)
    return Refused(number, place)


# ---- Files whose form is wrong.


def _announced(file):
    return 4 + int.from_bytes(file[:4], "big")


def looks_like(file: Optional[bytes]) -> str:
    """'case' or 'certificate' if a file has the form of one in some version, whatever its own is, else ''."""
    if file is None or len(file) < 8 or _announced(file) != len(file):
        return ""
    forms = {}
    for sizes in map(Counts.of_file(file).sizes, FILE_VERSIONS):
        forms.update({sizes.case_bytes: "case", sizes.certificate_bytes: "certificate"})
    return forms.get(len(file), "")


def _of_form(number, file, other, is_case):
    own, wanted = ("case", "certificate") if is_case else ("certificate", "case")
    size = f"the file has {len(file):,} bytes"
    where = question = ""
    if number in (1, 8):
        if not file:
            where = "the file is empty"
        elif _announced(file) == len(file):
            where = size
        else:
            where = f"{size}, and its first four bytes announce {_announced(file):,}"
    elif number in (2, 9):
        where = f"its version is {file[4]}"
    elif number == 3:
        counts = Counts.of_file(file)
        where = f"it has {counts.resources} resources, {counts.zones} zones and {counts.flowgates} flowgates"
    else:
        counts = Counts.of_file(file)
        sizes = counts.sizes(file[4])
        needed = sizes.case_bytes if is_case else sizes.certificate_bytes
        where = (f"{size}, and {counts.resources} resources, {counts.zones} zones and {counts.flowgates} flowgates need {needed:,}")
    if looks_like(file) == wanted:
        if looks_like(other) == own:
            question = f"Are the files swapped? This one has the form of a {wanted}, and the other one that of a {own}."
        else:
            question = f"Is it the wrong file? It has the form of a {wanted}, and a {own} is wanted."
    elif file[:1] in (b"{", b"[") or file.lstrip()[:1] == b"{":
        question = f"Is it a JSON source? Make a {own} file of it by 'nostwier write-{own} SOURCE FILE'."
    elif file and _is_text(file):
        question = f"Is it a text? A {own} file is binary; 'nostwier write-{own} SOURCE FILE' makes it of a JSON source."
    elif number in (1, 8) and file and _announced(file) > len(file):
        question = f"Was it cut short by {_announced(file) - len(file):,} bytes?"
    return Refused(number, where=where, question=question)


def _is_text(file):
    return all(byte in (9, 10, 13) or 32 <= byte < 127 for byte in file[:200])


# ---- Fields, steps and pairs of limits.


def _of_fields(number, record, names):
    if number in (3, 5, 12, 16):
        prices = number == 12
        for entry in record.fields():
            if not entry.inside and (not prices or entry.unit not in ("kW", "")):
                return Refused(number, where=_out(entry, names), question=_sign(entry) or _unit(entry))
    if number == 6:
        for curve in of_version(CURVES, record.version):
            broken = _broken_step(getattr(record.curves, curve.key), -1)
            if broken:
                return Refused(6, where=f"curves.{curve.key}, the {curve.words} demand curve: {broken}")
        for place, resource in enumerate(record.resources):
            steps = resource.energy_steps
            broken = _broken_step(steps, 1)
            total = sum(step.width for step in steps)
            if not broken and total > POWER:
                broken = f"the widths sum to {total:,} kW, and {POWER:,} is the most{model.asks(total, POWER, 'kW')}"
            if broken:
                return Refused(6, where=f"resources[{place}].energy_steps of {names.of('resource', place + 1)}: {broken}")
    if number == 7:
        for place, resource in enumerate(record.resources):
            for name in ("economic", "regulating", "emergency"):
                limits = getattr(resource, name)
                if limits.minimum > limits.maximum:
                    return Refused(7, where=f"resources[{place}].{name} of {names.of('resource', place + 1)}: the minimum is "
                                            f"{limits.minimum:,} kW, and the maximum {limits.maximum:,} kW"
                                            f"{model.asks(limits.minimum, limits.maximum, 'kW')}")
    return Refused(number)


def _broken_step(steps, direction):
    """What is against the rule of steps, or ''; prices never fall (1) or never rise (-1)."""
    before = None
    for number, step in enumerate(steps, 1):
        if step.width == 0:
            if step.price != 0:
                return f"step {number} has width 0 and price {step.price:,}"
            if any(later.width for later in steps[number:]):
                return f"step {number} has width 0, and steps after it have not"
            continue
        if before is not None and direction * (step.price - before) < 0:
            turn = "below" if direction > 0 else "above"
            return f"the price {step.price:,} of step {number} is {turn} the price {before:,} of step {number - 1}"
        before = step.price
    return ""


_ITEM = re.compile(r"(zone|resource|flowgate)s\[(\d+)\]")


def _out(entry, names):
    """A field that is out of its range, in words."""
    unit = f" {entry.unit}" if entry.unit else ""
    found = _ITEM.search(entry.where)
    item = f" of {names.of(found[1], int(found[2]) + 1)}" if found else ""
    return f"{entry.where}{item} is {entry.number:,}{unit}, and not {entry.least:,} to {entry.most:,}"


def _sign(entry):
    """A question for the sign, where no negative number is possible."""
    if entry.least < 0:
        return ""
    number = entry.number
    if TWO_31 <= number < TWO_32:  # a negative number in a file's unsigned field
        number -= TWO_32
        before = f"Its four bytes are {number:,} as a signed number. "
    else:
        before = ""
    if number >= 0 or number < -1000 * max(entry.most, 1) and before:
        return ""
    what = "price" if "price" in entry.where else "number"
    if "row_prices" in entry.where:
        return before + ("Is its sign the wrong way round? The price of every row but row 1 is 0 or more, whichever way the solver "
                         "counts: write it without the minus.")
    return before + f"Is its sign the wrong way round? No negative {what} is possible here."


def _unit(entry):
    """A question for the unit, where the number would be possible in a unit up to 1000 times smaller."""
    end = entry.most if entry.number > entry.most else entry.least
    if entry.unit in model.UNITS and end and entry.number / end <= 2000:
        words = model.UNITS[entry.unit]
        return f"Is the unit right? {words[0].upper()}{words[1:]}"
    return ""


# ---- Quantities and rows.


def _of_quantity(place, case, certificate, names):
    labels = quantity_labels(case.counts, names, case.version)
    if not 0 < place <= len(labels):
        return Refused(13, place)
    amount, bound = model.quantities(case, certificate)[place - 1]
    where = f"{labels[place - 1]} is {amount:,} kW, and at most {bound.kw:,} kW is possible: {bound.why}"
    question = _question(amount, bound.kw)
    cleared, provided = len(of_version(CURVES, case.version)), len(of_version(QUANTITIES, case.version))
    if place > cleared and not question:
        resource = case.resources[(place - cleared - 1) // provided]
        if resource.kind == Kind.conventional and 0 < abs(resource.estimated_output) < model.ON_LINE_OUTPUT:
            question = "Is the unit right? Power is in kW: is the estimated output in MW?"
    return Refused(13, place, where, question)


def _of_row(place, case, certificate, names):
    labels = row_labels(case.counts, names, case.version)
    if not 0 < place <= len(labels):
        return Refused(14, place)
    row = list(model.rows(case, certificate))[place - 1]

    def kw(number):
        return f"{number / 1000:,.3f}" if row.divisor == 1000 else f"{number:,}"

    off = kw(abs(row.left - row.right))
    gap = f"{off} kW {'is' if off == '1' else 'are'} {'missing' if row.left < row.right else 'too many'}"
    sense = {"=": "equal to", "<=": "at most", ">=": "at least"}[row.sense]
    where = (f"{labels[place - 1]}: {row.left_words} is {kw(row.left)} kW, and it must be {sense} {row.right_words.rstrip(',')}"
             f": {kw(row.right)} kW; {gap}")
    return Refused(14, place, where, _question(max(row.left, row.right), min(row.left, row.right)))


def _question(large, small):
    asked = model.asks(large, small, "kW")
    return f"Is the unit right? {asked[2:3].upper()}{asked[3:]}" if asked else ""
