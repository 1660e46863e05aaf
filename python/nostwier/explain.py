"""An accepted certificate in words: what it costs, how far from the least that may be, and where the gap comes from."""

import dataclasses
import hashlib
from typing import TYPE_CHECKING, Any, Dict, List, NamedTuple, Optional

from . import calls, model
from .labels import Charge, Names, listed_charges
from .library import VERSION
from .records import Case, Certificate
from .refusals import Refused
from .units import dollars

if TYPE_CHECKING:
    from .calls import CaseFile, CertificateFile

INTERVALS_AN_HOUR = 12


class Explained(NamedTuple):
    """An accepted certificate with what stands behind its numbers; charges of 0 are not listed."""

    result: calls.Result
    prices: calls.Prices
    charges: List[Charge]
    parts: List[model.Part]  # in the order of charges: that of a charge is parts[charge.number - 1]
    summary: model.Summary
    questions: List[str]  # what may be wrong with the prices


def explained(case: "CaseFile", certificate: "CertificateFile", names: Optional[Names] = None) -> Explained:
    """What is to be said of a case and a certificate; refused as the check is."""
    result = calls.check_certificate(case, certificate, names)
    case_record = case if isinstance(case, Case) else Case.from_bytes(case)
    record = certificate if isinstance(certificate, Certificate) else Certificate.from_bytes(certificate)
    names = case_record.names if names is None else names
    charges = listed_charges(case_record.counts, calls.charges(case, certificate), names, case_record.version)
    return Explained(result, calls.prices(case, certificate), [charge for charge in charges if charge.grains],
                     model.parts(case_record, record), model.summary(case_record, names), _questions(case, record, result.gap))


def explain(case: "CaseFile", certificate: "CertificateFile", names: Optional[Names] = None, most: Optional[int] = None) -> str:
    """The text for a case and a certificate, as bytes or records; refused as the check is. Charges of 0 are not listed; of the
    others at most so many."""
    result, prices, charges, parts, summary, questions = explained(case, certificate, names)
    lines = [f"{'':5} {'dollars of an interval':>24} {'dollars an hour':>24} {'grains':>24}"]
    for name, grains in zip(result._fields, result):
        hourly = dollars(INTERVALS_AN_HOUR * grains, 9)
        lines.append(f"{name:5} {dollars(grains, 9):>24,f} {hourly:>24,f} {grains:>24,}")
    lines.append("")
    lines += summary_lines(summary)
    lines.append(f"LMPs {_per_mwh(min(prices.lmps))} to {_per_mwh(max(prices.lmps))} $/MWh")
    lines += questions
    lines.append("")
    if not charges:
        lines.append("No schedule of this case is cheaper than this one: the gap is 0, and so is every charge.")
        return "\n".join(lines) + "\n"
    lines.append(f"No schedule of this case is cheaper than this one by more than ${dollars(result.gap, 6, 'up'):,f} (rounded up).")
    lines.append(f"The gap is the sum of the charges; those above 0 are {len(charges)}, largest first:")
    lines.append("")
    lines.append(f"{'dollars':>24} {'share':>7}  charge of")
    for charge in charges[:most]:
        label = f"{charge.label}: {_behind(parts[charge.number - 1])}"
        lines.append(f"{dollars(charge.grains, 9):>24,f} {100 * charge.grains / result.gap:>6.1f}%  {label}")
    if most is not None and len(charges) > most:
        rest = sum(charge.grains for charge in charges[most:])
        lines.append(f"{dollars(rest, 9):>24,f} {100 * rest / result.gap:>6.1f}%  {len(charges) - most} smaller ones")
    return "\n".join(lines) + "\n"


def summary_lines(summary: model.Summary) -> List[str]:
    """A case in a few lines: totals, offers, what is not on-line, and what is odd."""
    resources = summary.on_line + len(summary.off_line)
    lines = [f"demand {model.mw(summary.demand)} MW; {summary.on_line} of {resources} resources on-line, which can give "
             f"{model.mw(summary.least)} to {model.mw(summary.most)} MW"]
    if summary.offers:
        lines.append(f"energy offers {summary.offers[0] / 100:,.2f} to {summary.offers[1] / 100:,.2f} $/MWh")
    lines += [f"not on-line: {resource}: {why}" for resource, why in summary.off_line]
    lines += [f"warning: {warning}" for warning in summary.warnings]
    return lines


def cite(case: "CaseFile", certificate: "CertificateFile") -> str:
    """The sentence to publish of an accepted certificate, with what identifies the two files; refused as the check is."""
    result = calls.check_certificate(case, certificate)
    files = calls.as_file(case), calls.as_file(certificate)
    cost = dollars(result.cost)
    sign = "-" if cost < 0 else ""
    return (
        f"The schedule costs {sign}${abs(cost):,f} in the five-minute interval, and no schedule of the case, in whole kilowatts\n"
        f"within its limits and rows, is cheaper by more than ${dollars(result.gap, 6, 'up'):,f} (rounded up).\n"
        "The sentence is about the case as filed: what was rounded on the way into it (shift factors to thousandths, power to kW,\n"
        "prices to cents) is no part of the gap.\n"
        f"Checked by Nostwier {VERSION}.\n"
        f"Case SHA-256 {hashlib.sha256(files[0]).hexdigest()}\n"
        f"Certificate SHA-256 {hashlib.sha256(files[1]).hexdigest()}\n"
    )


def as_dictionary(told: Explained) -> Dict[str, Any]:
    """What explain says, for JSON: grains and kW are whole, dollars are rounded to nine places."""
    return {
        **told.result._asdict(),
        "dollars": {name: float(dollars(grains, 9)) for name, grains in zip(told.result._fields, told.result)},
        "dollars_an_hour": {name: float(dollars(INTERVALS_AN_HOUR * grains, 9))
                            for name, grains in zip(told.result._fields, told.result)},
        "lmps": told.prices.lmps,
        "zone_prices": [zone._asdict() for zone in told.prices.zones],
        "case": summary_dictionary(told.summary),
        "questions": told.questions,
        "charges": [{"number": charge.number, "label": charge.label, "grains": charge.grains,
                     "dollars": float(dollars(charge.grains, 9)), **_part_dictionary(told.parts[charge.number - 1])}
                    for charge in told.charges],
    }


def summary_dictionary(summary: model.Summary) -> Dict[str, Any]:
    """A case in a few numbers, for JSON: kW, cents per MWh."""
    return {
        "demand_kw": summary.demand, "resources_on_line": summary.on_line, "least_kw": summary.least, "most_kw": summary.most,
        "energy_offers_cents_per_mwh": list(summary.offers or ()),
        "not_on_line": [{"resource": resource, "why": why} for resource, why in summary.off_line], "warnings": summary.warnings,
    }


def _part_dictionary(part):
    kw = part.amount / 1000 if part.per_kw == 1000 else part.amount
    price = part.price * part.per_kw / 100_000
    return {"amount_is": part.what, "amount_kw": kw, "price_dollars_per_mwh": price}


def _per_mwh(price):
    """Thousandths of a cent as dollars."""
    return f"{price / 100_000:,.5f}"


def _behind(part):
    """Price and amount of a charge."""
    if part.per_kw == 1000:  # thousandths of a kW, at a price in cents
        return f"{part.amount / 1000:,.3f} kW of slack at {part.price / 100:,.2f} $/MWh"
    words = {"slack": "kW of slack at", "used": "kW used at a net price of", "left": "kW left unused at a net price of"}
    return f"{part.amount:,} {words[part.what]} {_per_mwh(part.price)} $/MWh"


def _questions(case, certificate, gap):
    """Whether another sign or unit of the prices would make the gap at most a tenth; the library checks each."""
    energy = certificate.row_prices.energy
    trials = [("Is the sign of row 1's price the wrong way round? With the other one", lambda price: price, -energy)]
    for factor, words in ((1_000, "cents"), (100_000, "dollars")):
        trials.append((f"Are the prices of rows in {words}? They are in thousandths of a cent per MWh (those of flowgates in cents). "
                       f"With {factor:,} times as much", lambda price, factor=factor: price * factor, energy * factor))
    questions = []
    for words, change, first in trials:
        if not gap or not energy:
            break
        try:
            other = calls.check_certificate(case, _with_prices(certificate, change, first)).gap
        except Refused:  # beyond the range of prices
            continue
        if 10 * other <= gap:
            questions.append(f"question: {words} the gap is ${dollars(other, 6, 'up'):,f}.")
    return questions


def _with_prices(certificate, change, energy):
    """A certificate with changed prices of rows, but of flowgates."""

    def changed(prices):
        return type(prices)(**{name: change(price) for name, price in vars(prices).items()})

    prices = certificate.row_prices
    return dataclasses.replace(
        certificate,
        row_prices=dataclasses.replace(prices, energy=energy, market=changed(prices.market), zones=list(map(changed, prices.zones))),
        resources=[dataclasses.replace(resource, row_prices=changed(resource.row_prices)) for resource in certificate.resources])
