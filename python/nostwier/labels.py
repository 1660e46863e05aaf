"""Rows, quantities and charges in words, by the version of the files."""

from typing import List, NamedTuple

from .layout import CURVE_STEPS, CURVES, ENERGY_STEPS, FILE_VERSIONS, QUANTITIES, RESOURCE_ROWS, ZONE_REQUIREMENTS, Counts, of_version


class Names(NamedTuple):
    """Names of zones, resources and flowgates, which a file does not carry; '' where there is none."""

    zones: List[str] = []
    resources: List[str] = []
    flowgates: List[str] = []

    def of(self, what: str, number: int) -> str:
        """'zone 2', or 'zone 2 (North)'."""
        names = getattr(self, what + "s")
        name = names[number - 1] if number <= len(names) else ""
        return f"{what} {number} ({name})" if name else f"{what} {number}"


def row_labels(counts: Counts, names: Names = Names(), version: int = 1) -> List[str]:
    """Each row in words, row 1 first; none if the version is not known."""
    if version not in FILE_VERSIONS:
        return []
    labels = ["energy equals demand"] + [f"market-wide {curve.words} reserve" for curve in of_version(CURVES, version)]
    labels += [f"{names.of('zone', z)}: {required.words} reserve" for z in _from_1(counts.zones)
               for required in of_version(ZONE_REQUIREMENTS, version)]
    labels += [names.of("flowgate", f) for f in _from_1(counts.flowgates)]
    return labels + [f"{names.of('resource', r)}: {row.words}" for r in _from_1(counts.resources)
                     for row in of_version(RESOURCE_ROWS, version)]


def quantity_labels(counts: Counts, names: Names = Names(), version: int = 1) -> List[str]:
    """Each quantity of a certificate in words, place 1 first; none if the version is not known."""
    labels = [f"cleared {curve.words} reserve" for curve in of_version(CURVES, version)]
    return labels + [f"{names.of('resource', r)}: {quantity.words}" for r in _from_1(counts.resources)
                     for quantity in of_version(QUANTITIES, version)]


def charge_labels(counts: Counts, names: Names = Names(), version: int = 1) -> List[str]:
    """What each charge belongs to, in the order of the charges; none if the version is not known."""
    if version not in FILE_VERSIONS:
        return []
    labels = [f"row {number}, {label}" for number, label in enumerate(row_labels(counts, names, version), 1)]
    parts = [f"energy step {step}" for step in _from_1(ENERGY_STEPS)]  # which stand for energy
    parts += [quantity.words for quantity in of_version(QUANTITIES, version) if quantity.key != "e"]
    labels += [f"{names.of('resource', r)}: {part}" for r in _from_1(counts.resources) for part in parts]
    return labels + [f"{curve.words} curve: step {step}" for curve in of_version(CURVES, version) for step in _from_1(CURVE_STEPS)]


class Charge(NamedTuple):
    """A charge with its number in the order of charges, from 1, and what it belongs to."""

    number: int
    label: str
    grains: int


def listed_charges(counts: Counts, charges: List[int], names: Names = Names(), version: int = 1) -> List[Charge]:
    """Charges with what they belong to, largest first, equal ones in their order."""
    labels = charge_labels(counts, names, version)
    assert len(labels) == len(charges), "as many charges as the counts say"
    listed = [Charge(number, label, grains) for number, (label, grains) in enumerate(zip(labels, charges), 1)]
    return sorted(listed, key=lambda charge: -charge.grains)


def _from_1(count):
    return range(1, count + 1)
