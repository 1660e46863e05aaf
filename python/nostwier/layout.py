"""What stands in the two files, field by field, and how much there is of it, by version.

A line of the tables is of the versions that it names, or of all; the lines stand in the order of the files. The library judges
the numbers: ends and units of ranges serve to name the field that it refuses.
"""

import re
import struct
from functools import lru_cache
from typing import Any, Dict, List, NamedTuple, Optional, Sequence, Tuple, TypeVar, Union

FILE_VERSIONS: Tuple[int, ...] = (1,)  # those that are known


class Listed(NamedTuple):
    """A curve, a quantity or a row of a resource: its name in records, and in words."""

    key: str
    words: str
    versions: Tuple[int, ...] = FILE_VERSIONS


class Entry(NamedTuple):
    """A field of a part of a file: its path in the part's record (with '[]' at its end, one for each resource), its type as struct
    has it, the ends and the unit of its range."""

    path: str
    letter: str
    least: int
    most: Optional[int]  # None: the number of zones
    unit: str = ""
    versions: Tuple[int, ...] = FILE_VERSIONS


Line = TypeVar("Line", Listed, Entry)


def of_version(table: Sequence[Line], version: int) -> List[Line]:
    """The lines of a table that are of a version; none if it is not known."""
    return [line for line in table if version in line.versions]


# ---- What there is of each kind, in the order of the files, of places, rows and charges.

CURVES = (
    Listed("operating", "operating"),
    Listed("regulating_plus_spinning", "regulating-plus-spinning"),
    Listed("regulating", "regulating"),
    Listed("short_term", "short-term"),
)
ZONE_REQUIREMENTS = CURVES  # of each zone, in the order of the curves
QUANTITIES = (  # of a resource
    Listed("e", "energy e"),
    Listed("g", "regulating g"),
    Listed("c", "contingency c"),
    Listed("s", "on-line short-term s"),
    Listed("o", "off-line short-term o"),
)
RESOURCE_ROWS = (
    Listed("within_max", "e+g+c <= MAX"),
    Listed("short_term_within_max", "e+s <= MAX"),
    Listed("above_min", "e-g >= MIN"),
    Listed("within_hi", "e <= HI"),
    Listed("above_lo", "e >= LO"),
)
ENERGY_STEPS, CURVE_STEPS = 10, 4


# ---- The fields behind length, version and counts.

POWER, MARKET_POWER, DEMAND, RAMP, FLOWGATE_LIMIT = 2_000_000, 8_000_000, 128_000_000, 400_000, 20_000_000
OFFER_PRICE, ROW_PRICE = 400_000, 400_000_000
U32 = 2**32 - 1
KW, KW_A_MINUTE, CENTS, THOUSANDTHS_OF_A_CENT, THOUSANDTHS = (
    "kW", "kW a minute", "cents per MWh", "thousandths of a cent", "thousandths")


class Part(NamedTuple):
    """What a file has once, or one of for each of a count: the path of these records in that of the file."""

    path: str
    of: str  # a field of Counts; '': once
    entries: Tuple[Entry, ...]


def _steps(path, count, most_width, least_price, versions=FILE_VERSIONS):
    """Width and price of each step. The price of an energy offer may be negative, and is signed."""
    price = "i" if least_price < 0 else "I"
    return [entry for step in range(count) for entry in (
        Entry(f"{path}[{step}].width", "I", 0, most_width, KW, versions),
        Entry(f"{path}[{step}].price", price, least_price, OFFER_PRICE, CENTS, versions))]


def _each(table, path, most, unit):
    """A number for each curve, quantity or row."""
    return [Entry(f"{path}{line.key}", "I", 0, most, unit, line.versions) for line in table]


_PAIRED, _SHARED = ("contingency", "regulating", "short_term"), ("regulating", "contingency", "short_term")

_CASE = (
    Part("", "", (
        Entry("demand", "I", 0, DEMAND, KW),
        *[entry for reserve in _PAIRED for entry in (Entry(f"reserves.{reserve}.multiplier", "H", 1, 5000, THOUSANDTHS),
                                                     Entry(f"reserves.{reserve}.minutes", "H", 1, 60))],
        *[Entry(f"reserves.{reserve}.share", "H", 0, 1000, THOUSANDTHS) for reserve in _SHARED],
        *[Entry(f"reserves.{reserve}.requirement", "I", 0, MARKET_POWER, KW) for reserve in _SHARED],
        *[entry for curve in CURVES
          for entry in _steps(f"curves.{curve.key}", CURVE_STEPS, MARKET_POWER, 0, curve.versions)],
    )),
    Part("zones", "zones", tuple(_each(ZONE_REQUIREMENTS, "", POWER, KW))),
    Part("resources", "resources", (
        Entry("kind", "B", 1, 3),
        Entry("zone", "B", 1, None),
        Entry("breaker", "B", 0, 1),
        Entry("status", "B", 0, 15),
        Entry("minutes_since_trip", "B", 0, 255),
        Entry("flags", "B", 0, 255),
        Entry("estimated_output", "i", -POWER, POWER, KW),
        Entry("economic.minimum", "I", 0, POWER, KW),
        Entry("economic.maximum", "I", 0, POWER, KW),
        Entry("regulating.minimum", "I", 0, POWER, KW),
        Entry("regulating.maximum", "I", 0, POWER, KW),
        Entry("emergency.minimum", "I", 0, POWER, KW),
        Entry("emergency.maximum", "I", 0, POWER, KW),
        Entry("ramp_up", "I", 0, RAMP, KW_A_MINUTE),
        Entry("ramp_down", "I", 0, RAMP, KW_A_MINUTE),
        Entry("ramp_rate", "I", 0, RAMP, KW_A_MINUTE),
        Entry("initial_energy", "I", 0, POWER, KW),
        Entry("off_line_response_limit", "I", 0, POWER, KW),
        Entry("off_line_short_term_limit", "I", 0, POWER, KW),
        Entry("self_schedule", "I", 0, POWER, KW),
        Entry("regulating_price", "I", 0, OFFER_PRICE, CENTS),
        Entry("contingency_price", "I", 0, OFFER_PRICE, CENTS),
        Entry("off_line_short_term_price", "I", 0, OFFER_PRICE, CENTS),
        *_steps("energy_steps", ENERGY_STEPS, POWER, -OFFER_PRICE),
    )),
    Part("flowgates", "flowgates", (
        Entry("limit", "i", -FLOWGATE_LIMIT, FLOWGATE_LIMIT, KW),
        Entry("shift_factors[]", "h", -1000, 1000, THOUSANDTHS),
    )),
)

# The end of a quantity's range is what its bytes hold, as its bound is in the case.
_CERTIFICATE = (
    Part("", "", (
        *_each(CURVES, "cleared.", U32, KW),
        Entry("row_prices.energy", "i", -ROW_PRICE, ROW_PRICE, THOUSANDTHS_OF_A_CENT),
        *_each(CURVES, "row_prices.market.", ROW_PRICE, THOUSANDTHS_OF_A_CENT),
    )),
    Part("row_prices.zones", "zones", tuple(_each(ZONE_REQUIREMENTS, "", ROW_PRICE, THOUSANDTHS_OF_A_CENT))),
    Part("row_prices.flowgates", "flowgates", (Entry("", "I", 0, OFFER_PRICE, CENTS),)),
    Part("resources", "resources", (
        *_each(QUANTITIES, "", U32, KW),
        *_each(RESOURCE_ROWS, "row_prices.", ROW_PRICE, THOUSANDTHS_OF_A_CENT),
    )),
)
PARTS = {"case": _CASE, "certificate": _CERTIFICATE}


# ---- How much there is of what.


class Sizes(NamedTuple):
    """How much there is in files of a version: bytes and numbers (fields but length and version) of both, rows, each with its
    shadow price, and charges."""

    case_bytes: int
    certificate_bytes: int
    case_numbers: int
    certificate_numbers: int
    rows: int
    charges: int


class Counts(NamedTuple):
    """Numbers of resources, zones and flowgates, with the sizes that follow from them."""

    resources: int
    zones: int
    flowgates: int

    @classmethod
    def of_file(cls, file: bytes) -> "Counts":
        """The counts that a file announces, its bytes 5 to 7; ValueError if it is shorter."""
        if len(file) < 8:
            raise ValueError("a file of under 8 bytes announces no counts")
        return cls(*file[5:8])

    def sizes(self, version: int) -> Sizes:
        """The sizes in files of a version, which a file has as its byte 4; each is 0 if the version is not known."""
        if version not in FILE_VERSIONS:
            return Sizes(*[0] * len(Sizes._fields))
        case, certificate = letters("case", self, version), letters("certificate", self, version)
        curves, requirements, quantities, limits = (
            len(of_version(table, version)) for table in (CURVES, ZONE_REQUIREMENTS, QUANTITIES, RESOURCE_ROWS))
        rows = 1 + curves + requirements * self.zones + self.flowgates + limits * self.resources
        of_resource = ENERGY_STEPS + quantities - 1  # the steps stand for energy
        return Sizes(struct.calcsize(START + case), struct.calcsize(START + certificate), len(case), len(certificate),
                     rows, rows + of_resource * self.resources + CURVE_STEPS * curves)

    @property
    def case_bytes(self) -> int:
        """Bytes of a case of version 1."""
        return self.sizes(1).case_bytes

    @property
    def certificate_bytes(self) -> int:
        """Bytes of a certificate of version 1."""
        return self.sizes(1).certificate_bytes

    @property
    def case_numbers(self) -> int:
        """Numbers of a case of version 1: its fields but length and version."""
        return self.sizes(1).case_numbers

    @property
    def certificate_numbers(self) -> int:
        """Numbers of a certificate of version 1."""
        return self.sizes(1).certificate_numbers

    @property
    def rows(self) -> int:
        """Rows in version 1, each with its shadow price."""
        return self.sizes(1).rows

    @property
    def prices(self) -> int:
        """Prices that the call for prices writes, in every version: an LMP a resource, four a zone."""
        return self.resources + 4 * self.zones

    @property
    def charges(self) -> int:
        """Charges that the call for charges writes in version 1."""
        return self.sizes(1).charges


START = ">5x"  # big-endian; length and version are passed over


@lru_cache(maxsize=16)
def letters(file: str, counts: Counts, version: int) -> str:
    """The type of each field of a file ('case' or 'certificate') but length and version, as struct has it."""
    text = "BBB"
    for part in PARTS[file]:
        of_one = "".join(entry.letter * _times(entry, counts) for entry in of_version(part.entries, version))
        text += of_one * (getattr(counts, part.of) if part.of else 1)
    return text


def _times(entry, counts):
    return counts.resources if entry.path.endswith("[]") else 1


LEAST, MOST = Counts(1, 1, 0), Counts(64, 8, 12)
# of the largest case, each in the version in which it is largest
LARGEST = Sizes(*(max(of_each) for of_each in zip(*(MOST.sizes(version) for version in FILE_VERSIONS))))


# ---- Every field of a file in its order.

Path = Tuple[Union[str, int], ...]


class Place(NamedTuple):
    """A field of a file with given counts: where it stands in the record, as text and step by step, and its range."""

    where: str
    path: Path
    least: int
    most: int
    unit: str


def path_of(where: str) -> Path:
    """'zones[1].regulating' step by step."""
    return tuple(int(word) if word.isdecimal() else word for word in re.findall(r"\w+", where))


@lru_cache(maxsize=16)
def places(file: str, counts: Counts, version: int) -> List[Place]:
    """Each field behind the counts, in the order of the file; none if the version is not known."""
    found = []
    for part in PARTS[file]:
        for item in range(getattr(counts, part.of) if part.of else 1):
            start = f"{part.path}[{item}]" if part.of else ""
            for entry in of_version(part.entries, version):
                name = ".".join(filter(None, (start, entry.path)))
                most = counts.zones if entry.most is None else entry.most
                for number in range(_times(entry, counts)):
                    where = f"{name[:-2]}[{number}]" if name.endswith("[]") else name
                    found.append(Place(where, path_of(where), entry.least, most, entry.unit))
    return found


@lru_cache(maxsize=16)
def shape(file: str, counts: Counts, version: int) -> Dict[str, Any]:
    """Which number of a file each field behind the counts is, from 0: in dictionaries and lists, by the paths of the fields."""
    whole: Dict[str, Any] = {}
    for number, place in enumerate(places(file, counts, version), 3):
        inner: Any = whole
        for step, after in zip(place.path, place.path[1:]):
            empty: Any = [] if isinstance(after, int) else {}
            if isinstance(step, str):
                inner = inner.setdefault(step, empty)
            else:
                if step == len(inner):
                    inner.append(empty)
                inner = inner[step]
        if isinstance(inner, list):
            inner.append(number)
        else:
            inner[place.path[-1]] = number
    return whole
