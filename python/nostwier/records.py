"""A case and a certificate with named fields, from a dictionary or JSON and back, from a file's bytes and back.

In dictionaries and JSON a field has the name that it has here. Kind, status and flags are written by their names; 'name' and
'note' are free text that no file carries. Fields with a default may be left out. Numbers are whole. Which field stands where in a
file of which version, layout says.
"""

import json
import operator
import os
import struct
from dataclasses import MISSING, dataclass, field, fields
from functools import lru_cache
from typing import Any, Callable, ClassVar, Dict, Iterator, List, NamedTuple, Tuple, Type, TypeVar, Union

from . import calls, layout, messages, model
from .enums import NO_TRIP, Availability, Breaker, Flags, Kind, Status
from .labels import Names
from .layout import CURVE_STEPS, CURVES, ENERGY_STEPS, FILE_VERSIONS, LEAST, MOST, RESOURCE_ROWS, ZONE_REQUIREMENTS, Counts, of_version
from .refusals import Refused


class Misfiled(ValueError):
    """A dictionary or JSON text that is no case or certificate: says where, and what is wanted."""


# ---- Forms: how a value is taken out of a dictionary, put into one, and made of a file's numbers.


class Form(NamedTuple):
    take: Callable[[Any, str], Any]  # (value, where) to the field's value
    give: Callable[[Any], Any]  # the field's value to one of JSON
    read: Callable[[Any, Any], Any] = lambda at, numbers: numbers[at]  # (layout.shape of it, a file's numbers) to the field's value


def _wrong(where, what):
    raise Misfiled(f"{where or 'the whole'}: {what}")


def _short(value):
    """A value as JSON has it, cut where it is long."""
    text = json.dumps(value, default=str, ensure_ascii=False)
    return text if len(text) <= 60 else text[:57] + "..."


UNIT_HELP = "power is in kW, ramps in kW a minute, prices of offers, curves and flowgates in cents per MWh, other prices in " \
            "thousandths of a cent, factors, shares and multipliers in thousandths"


def _take_whole(value, where):
    """Whole numbers of any kind (NumPy's too); no truth values, no fractions."""
    try:
        if not isinstance(value, bool):
            return operator.index(value)
    except TypeError:
        pass
    unit = f" ({UNIT_HELP})" if isinstance(value, (float, str)) else ""
    _wrong(where, f"a whole number is wanted, not {_short(value)}{unit}")


def _take_text(value, where):
    if not isinstance(value, str):
        _wrong(where, f"a text is wanted, not {_short(value)}")
    return value


def _named(names):
    """One of an enumeration's names; its number is taken as it is, for the library to judge."""

    def take(value, where):
        if isinstance(value, str):
            if value not in names.__members__:
                _wrong(where, f"there is no '{value}'; the names are {', '.join(names.__members__)}")
            return names[value]
        return _take_whole(value, where)

    return Form(take, lambda value: names(value).name if value in list(names) else int(value),
                lambda at, numbers: names(numbers[at]) if numbers[at] in list(names) else numbers[at])


def _bits(names):
    """A list of an enumeration's names; a number is taken as it is, for the library to judge."""

    def take(value, where):
        if not isinstance(value, list):
            return _take_whole(value, where)
        bits = names(0)
        for place, name in enumerate(value):
            if not isinstance(name, str) or name not in names.__members__:
                _wrong(f"{where}[{place}]", f"there is no {json.dumps(name)}; the names are {', '.join(names.__members__)}")
            bits |= names[name]
        return bits

    known = sum(names)

    def give(value):
        return [bit.name for bit in names if value & bit] if 0 <= value <= known else int(value)

    return Form(take, give, lambda at, numbers: names(numbers[at]))


def _list_of(form, most=None):
    def take(value, where):
        if isinstance(value, (str, bytes, dict)) or not hasattr(value, "__iter__"):
            _wrong(where, f"a list is wanted, not {_short(value)}")
        value = list(value)
        if most is not None and len(value) > most:
            _wrong(where, f"at most {most} are possible, not {len(value)}")
        return [form.take(item, f"{where}[{place}]") for place, item in enumerate(value)]

    return Form(take, lambda value: [form.give(item) for item in value], lambda at, numbers: [form.read(item, numbers) for item in at])


def _record(cls):
    """A dictionary with the names of a class's fields."""

    def take(value, where):
        if not isinstance(value, dict):
            _wrong(where, f"a dictionary is wanted, with {', '.join(_keys(cls))}")
        known = {name: entry for entry in _keys(cls).values() for name in (entry.name, entry.metadata["key"]) if name}
        taken = {}
        for key, item in value.items():
            if key == "note":
                continue
            if key not in known:
                _wrong(where, f"there is no field '{key}'; the fields are {', '.join(_keys(cls))}")
            entry = known[key]
            if entry.name in taken:
                _wrong(where, f"the field '{entry.name}' is given twice, as '{entry.metadata['key']}' too")
            taken[entry.name] = entry.metadata["form"].take(item, f"{where}.{key}" if where else key)
        for key, entry in _keys(cls).items():
            if key not in taken and _wanted(entry):
                _wrong(where, f"the field '{key}' is missing; it is a field of {cls.__name__}")
        return cls(**taken)

    def give(value):
        given = {}
        for key, entry in _keys(cls).items():
            item = getattr(value, entry.name)
            if key != "name" or item:
                given[key] = entry.metadata["form"].give(item)
        return given

    def read(at, numbers):
        # a list of nothing has no numbers
        return cls(**{key: entry.metadata["form"].read(at.get(key, ()), numbers) for key, entry in _keys(cls).items()
                      if key in at or _wanted(entry)})

    return Form(take, give, read)


@lru_cache(maxsize=None)
def _keys(cls):
    """The fields of a class that dictionaries have too."""
    return {entry.name: entry for entry in fields(cls) if "form" in entry.metadata}


def _wanted(entry):
    return entry.default is MISSING and entry.default_factory is MISSING


def _field(form, default=MISSING, key=None):
    """A field with its form; a key is another name under which it is taken."""
    metadata = {"form": form, "key": key}
    if callable(default):
        return field(default_factory=default, metadata=metadata)
    return field(default=default, metadata=metadata)


WHOLE = Form(_take_whole, int)
TEXT = Form(_take_text, str)
TRIP = Form(
    lambda value, where: NO_TRIP if value is None else _take_whole(value, where),
    lambda value: None if value == NO_TRIP else int(value),
)


@dataclass
class Step:
    """A step of an offer or of a demand curve: width in kW, price in cents per MWh."""

    width: int = _field(WHOLE)
    price: int = _field(WHOLE)


@dataclass
class Limits:
    """A pair of limits, kW."""

    minimum: int = _field(WHOLE, 0)
    maximum: int = _field(WHOLE, 0)


@dataclass
class Reserve:
    """The market-wide figures of one reserve: multiplier and share in thousandths, requirement in kW."""

    multiplier: int = _field(WHOLE)
    minutes: int = _field(WHOLE)
    share: int = _field(WHOLE, 0)
    requirement: int = _field(WHOLE, 0)


@dataclass
class Reserves:
    """The figures of each kind of reserve in the whole market."""

    contingency: Reserve = _field(_record(Reserve))
    regulating: Reserve = _field(_record(Reserve))
    short_term: Reserve = _field(_record(Reserve))


class _EachCurve:
    """One value for each of the curves, which are gone through in their order."""

    def __iter__(self):
        return iter([getattr(self, key) for key in _keys(type(self)) if key != "name"])


@dataclass
class ByCurve(_EachCurve):
    """Quantities in kW, or prices in thousandths of a cent."""

    operating: int = _field(WHOLE, 0)
    regulating_plus_spinning: int = _field(WHOLE, 0)
    regulating: int = _field(WHOLE, 0)
    short_term: int = _field(WHOLE, 0)


@dataclass
class Zone(_EachCurve):
    """A zone's requirements, kW."""

    operating: int = _field(WHOLE, 0)
    regulating_plus_spinning: int = _field(WHOLE, 0)
    regulating: int = _field(WHOLE, 0)
    short_term: int = _field(WHOLE, 0)
    name: str = _field(TEXT, "")


def _steps_of(most):
    """A list of steps; those of a file that are width 0 at price 0 are left out at its end."""
    form = _list_of(_record(Step), most)

    def read(at, numbers):
        steps = form.read(at, numbers)
        while steps and steps[-1] == Step(0, 0):
            steps.pop()
        return steps

    return form._replace(read=read)


STEPS_OF_CURVE = _steps_of(CURVE_STEPS)


@dataclass
class Curves(_EachCurve):
    """The four demand curves."""

    operating: List[Step] = _field(STEPS_OF_CURVE, list)
    regulating_plus_spinning: List[Step] = _field(STEPS_OF_CURVE, list)
    regulating: List[Step] = _field(STEPS_OF_CURVE, list)
    short_term: List[Step] = _field(STEPS_OF_CURVE, list)


@dataclass
class Resource:
    """A resource: kW, kW a minute, cents per MWh."""

    kind: Kind = _field(_named(Kind))
    zone: int = _field(WHOLE)
    breaker: Breaker = _field(_named(Breaker))
    estimated_output: int = _field(WHOLE)
    economic: Limits = _field(_record(Limits))
    ramp_up: int = _field(WHOLE)
    ramp_down: int = _field(WHOLE)
    ramp_rate: int = _field(WHOLE)
    initial_energy: int = _field(WHOLE)
    energy_steps: List[Step] = _field(_steps_of(ENERGY_STEPS))
    name: str = _field(TEXT, "")
    status: Status = _field(_bits(Status), Status(0))
    minutes_since_trip: int = _field(TRIP, NO_TRIP)
    flags: Flags = _field(_bits(Flags), Flags(0))
    regulating: Limits = _field(_record(Limits), Limits)
    emergency: Limits = _field(_record(Limits), Limits)
    off_line_response_limit: int = _field(WHOLE, 0)
    off_line_short_term_limit: int = _field(WHOLE, 0)
    self_schedule: int = _field(WHOLE, 0)
    regulating_price: int = _field(WHOLE, 0)
    contingency_price: int = _field(WHOLE, 0)
    off_line_short_term_price: int = _field(WHOLE, 0)

    @property
    def availability(self) -> Availability:
        """Whether it is on-line, off-line or tripped; Case.state says why, and its limits."""
        return model.availability(self)

    @property
    def on_line(self) -> bool:
        """Whether it is on-line, and neither off-line nor tripped."""
        return self.availability is Availability.on_line


@dataclass
class Flowgate:
    """A flowgate: its limit in kW, net of other flows; a shift factor in thousandths for each resource."""

    limit: int = _field(WHOLE)
    shift_factors: List[int] = _field(_list_of(WHOLE))
    name: str = _field(TEXT, "")


# ---- Fields of a file.


class Field(NamedTuple):
    """A field of a file: its path in the record, its number, and the ends and unit of its range."""

    where: str
    number: int
    least: int
    most: int
    unit: str = ""

    @property
    def inside(self) -> bool:
        """Whether the number is within its range."""
        return self.least <= self.number <= self.most


def _at(record, path):
    """What stands there in a record; 0 in a step that is not given."""
    for step in path:
        if isinstance(step, str):
            record = getattr(record, step)
        elif step < len(record):
            record = record[step]
        else:
            return 0
    return record


def _laid_out(value, indentation):
    items = value.values() if isinstance(value, dict) else value if isinstance(value, list) else []
    if not any(isinstance(item, (dict, list)) and item for item in items):
        return json.dumps(value, ensure_ascii=False)
    inner = indentation + "  "
    if isinstance(value, dict):
        parts = [f"{json.dumps(key, ensure_ascii=False)}: {_laid_out(item, inner)}" for key, item in value.items()]
        ends = "{}"
    else:
        parts = [_laid_out(item, inner) for item in value]
        ends = "[]"
    lines = (",\n" + inner).join(parts)
    return f"{ends[0]}\n{inner}{lines}\n{indentation}{ends[1]}"


def _once(pairs):
    """A dictionary of JSON, none of whose fields is given twice."""
    taken = dict(pairs)
    if len(taken) < len(pairs):
        keys = [key for key, _ in pairs]
        raise Misfiled(f"the field '{next(key for key in keys if keys.count(key) > 1)}' is given twice")
    return taken


OneFiled = TypeVar("OneFiled", bound="Filed")


class Filed:
    """What a case and a certificate have in common."""

    FILE: ClassVar[str]  # as layout has it
    COUNTED: ClassVar[Tuple[str, str, str]]  # where the lists of resources, zones and flowgates are
    version: int

    @classmethod
    def from_dict(cls: Type[OneFiled], data: Dict[str, Any]) -> OneFiled:
        """From a dictionary; Misfiled says what is wrong with it."""
        return _record(cls).take(data, "")

    def to_dict(self) -> Dict[str, Any]:
        """As a dictionary, with the names that the fields have here."""
        return _record(type(self)).give(self)

    @classmethod
    def from_json(cls: Type[OneFiled], text: str) -> OneFiled:
        """From a JSON text."""
        try:
            data = json.loads(text, object_pairs_hook=_once)
        except Misfiled:
            raise
        except ValueError as error:  # no JSON, or a number of more digits than Python takes
            raise Misfiled(f"the text is no JSON: {error}") from None
        except RecursionError:
            raise Misfiled("the text is no JSON of a case or certificate: lists in lists without end") from None
        return cls.from_dict(data)

    def to_json(self) -> str:
        """JSON text; what holds no lists and dictionaries is on one line."""
        return _laid_out(self.to_dict(), "") + "\n"

    @classmethod
    def load(cls: Type[OneFiled], path: Union[str, "os.PathLike[str]"]) -> OneFiled:
        """From a JSON source, or from a file that is made of one: whichever the path holds."""
        with open(path, "rb") as file:
            content = file.read()
        if content[:1].isspace() or content[:1] in (b"{", b"\xef"):  # the last begins a mark that some editors put first
            try:
                return cls.from_json(content.decode("utf-8-sig"))
            except UnicodeDecodeError:
                raise Misfiled(f"'{path}' is no text in UTF-8") from None
        return cls.from_bytes(content)

    def save(self, path: Union[str, "os.PathLike[str]"]) -> None:
        """Writes the file; as a JSON source if the path ends in '.json'. Nothing is written if it is refused."""
        content = self.to_json().encode("utf-8") if str(path).endswith(".json") else self.to_bytes()
        with open(path, "wb") as file:
            file.write(content)

    def to_bytes(self) -> bytes:
        """The file; refused if no such file is valid."""
        raise NotImplementedError

    @classmethod
    def from_bytes(cls: Type[OneFiled], file: bytes) -> OneFiled:
        """From a file."""
        raise NotImplementedError

    @classmethod
    def unjudged(cls: Type[OneFiled], file: bytes) -> OneFiled:
        """From a file of the right size, without the library, so that its numbers are not judged; ValueError if the size is
        another, or the version is not known."""
        counts = Counts.of_file(file)
        if len(file) != getattr(counts.sizes(file[4]), f"{cls.FILE}_bytes"):
            raise ValueError("the file is not of the size that its counts need")
        return cls._of_numbers(struct.unpack(layout.START + layout.letters(cls.FILE, counts, file[4]), file), file[4])

    @classmethod
    def _of_numbers(cls, numbers, version):
        record = _record(cls).read(layout.shape(cls.FILE, Counts(*numbers[:3]), version), numbers)
        record.version = version
        return record

    def _written(self, write, refusal):
        """The file that the library writes; of a version that is not known none, refused by the number that such a file is."""
        if self.version not in FILE_VERSIONS:
            raise Refused(refusal, where=f"its version is {self.version}")
        numbers = self.numbers()
        try:
            return write(numbers)
        except Refused as refused:
            raise messages.of_record(refused.number, self) from None

    @property
    def counts(self) -> Counts:
        """How many resources, zones and flowgates there are."""
        return Counts(*(len(_at(self, layout.path_of(where))) for where in self.COUNTED))

    def fields(self) -> Iterator[Field]:
        """Each field of the file but length and version, in its order, with the ends of its range; of a quantity they are what
        its bytes hold, as its bound is in the case."""
        counts = self.counts
        for what, number, least, most in zip(self.COUNTED, counts, LEAST, MOST):
            yield Field(f"the number of {what}", number, least, most)
        for place in layout.places(self.FILE, counts, self.version):
            yield Field(place.where, _at(self, place.path), place.least, place.most, place.unit)

    def misfits(self) -> Iterator[Field]:
        """The fields whose number their bytes do not hold."""
        for entry, letter in zip(self.fields(), layout.letters(self.FILE, self.counts, self.version)):
            bits = 8 * struct.calcsize(">" + letter)
            least, most = (-(2**(bits - 1)), 2**(bits - 1) - 1) if letter.islower() else (0, 2**bits - 1)
            if not least <= entry.number <= most:
                yield entry

    def numbers(self) -> List[int]:
        """Every field but length and version, in the file's order."""
        return [_take_whole(entry.number, entry.where) for entry in self.fields()]


@dataclass
class Case(Filed):
    """One Dispatch Interval. What is not given of a curve or of a resource's energy steps is width 0 at price 0. The version is that
    of its file, which dictionaries do not have."""

    demand: int = _field(WHOLE)
    reserves: Reserves = _field(_record(Reserves))
    zones: List[Zone] = _field(_list_of(_record(Zone)))
    resources: List[Resource] = _field(_list_of(_record(Resource)))
    name: str = _field(TEXT, "")
    curves: Curves = _field(_record(Curves), Curves)
    flowgates: List[Flowgate] = _field(_list_of(_record(Flowgate)), list)
    version: int = 1

    FILE = "case"
    COUNTED = ("resources", "zones", "flowgates")

    def state(self, number: int) -> model.State:
        """On-line or not, MAX, MIN, HI, LO and upper bounds of a resource, by its number from 1, with their reasons."""
        return model.state(self, number)

    def states(self) -> List[model.State]:
        """The state of each resource."""
        return model.states(self)

    @property
    def names(self) -> Names:
        """The names of zones, resources and flowgates."""
        return Names([zone.name for zone in self.zones], [resource.name for resource in self.resources],
                     [flowgate.name for flowgate in self.flowgates])

    def numbers(self) -> List[int]:
        """Every field but length and version, in the file's order."""
        for place, flowgate in enumerate(self.flowgates):
            if len(flowgate.shift_factors) != len(self.resources):
                _wrong(f"flowgates[{place}].shift_factors", f"{len(self.resources)} are wanted, one for each resource")
        for place, resource in enumerate(self.resources):
            _at_most(f"resources[{place}].energy_steps", resource.energy_steps, ENERGY_STEPS)
        for curve in of_version(CURVES, self.version):
            _at_most(f"curves.{curve.key}", getattr(self.curves, curve.key), CURVE_STEPS)
        return super().numbers()

    def to_bytes(self) -> bytes:
        """The case as a file; refused by the library's number, with the first field that it is about."""
        return self._written(calls.write_case, 2)

    @classmethod
    def from_bytes(cls, file: bytes) -> "Case":
        """The case of a file; refused if it is not valid."""
        return cls._of_numbers(calls.read_case(file), calls.as_file(file)[4])


def _at_most(where, steps, most):
    if len(steps) > most:
        _wrong(where, f"at most {most} are possible, not {len(steps)}")


ROW_WORDS = {row.key: row.words for row in RESOURCE_ROWS}


@dataclass
class ResourceRows:
    """The prices of a resource's five rows, in thousandths of a cent. A row's own words, as 'e <= HI', are taken for its name."""

    within_max: int = _field(WHOLE, 0, ROW_WORDS["within_max"])
    short_term_within_max: int = _field(WHOLE, 0, ROW_WORDS["short_term_within_max"])
    above_min: int = _field(WHOLE, 0, ROW_WORDS["above_min"])
    within_hi: int = _field(WHOLE, 0, ROW_WORDS["within_hi"])
    above_lo: int = _field(WHOLE, 0, ROW_WORDS["above_lo"])

    def __iter__(self) -> Iterator[int]:
        return iter([getattr(self, entry.name) for entry in fields(self)])


@dataclass
class Dispatch:
    """A resource's five quantities in kW, and the prices of its rows."""

    e: int = _field(WHOLE)
    g: int = _field(WHOLE, 0)
    c: int = _field(WHOLE, 0)
    s: int = _field(WHOLE, 0)
    o: int = _field(WHOLE, 0)
    row_prices: ResourceRows = _field(_record(ResourceRows), ResourceRows)


@dataclass
class RowPrices:
    """Prices of the rows that are no resource's: thousandths of a cent, but of flowgates cents."""

    energy: int = _field(WHOLE)
    market: ByCurve = _field(_record(ByCurve), ByCurve)
    zones: List[ByCurve] = _field(_list_of(_record(ByCurve)), list)
    flowgates: List[int] = _field(_list_of(WHOLE), list)


@dataclass
class Certificate(Filed):
    """A proposed dispatch with its shadow prices. The version is that of its file, which dictionaries do not have."""

    row_prices: RowPrices = _field(_record(RowPrices))
    resources: List[Dispatch] = _field(_list_of(_record(Dispatch)))
    cleared: ByCurve = _field(_record(ByCurve), ByCurve)
    name: str = _field(TEXT, "")
    version: int = 1

    FILE = "certificate"
    COUNTED = ("resources", "row_prices.zones", "row_prices.flowgates")

    def to_bytes(self) -> bytes:
        """The certificate as a file; whether a case accepts it, the check says."""
        return self._written(calls.write_certificate, 9)

    @classmethod
    def from_bytes(cls, file: bytes) -> "Certificate":
        """The certificate of a file; neither its prices nor its quantities are judged."""
        return cls._of_numbers(calls.read_certificate(file), calls.as_file(file)[4])

    def prices_of_rows(self) -> List[int]:
        """The price of each row, row 1 first, as the file has it."""
        own = self.row_prices
        prices = [own.energy] + [getattr(own.market, curve.key) for curve in of_version(CURVES, self.version)]
        prices += [getattr(zone, required.key) for zone in own.zones for required in of_version(ZONE_REQUIREMENTS, self.version)]
        prices += own.flowgates
        return prices + [getattr(resource.row_prices, row.key) for resource in self.resources
                         for row in of_version(RESOURCE_ROWS, self.version)]
