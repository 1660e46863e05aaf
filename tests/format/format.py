"""Holds the tables of docs/FORMAT.md to the library, and the figures of docs/MODEL.md.

A field's entry is used as a reader of the page would use it: bytes are put into a file at the entry's offset in its type, and
the library says what they mean. So an offset, type, range, refusal, size, place, row number or order that the library does not
have is noticed. Words are held to the Python module, whose messages have them too. All that is done for each version of the
files: a column whose head names a version is of that one, and – in it stands for what the version has not. At the end entries
are made wrong one by one, and each time a check must fail.

    python3 format.py TOP      TOP is the top of the repository
"""

import ctypes
import functools
import random
import re
import sys
from pathlib import Path
from typing import NamedTuple

import nostwier
from nostwier import Case, Certificate, Counts, Refused, layout, library

TYPES = {"u8": (1, False), "u16": (2, False), "u32": (4, False), "i16": (2, True), "i32": (4, True)}
STEPS = {"curves": 4, "energy_steps": 10}
CURVES = ["operating", "regulating_plus_spinning", "regulating", "short_term"]
COUNTS = [Counts(1, 1, 0), Counts(3, 2, 2), Counts(2, 8, 1), Counts(5, 1, layout.MOST.flowgates), layout.MOST]
SMALL = Counts(3, 2, 2)


class Wrong(Exception):
    """The page cannot be read as it is meant to be."""


def ends(kind):
    size, signed = TYPES[kind]
    return (-(1 << 8 * size - 1), (1 << 8 * size - 1) - 1) if signed else (0, (1 << 8 * size) - 1)


def evaluate(formula, **values):
    match = re.fullmatch(r"`([0-9RZFrzfj+*() -]+)`", formula)
    if not match:
        raise Wrong(f"{formula} is no formula")
    try:
        return eval(match[1], {"__builtins__": {}}, values)
    except (NameError, SyntaxError, TypeError) as error:
        raise Wrong(f"{formula}: {error}") from None


def of_counts(counts):
    return {"R": counts.resources, "Z": counts.zones, "F": counts.flowgates}


# ---- the page


class Table(NamedTuple):
    title: str
    head: list
    rows: list  # of cells


def tables(text):
    """The tables of a page below the heading of each."""
    found, title, table = [], "", None
    for line in text.splitlines():
        if line.startswith("#"):
            title = line.lstrip("# ")
        if not line.startswith("|"):
            table = None
            continue
        cells = [cell.strip() for cell in line.strip("|").split("|")]
        if table is None:
            table = Table(title, cells, [])
            found.append(table)
        elif not set(line) <= set("|-"):
            if len(cells) != len(table.head):
                raise Wrong(f"a line of the table below '{title}' has {len(cells)} cells: {line}")
            table.rows.append(cells)
    return found


class Entry(NamedTuple):
    """A field at its place in a file with given counts."""

    path: str  # in the Python object
    offset: int
    type: str
    least: int
    most: int  # None: no fixed range
    refusal: int  # 0: every value is taken
    part: str
    field: str
    number: dict  # r, z, f and j

    @property
    def size(self):
        return TYPES[self.type][0]

    def get(self, file):
        return int.from_bytes(file[self.offset:self.offset + self.size], "big", signed=TYPES[self.type][1])

    def put(self, file, value):
        return file[:self.offset] + value.to_bytes(self.size, "big", signed=TYPES[self.type][1]) + file[self.offset + self.size:]


# where a part's fields stand in the Python objects
PREFIX = {
    "Case": {"head": "", "zone": "zones[{z}].", "resource": "resources[{r}].", "flowgate": "flowgates[{f}]."},
    "Certificate": {"head": "", "zone": "row_prices.zones[{z}].", "flowgate": "", "resource": "resources[{r}]."},
}


# the columns of a table, that which differs from version to version first
SIZES = ("", "what")
PARTS = ("begins at", "part", "bytes")
FIELDS = ("offset", "type", "field", "range", "refused", "meaning")
NUMBERED = {
    "Places of refusal 13": ("place", "quantity"), "Rows of refusal 14": ("row", "rule", "price in the certificate"),
    "Order of the charges": ("charge", "of"), "Order of the prices": ("number", "price"),
}
OF_VERSION = re.compile(r"(?:(.+), )?version (\d+)")  # the head of a column


class Page:
    """The page as a reader of files of one version has it."""

    def __init__(self, text, version):
        self.text = text
        self.version = version
        self.tables = {}
        for table in tables(text):
            self.tables.setdefault(table.title, []).append(table)

    def table(self, title):
        if len(self.tables.get(title, [])) != 1:
            raise Wrong(f"below '{title}' there is not one table")
        return self.tables[title][0]

    def column(self, table, name):
        """Which column has this: one of the version, or one of all."""
        own = f"{name}, version {self.version}" if name else f"version {self.version}"
        for head in (own, name):
            if head in table.head:
                return table.head.index(head)
        raise Wrong(f"the table below '{table.title}' has no column '{own}'")

    def lines(self, title, names):
        """These cells of each line of a table that is of the version."""
        table = self.table(title)
        columns = [self.column(table, name) for name in names]
        return [[cells[column] for column in columns] for cells in table.rows if cells[columns[0]] != "–"]

    def sizes(self):
        return {what: formula for formula, what in self.lines("Sizes", SIZES)}

    def pair(self, counts, off_line=None):
        """A pair of files of the version."""
        return roomy(counts, self.version, off_line)

    def size(self, what, counts):
        return evaluate(self.sizes()[what], **of_counts(counts))

    def entries(self, file, counts):
        """The entries of a file ('Case' or 'Certificate'), in the page's order."""
        given = of_counts(counts)
        found = []
        for begin, part, size in self.lines(f"The {file.lower()}", PARTS):
            part, *letter = part.split()
            for number in range(1, {"head": 1, "zone": given["Z"], "resource": given["R"], "flowgate": given["F"]}[part] + 1):
                numbers = {letter[0]: number} if letter else {}
                start = evaluate(begin, **given, **numbers)
                of_part = []
                for cells in self.lines(f"{file}: {part}", FIELDS):
                    of_part += self.expand(file, counts, part, numbers, start, cells)
                found += sorted(of_part, key=lambda entry: entry.offset)  # a step's width and price take turns
                if found[-1].offset + found[-1].size != start + evaluate(size, **given):
                    raise Wrong(f"{file}: {part} is not of the size that the table of parts says")
        return found

    def expand(self, file, counts, part, numbers, start, cells):
        offset, kind, field, span, refused, meaning = cells
        if kind not in TYPES or not re.fullmatch(r"`[\w.\[\]]+`", field):
            raise Wrong(f"{file}: {part}: {kind} {field}")
        field = field.strip("`")
        least, most = self.range(span, counts)
        index = re.search(r"\[(\w)\]", field)
        index = index[1] if index else ""
        if index == "j":
            many = STEPS[next(name for name in STEPS if name in field)]
            said = re.search(r"1 to (\d+)", meaning)
            if said and int(said[1]) != many:
                raise Wrong(f"{file}: {part}: {field} has {many} steps")
        else:
            many = {"r": counts.resources, "": 1, "f": 1}[index]
        for i in range(1, many + 1):
            number = dict(numbers)
            if index in ("j", "r"):
                number[index] = i
            name = PREFIX[file][part] + field.replace(f"[{index}]", "[{%s}]" % index)
            path = name.format(**{letter: n - 1 for letter, n in number.items()})
            at = start + evaluate(offset, **number)
            yield Entry(path, at, kind, least, most, 0 if refused == "–" else int(refused), part, field, number)

    def range(self, span, counts):
        match = re.fullmatch(r"(−?[\d,]+) to (−?[\d,]+|Z|its bound)", span)
        if not match:
            if span not in ("the size − 4", "the case's"):
                raise Wrong(f"the range '{span}'")
            return None, None
        value = {"Z": counts.zones, "its bound": None}
        least, most = (value[end] if end in value else int(end.replace(",", "").replace("−", "-")) for end in match.groups())
        return least, most

    def numbered(self, title):
        return self.lines(title, NUMBERED[title])


# ---- a case with room everywhere, and its certificate; by names


class Pair(NamedTuple):
    """A case and a certificate, as objects and as files."""

    case: Case
    certificate: Certificate
    case_file: bytes
    certificate_file: bytes

    def each(self):
        return [
            ("Case", self.case, self.case_file, nostwier.write_case, nostwier.read_case),
            ("Certificate", self.certificate, self.certificate_file, nostwier.write_certificate, nostwier.read_certificate),
        ]


@functools.lru_cache(maxsize=None)
def roomy(counts, version, off_line=None):
    """A pair in which every row but row 1 has slack, and the steps' prices have room between them. None is changed for good."""
    reserve = {"multiplier": 1000, "minutes": 10, "share": 500, "requirement": 400_000}
    steps = [{"width": 12_000 + 100 * j, "price": 1_000 + 50 * j} for j in range(10)]
    kinds = ["conventional", "intermittent"]
    resources, dispatch = [], []
    for i in range(counts.resources):
        on_line = i != off_line
        resources.append({
            "kind": kinds[i % 2], "zone": i % counts.zones + 1, "breaker": "closed" if on_line else "open", "status": 9,
            "minutes_since_trip": 200, "flags": 131 + 12, "estimated_output": 50_000 + i,
            "economic": {"minimum": 10_000, "maximum": 300_000}, "regulating": {"minimum": 12_000, "maximum": 150_000},
            "emergency": {"minimum": 8_000, "maximum": 320_000}, "ramp_up": 9_000, "ramp_down": 9_100, "ramp_rate": 9_200,
            "initial_energy": 100_000, "off_line_response_limit": 20_000, "off_line_short_term_limit": 15_000,
            "self_schedule": 500, "regulating_price": 100, "contingency_price": 200, "off_line_short_term_price": 300,
            "energy_steps": steps,
        })
        dispatch.append({"e": 100_000, "g": 5_000, "c": 6_000, "s": 7_000} if on_line else {"e": 0, "c": 3_000, "o": 4_000})
    curve = [{"width": 100_000 - 100 * j, "price": 4_000 - 100 * j} for j in range(4)]
    flowgates = [
        {"limit": 19_000_000, "shift_factors": [3 + i + f for i in range(counts.resources)]} for f in range(counts.flowgates)
    ]
    case = Case.from_dict({
        "demand": sum(d["e"] for d in dispatch),
        "reserves": {name: reserve for name in ("contingency", "regulating", "short_term")},
        "curves": {name: curve for name in CURVES}, "zones": [{name: 1 for name in CURVES}] * counts.zones,
        "resources": resources, "flowgates": flowgates,
    })
    # no reserve is asked of a zone without resources
    for z, zone in enumerate(case.zones):
        if not any(r.zone == z + 1 and r.breaker for r in case.resources):
            for name in CURVES:
                setattr(zone, name, 0)
    certificate = Certificate.from_dict({
        "cleared": {name: 500 for name in CURVES},
        "row_prices": {"energy": 0, "zones": [{}] * counts.zones, "flowgates": [0] * counts.flowgates}, "resources": dispatch,
    })
    case.version = certificate.version = version
    return Pair(case, certificate, case.to_bytes(), certificate.to_bytes())


def follow(thing, path):
    """The owner of a path's last name or index, and that."""
    steps = [int(step) if step.isdecimal() else step for step in re.findall(r"\w+", path)]
    for step in steps[:-1]:
        thing = thing[step] if isinstance(step, int) else getattr(thing, step)
    return thing, steps[-1]


def take(thing, path):
    owner, last = follow(thing, path)
    return owner[last] if isinstance(last, int) else getattr(owner, last)


def place(thing, path, value):
    owner, last = follow(thing, path)
    if isinstance(last, int):
        owner[last] = value
    else:
        setattr(owner, last, value)


def refusal(call, *arguments):
    """The refusal's number and place, or 0 and 0."""
    try:
        call(*arguments)
    except Refused as refused:
        return refused.number, refused.place
    return 0, 0


def all_prices(case, certificate):
    prices = nostwier.prices(case, certificate)
    return prices.lmps + [price for zone in prices.zones for price in zone]


# fields of a case that any value within their range leaves valid
FREE = ("demand", "estimated_output", "initial_energy", "self_schedule", "limit", "shift_factors[r]")
HEADS = ("length", "version", "R", "Z", "F")

# ---- the checks: each is a generator of (what, whether it is so)


def check_sizes(page):
    sizes = page.sizes()
    most = [re.fullmatch(r"(\d+) to (\d+)", sizes[what]) for what in ("resources, R", "zones, Z", "flowgates, F")]
    yield "the ends of R, Z and F", all(most) and [tuple(map(int, m.groups())) for m in most] == [
        (entry.least, entry.most) for entry in page.entries("Case", SMALL)[2:5]]
    for counts in COUNTS:
        _, _, case, certificate = page.pair(counts)
        both = (case, len(case), certificate, len(certificate))
        for what, found in {
            "bytes of a case": len(case), "bytes of a certificate": len(certificate),
            "quantities": len(nostwier.quantity_labels(counts, version=page.version)),
            "rows": len(nostwier.row_labels(counts, version=page.version)),
        }.items():
            yield f"{what}, {tuple(counts)}", page.size(what, counts) == found
        # a buffer of so many numbers is long enough, and one shorter is not
        for what, name, files in (
            ("numbers of a case", "nostwier_read_case", both[:2]),
            ("numbers of a certificate", "nostwier_read_certificate", both[2:]),
            ("charges", "nostwier_charges", both), ("prices", "nostwier_prices", both),
        ):
            size = page.size(what, counts)
            answers = [library.function(name)(*files, (ctypes.c_int64 * size)(), lent).refusal for lent in (size, size - 1)]
            yield f"{what}, {tuple(counts)}", answers == [0, 15]


def check_layout(page):
    """Entries stand side by side from 0 to the end; the file's numbers are the entries' values in their order."""
    luck = random.Random(1)
    for counts in COUNTS:
        for file, thing, _, write, read in page.pair(counts).each():
            entries = page.entries(file, counts)
            begins = [entry.offset for entry in entries] + [page.size(f"bytes of a {file.lower()}", counts)]
            side_by_side = all(entry.offset + entry.size == after for entry, after in zip(entries, begins[1:]))
            yield f"{file} {tuple(counts)}: no gap", begins[0] == 0 and side_by_side
            yield f"{file} {tuple(counts)}: the head", [e.field for e in entries[:5]] == list(HEADS)
            numbers = thing.numbers()
            if file == "Certificate":
                numbers[3:] = [luck.randrange(2**31) for _ in numbers[3:]]  # any number that fits is taken
            else:
                for i, entry in enumerate(entries[2:]):
                    if entry.field in FREE:
                        numbers[i] = luck.randint(entry.least, entry.most)
            bytes_ = write(numbers)
            values = [entry.get(bytes_) for entry in entries]
            yield f"{file} {tuple(counts)}: the numbers", values[2:] == numbers == read(bytes_)
            yield f"{file} {tuple(counts)}: length and version", values[:2] == [len(bytes_) - 4, page.version]


def check_names(page):
    """A field that is set by its name changes the bytes at its offset, and no others."""
    for file, thing, before, _, _ in page.pair(SMALL).each():
        for entry in page.entries(file, SMALL):
            if entry.field in HEADS:
                continue
            try:
                old = int(take(thing, entry.path))
            except (AttributeError, IndexError, TypeError):
                yield f"{file}: there is no {entry.path}", False
                continue
            new = old + 1 if entry.most is None or old < entry.most else old - 1
            place(thing, entry.path, new)
            try:
                after = thing.to_bytes()
            finally:
                place(thing, entry.path, old)
            yield f"{file}: {entry.path}", old == entry.get(before) and after == entry.put(before, new)


def check_types(page):
    """A number fits a field exactly if the type can hold it."""
    for file, thing, _, write, _ in page.pair(Counts(2, 2, 1)).each():
        numbers = thing.numbers()
        for i, entry in enumerate(page.entries(file, Counts(2, 2, 1))[2:]):
            if entry.field in HEADS:
                continue

            def answer(value):
                return refusal(write, numbers[:i] + [value] + numbers[i + 1:])[0]

            least, most = ends(entry.type)
            refused = [answer(value) == 16 for value in (least - 1, least, most, most + 1)]
            yield f"{file}: {entry.path}: {entry.type}", refused == [True, False, False, True]


def check_ranges(page):
    """The ends of a range are not refused by the entry's refusal; one beyond is."""
    _, _, case, certificate = page.pair(SMALL)
    yield "the pair is accepted", refusal(nostwier.check_certificate, case, certificate) == (0, 0)
    for file, bytes_ in (("Case", case), ("Certificate", certificate)):

        def answer(entry, value):
            changed = entry.put(bytes_, value)
            if file == "Case":
                return refusal(nostwier.check_case, changed)[0]
            return refusal(nostwier.check_certificate, case, changed)[0]

        for entry in page.entries(file, SMALL):
            low, high = ends(entry.type)
            least, most = entry.least, entry.most
            if most is None:  # the value is right as it is; another one is wrong, of a quantity any above the bound
                value = entry.get(bytes_)
                yield f"{file}: {entry.path}: as it is", answer(entry, value) == 0 and least in (None, 0)
                yield f"{file}: {entry.path}: wrong", answer(entry, high if least == 0 else value + 1) == entry.refusal
                continue
            if entry.refusal == 0:
                taken = {answer(entry, value) for value in (low, high)} == {0}
                yield f"{file}: {entry.path}: every value", (least, most) == (low, high) and taken
                continue
            for value in (least, most):
                yield f"{file}: {entry.path}: {value} is within", answer(entry, value) in {0, *range(entry.refusal + 1, 15)}
            beyond = [value for value in (least - 1, most + 1) if low <= value <= high]
            yield f"{file}: {entry.path}: beyond", beyond and {answer(entry, value) for value in beyond} == {entry.refusal}


def in_words(label, numbers):
    """A label of the page with its numbers in the place of r, z, f and j."""
    for letter, number in numbers.items():
        label = re.sub(rf"\b(resource|zone|flowgate|step) {letter}\b", rf"\1 {number}", label)
    return label


def repeats(label, counts):
    """The numbers with which a line of a table is to be read."""
    steps = STEPS["curves" if "curve" in label else "energy_steps"]
    many = {
        "r": ("resource", counts.resources), "z": ("zone", counts.zones), "f": ("flowgate", counts.flowgates),
        "j": ("step", steps),
    }
    found = [{}]
    for letter, (word, count) in many.items():
        if re.search(rf"\b{word} {letter}\b", label):
            found = [{**numbers, letter: n} for numbers in found for n in range(1, count + 1)]
    return found


def check_orders_in_words(page):
    for counts in COUNTS[:4]:
        given = of_counts(counts)
        rows = nostwier.row_labels(counts, version=page.version)
        for title, labels, first in (
            ("Places of refusal 13", nostwier.quantity_labels(counts, version=page.version), 0), ("Rows of refusal 14", rows, 0),
            ("Order of the charges", nostwier.charge_labels(counts, version=page.version), len(rows)),
        ):
            found = {}
            for formula, label, *_ in page.numbered(title):
                for numbers in repeats(label, counts):
                    found[evaluate(formula, **given, **numbers)] = in_words(label, numbers)
            yield f"{title}, {tuple(counts)}", found == {n: label for n, label in enumerate(labels, 1) if n > first}


def by_field(page, file, counts):
    return {entry.path: entry for entry in page.entries(file, counts)}


def check_places(page):
    """Each quantity above its bound is refused at its place."""
    _, _, case, certificate = page.pair(SMALL)
    fields = by_field(page, "Certificate", SMALL)
    for formula, label in page.numbered("Places of refusal 13"):
        for numbers in repeats(label, SMALL):
            if label.startswith("cleared "):
                path = "cleared." + label.split()[1].replace("-", "_")
            else:
                path = f"resources[{numbers['r'] - 1}].{label[-1]}"
            changed = fields[path].put(certificate, 2**32 - 1) if path in fields else certificate
            yield f"place of {path}", refusal(nostwier.check_certificate, case, changed) == (13, evaluate(formula, **numbers))


def break_row(case, certificate, what, numbers):
    """Changes of named figures that break one row alone: of the case, of the certificate."""
    on_line = [(r, d) for r, d in zip(case.resources, certificate.resources) if r.breaker]

    def reserve(name, pairs):
        counted = {"operating": "gc", "regulating_plus_spinning": "gc", "regulating": "g", "short_term": "so"}[name]
        return sum(getattr(d, quantity) for _, d in pairs for quantity in counted)

    if what == "row_prices.energy":
        return {"demand": case.demand + 1}, {}
    if what.startswith("row_prices.market."):
        name = what.split(".")[-1]
        return {}, {f"cleared.{name}": reserve(name, on_line) + 1}
    if "z" in numbers:
        there = [(r, d) for r, d in on_line if r.zone == numbers["z"]]
        return {f"zones[{numbers['z'] - 1}].{what}": reserve(what, there) + 1}, {}
    if "f" in numbers:
        f = case.flowgates[numbers["f"] - 1]
        flow = sum(factor * d.e for factor, d in zip(f.shift_factors, certificate.resources))
        return {f"flowgates[{numbers['f'] - 1}].limit": flow // 1000 - 1}, {}
    at = f"resources[{numbers['r'] - 1}]"
    r, d = case.resources[numbers["r"] - 1], certificate.resources[numbers["r"] - 1]
    return {
        "row_prices.within_max": ({}, {f"{at}.c": r.regulating.maximum - d.e - d.g + 1}),
        "row_prices.short_term_within_max": ({}, {f"{at}.s": r.regulating.maximum - d.e + 1}),
        "row_prices.above_min": ({f"{at}.regulating.minimum": d.e - d.g + 1}, {}),
        "row_prices.within_hi": ({f"{at}.ramp_up": 0, f"{at}.initial_energy": d.e - 1}, {}),
        "row_prices.above_lo": ({f"{at}.ramp_down": 0, f"{at}.initial_energy": d.e + 1}, {}),
    }[what]


def check_rows(page):
    """Each row, broken alone, is refused with its number; its price stands where the page says and moves its charge."""
    *objects, case, certificate = page.pair(SMALL)
    case_fields, fields = by_field(page, "Case", SMALL), page.entries("Certificate", SMALL)
    rows = page.size("rows", SMALL)
    before = nostwier.charges(case, certificate)[:rows]
    for formula, label, price in page.numbered("Rows of refusal 14"):
        part, field = re.fullmatch(r"(\w+), `([\w.\[\]]+)`", price).groups()
        for numbers in repeats(label, SMALL):
            row = evaluate(formula, **of_counts(SMALL), **numbers)
            in_case, in_certificate = break_row(*objects, field, numbers)
            b, q = case, certificate
            for path, value in in_case.items():
                b = case_fields[path].put(b, value)
            for path, value in in_certificate.items():
                q = {entry.path: entry for entry in fields}[path].put(q, value)
            yield f"row {row}, {in_words(label, numbers)}: broken", refusal(nostwier.check_certificate, b, q) == (14, row)
            entries = [e for e in fields if (e.part, e.field) == (part, field) and e.number == numbers]
            if len(entries) != 1:
                yield f"row {row}: the price's field", False
                continue
            priced = entries[0].put(certificate, 1)
            if row == 1:
                lmps = zip(nostwier.prices(case, certificate).lmps, nostwier.prices(case, priced).lmps)
                yield "row 1: its price", all(after == before_ + 1 for before_, after in lmps)
            else:
                after = nostwier.charges(case, priced)[:rows]
                yield f"row {row}: its price", [n for n in range(rows) if after[n] != before[n]] == [row - 1]


def moved(case, certificate, changed_case, changed_certificate):
    """The numbers of the charges that a change moves."""
    before, after = nostwier.charges(case, certificate), nostwier.charges(changed_case, changed_certificate)
    return {n for n, pair in enumerate(zip(before, after), 1) if pair[0] != pair[1]}


def check_charges(page):
    """An offer's price moves the charge of its step or quantity, and no other."""
    given = of_counts(SMALL)
    of = {label: formula for formula, label in page.numbered("Order of the charges")}

    def number(label, **numbers):
        return evaluate(of[label], **given, **numbers)

    offers = {
        "energy_steps[j].price": "resource r: energy step j", "regulating_price": "resource r: regulating g",
        "contingency_price": "resource r: contingency c", "off_line_short_term_price": "resource r: off-line short-term o",
        **{f"curves.{name}[j].price": f"{name.replace('_', '-')} curve: step j" for name in CURVES},
    }
    offers = {field: label for field, label in offers.items() if label in of}
    yield "all of the labels", len(offers) == 8 and "resource r: on-line short-term s" in of
    seen = {label: set() for label in of}
    for off_line in range(SMALL.resources):
        _, _, case, certificate = page.pair(SMALL, off_line)
        fields = by_field(page, "Certificate", SMALL)
        dear = certificate
        for path in ("row_prices.energy", *(f"row_prices.market.{name}" for name in CURVES)):
            dear = fields[path].put(dear, 400_000_000)
        for entry in page.entries("Case", SMALL):
            if entry.field not in offers:
                continue
            label = offers[entry.field]
            changed = entry.put(case, entry.get(case) + 1)
            found = moved(case, certificate, changed, certificate) | moved(case, dear, changed, dear)
            expected = {number(label, **entry.number)}
            if found:
                seen[label] |= expected
            is_off_line = entry.number.get("r") == off_line + 1
            provided = label.endswith((" c", " o")) if is_off_line else not label.endswith(" o")
            yield f"charge of {entry.path}, {off_line}", found == (expected if provided else set())
        for r in range(1, SMALL.resources + 1):
            if r == off_line + 1:
                continue
            priced = fields[f"resources[{r - 1}].row_prices.short_term_within_max"].put(certificate, 1)
            found = moved(case, certificate, case, priced)
            s = number("resource r: on-line short-term s", r=r)
            others = {number("resource r: energy step j", r=r, j=j) for j in range(1, 11)}
            rows = {n for n in found if n <= page.size("rows", SMALL)}
            yield f"charge of s of resource {r}, {off_line}", s in found and found <= {s} | others | rows
    yield "every charge was moved", all(len(seen[label]) == len(repeats(label, SMALL)) for label in offers.values())


def check_prices(page):
    given = of_counts(SMALL)
    _, _, case, certificate = page.pair(SMALL)
    case_fields, fields = by_field(page, "Case", SMALL), by_field(page, "Certificate", SMALL)
    of = {label: formula for formula, label in page.numbered("Order of the prices")}
    names = ["zone z: " + name.replace("_", "-") for name in nostwier.ZonePrices._fields]
    yield "the prices in words", list(of) == ["LMP of resource r", *names]

    def differ(b, q, before):
        return {n for n, pair in enumerate(zip(before, all_prices(b, q)), 1) if pair[0] != pair[1]}

    congested = fields["row_prices.flowgates[0]"].put(certificate, 1)
    for r in range(1, SMALL.resources + 1):
        changed = case_fields[f"flowgates[0].shift_factors[{r - 1}]"].put(case, 9)
        wanted = {evaluate(of["LMP of resource r"], **given, r=r)}
        yield f"LMP of resource {r}", differ(changed, congested, all_prices(case, congested)) == wanted
    adds = {"operating": names[:3], "regulating_plus_spinning": names[:2], "regulating": names[:1], "short_term": names[3:]}
    for z in range(1, SMALL.zones + 1):
        for name, labels in adds.items():
            priced = fields[f"row_prices.zones[{z - 1}].{name}"].put(certificate, 1)
            wanted = {evaluate(of[label], **given, z=z) for label in labels}
            yield f"prices of zone {z}: {name}", differ(case, priced, all_prices(case, certificate)) == wanted


def check_example(page, top):
    """The files that the example in Julia writes: its calls of put, read as they stand."""
    block = re.search(r"```julia\n(.*?)```", page.text, re.DOTALL)
    written, file = {}, b""
    kinds = {"UInt8": "u8", "UInt16": "u16", "UInt32": "u32", "Int32": "i32"}
    for line in (block[1] if block else "").splitlines():
        for code in line.split("#")[0].split(";"):
            if call := re.fullmatch(r"put\((\w+), ([\d, ]+|zeros\(Int, \d+\)\.\.\.)\)", code.strip()):
                zeros = re.fullmatch(r"zeros\(Int, (\d+)\)\.\.\.", call[2])
                numbers = [0] * int(zeros[1]) if zeros else [int(v) for v in call[2].split(", ")]
                size, signed = TYPES[kinds[call[1]]]
                file += b"".join(n.to_bytes(size, "big", signed=signed) for n in numbers)
            elif saved := re.fullmatch(r'save\("(.*)"\)', code.strip()):
                written[saved[1]], file = len(file).to_bytes(4, "big") + file, b""
    for name in ("case", "cert"):
        yield f"the example's {name}", written.get(f"worked.{name}") == (top / f"tests/corpus/pairs/worked-a.{name}").read_bytes()


def check_bits(page, model):
    """Values of status bits and flags, on both pages."""
    for field, names in (("status", nostwier.Status), ("flags", nostwier.Flags)):
        (meaning,) = [meaning for _, _, name, *_, meaning in page.lines("Case: resource", FIELDS) if name == f"`{field}`"]
        said = {int(value): name for value, name in re.findall(r"(\d+) ([^,]+)", meaning)}
        wanted = {bit.value: bit.name.replace("_", " ") for bit in names}
        plain = {value: name.replace("non-zero ", "").replace("-", " ") for value, name in said.items()}
        yield f"{field} in FORMAT", plain == wanted
    found = {}
    for table in tables(model):
        if table.title == "Status bits and flags":
            found[table.head[0]] = {cells[0].strip("`"): int(cells[1]) for cells in table.rows}
    for head, names in (("status bit", nostwier.Status), ("flag", nostwier.Flags)):
        yield f"{head} in MODEL", found.get(head) == {bit.name: bit.value for bit in names}


def check_model(page, model, top):
    """The row numbers of MODEL, and its worked interval."""
    by_title = {table.title: table for table in tables(model)}
    numbers = []
    for row, *_ in by_title["Rows"].rows:
        first, *last = [re.sub(r"(\d)([A-Za-z])", r"\1*\2", part) for part in row.split(" to ")]
        numbers.append(f"`{first}`")
        if last:
            constants = [int(part.split(" ")[0]) for part in (first, last[0])]
            numbers += [f"`{first.replace(str(constants[0]), str(n), 1)}`" for n in range(constants[0] + 1, constants[1] + 1)]
    source = re.search(r"```json\n(.*?)```", model, re.DOTALL)
    worked = (top / "tests/corpus/pairs/worked-a.case").read_bytes()
    yield "the source in JSON", source is not None and Case.from_json(source[1]).to_bytes() == worked
    yield "row numbers of MODEL", numbers == [row[0] for row in page.numbered("Rows of refusal 14")]
    for name, cost, bound, gap, _ in by_title["A worked interval"].rows:
        pair = re.match(r"`([\w-]+)`", name)[1]
        b, q = ((top / f"tests/corpus/pairs/{pair}.{end}").read_bytes() for end in ("case", "cert"))
        said = tuple(int(cell.replace(",", "")) for cell in (cost, bound, gap))
        yield f"{pair} in MODEL", tuple(nostwier.check_certificate(b, q)) == said


def check_versions(text):
    """What a table has by version, it has of each version that there is, once."""
    for table in tables(text):
        found = {}
        for match in filter(None, map(OF_VERSION.fullmatch, table.head)):
            found.setdefault(match[1], []).append(int(match[2]))
        for name, versions in found.items():
            yield f"{name} by version in the table below '{table.title}'", sorted(versions) == list(layout.FILE_VERSIONS)


SAMPLE = """
## Sizes

| what | version 1 | version 2 |
|---|---|---|
| rows | `5 + R` | `7 + R` |
| overruns | – | `F` |

### Case: zone

| offset, version 1 | offset, version 2 | type | field | unit | range | refused | meaning |
|---|---|---|---|---|---|---|---|
| `0` | `0` | u8 | `first` | | 0 to 255 | – | |
| – | `1` | u8 | `second` | | 0 to 3 | 5 | |
| `1` | `2` | u8 | `third` | | 0 to 3 | 5 | |
"""


def check_columns():
    """How columns of versions are read, on a page with two."""
    first, second, third = (Page(SAMPLE, version) for version in (1, 2, 3))
    yield "sizes", (first.sizes(), second.sizes()) == ({"rows": "`5 + R`"}, {"rows": "`7 + R`", "overruns": "`F`"})
    fields = [page.lines("Case: zone", ("offset", "field")) for page in (first, second)]
    yield "fields", fields == [[["`0`", "`first`"], ["`1`", "`third`"]], [["`0`", "`first`"], ["`1`", "`second`"], ["`2`", "`third`"]]]
    yield "a column of all versions", len(third.lines("Case: zone", ("type", "refused"))) == 3
    for table, name in (("Sizes", ""), ("Case: zone", "offset")):
        try:
            third.column(third.table(table), name)
            yield f"no column of version 3 in {table}", False
        except Wrong:
            yield f"no column of version 3 in {table}", True


def by_version(check, text, *others):
    """A check of the page for each version."""
    for version in layout.FILE_VERSIONS:
        for what, is_so in check(Page(text, version), *others):
            yield f"version {version}: {what}", is_so


FAULTS = (Wrong, Refused, ArithmeticError, LookupError, ValueError)  # to what a wrong page may lead
CHECKS = {
    "sizes": check_sizes, "layout": check_layout, "names": check_names, "types": check_types, "ranges": check_ranges,
    "words": check_orders_in_words, "places": check_places, "rows": check_rows, "charges": check_charges, "prices": check_prices,
}


def run(checks):
    """The number of checks that passed, and a line for each that did not."""
    passed, wrong = 0, []
    for name, check in checks.items():
        try:
            for what, is_so in check():
                if is_so:
                    passed += 1
                else:
                    wrong.append(f"{name}: {what}")
        except FAULTS as error:
            wrong.append(f"{name}: {type(error).__name__}: {error}")
    return passed, wrong


def all_checks(text, model, top):
    return {
        "columns": check_columns, "versions": lambda: check_versions(text),
        **{name: functools.partial(by_version, check, text) for name, check in CHECKS.items()},
        "bits": lambda: by_version(check_bits, text, model),
        "example": lambda: check_example(Page(text, 1), top), "model": lambda: check_model(Page(text, 1), model, top),
    }


# ---- wrong entries, which a check must notice

OTHER_TYPE = {"u8": "u16", "u16": "i16", "u32": "i32", "i16": "u16", "i32": "u32"}


def wrong_formulas(formula):
    """A formula with one of its numbers larger by 1; without a number, the whole."""
    for match in re.finditer(r"\d+", formula):
        yield formula[:match.start()] + str(int(match[0]) + 1) + formula[match.end():]
    if not re.search(r"\d", formula):
        yield formula[:-1] + " + 1`"


def wrong_ranges(span):
    ends_ = re.fullmatch(r"(−?[\d,]+) to (−?[\d,]+)", span)
    if ends_:
        least, most = (int(end.replace(",", "").replace("−", "-")) for end in ends_.groups())
        for wrong in ((least - 1, most), (least + 1, most), (least, most - 1), (least, most + 1)):
            yield " to ".join(str(end).replace("-", "−") for end in wrong)
    elif span.endswith("its bound"):
        yield "0 to 4294967295"
    elif span == "the case's":
        yield "0 to 64"


def columns_of(table, name):
    """The columns that have this, of all versions or of one each."""
    return [at for at, head in enumerate(table.head)
            if head == name or (match := OF_VERSION.fullmatch(head)) and (match[1] or "") == name]


def wrong_numbers(table, cells, name, check, left_out):
    """Wrong formulas in the columns that have this; and none, as if the version had no such line."""
    for at in columns_of(table, name):
        for formula in wrong_formulas(cells[at]) if cells[at] != "–" else ():
            yield at, formula, check
        yield at, "–" if cells[at] != "–" else "`0`", left_out


def wrong_field(table, cells, following):
    kind, field, span, refused = (table.head.index(name) for name in ("type", "field", "range", "refused"))
    is_head = cells[field].strip("`") in HEADS
    yield from wrong_numbers(table, cells, "offset", "layout", "layout")
    if cells[field] != "`length`":
        yield kind, OTHER_TYPE[cells[kind]], "layout" if is_head else "types"
    if following:
        yield field, following[field], "layout" if is_head else "names"
    for wrong in wrong_ranges(cells[span]):
        yield span, wrong, "ranges"
    yield refused, "5" if cells[refused] == "–" else str(int(cells[refused]) + 1), "ranges"


def wrong_cells(table, cells, following):
    """(the column, what to put there, the check that must notice)."""
    title = table.title
    if re.match("Case: |Certificate: ", title):
        yield from wrong_field(table, cells, following)
    elif title in ("The case", "The certificate"):
        for name in ("begins at", "bytes"):
            yield from wrong_numbers(table, cells, name, "layout", "layout")
    elif title == "Sizes":
        yield from wrong_numbers(table, cells, "", "sizes", "sizes")
    else:
        number, words, *price = NUMBERED[title]
        check = {"place": "places", "row": "rows", "charge": "charges", "number": "prices"}[number]
        in_words = "prices" if check == "prices" else "words"
        yield from wrong_numbers(table, cells, number, check, in_words)
        for name, noticed in [(words, in_words), *[(name, "rows") for name in price]] if following else ():
            at = table.head.index(name)
            yield at, following[at], noticed


def wrong_model_cells(table, cells, following):
    if table.title == "Rows":
        yield 0, next(wrong_formulas(cells[0])), "model"
    elif table.title == "A worked interval":
        for column in (1, 2, 3):
            yield column, f"1{cells[column]}", "model"
    elif table.title == "Status bits and flags":
        yield 1, str(int(cells[1]) + 1), "bits"


def with_wrong_cells(text, wrong_ones):
    lines = text.splitlines()
    for table in tables(text):
        for cells, following in zip(table.rows, [*table.rows[1:], None]):
            (at,) = [n for n, line in enumerate(lines) if line == a_line(cells) and in_table(lines, n, table)]
            for column, cell, check in wrong_ones(table, cells, following):
                changed = [*cells[:column], cell, *cells[column + 1:]]
                page = "\n".join([*lines[:at], a_line(changed), *lines[at + 1:]])
                yield f"{table.title}: {' '.join(cells[:3])}: {cell}", page, check


def wrong_models(text):
    """The same of the other page."""
    yield from with_wrong_cells(text, wrong_model_cells)


def wrong_pages(text):
    """(what is wrong, the page with it, the check that must notice)."""
    yield from with_wrong_cells(text, wrong_cells)
    lines = text.splitlines()
    for at, line in enumerate(lines):
        if match := re.match(r"put\(\w+, (?:zeros\(Int, )?(\d+)", line):
            changed = line[:match.start(1)] + str(int(match[1]) + 1) + line[match.end(1):]
            yield changed, "\n".join([*lines[:at], changed, *lines[at + 1:]]), "example"
    after = layout.FILE_VERSIONS[-1] + 1
    for head in {head for table in tables(text) for head in table.head if OF_VERSION.fullmatch(head)}:
        changed = head.replace(OF_VERSION.fullmatch(head)[2], str(after))
        yield f"{head}: {changed}", text.replace(f"| {head} |", f"| {changed} |"), "versions"


def a_line(cells):
    return "|" + "|".join(f" {cell} " if cell else " " for cell in cells) + "|"


def in_table(lines, at, table):
    """Whether a line stands below the heading of a table."""
    return next(line for line in reversed(lines[:at]) if line.startswith("#")).lstrip("# ") == table.title


def notices(checks, name):
    """Whether a check of a wrong page fails; it is not gone on with then."""
    try:
        return not all(is_so for _, is_so in checks[name]())
    except FAULTS:
        return True


def main():
    top = Path(sys.argv[1])
    text, model = ((top / f"docs/{name}.md").read_text(encoding="utf-8") for name in ("FORMAT", "MODEL"))
    passed, wrong = run(all_checks(text, model, top))
    if not wrong:
        wrong_ones = [(what, page, model, check) for what, page, check in wrong_pages(text)]
        wrong_ones += [(what, text, page, check) for what, page, check in wrong_models(model)]
        for what, *pages, check in wrong_ones:
            if notices(all_checks(*pages, top), check):
                passed += 1
            else:
                wrong.append(f"not noticed: {what}")
        wrong += run(all_checks(text, model, top))[1]  # no wrong page has left anything behind
    for line in wrong:
        print(f"failed: {line}")
    print(f"{passed} passed, {len(wrong)} failed")
    return 1 if wrong or not passed else 0


if __name__ == "__main__":
    sys.exit(main())
