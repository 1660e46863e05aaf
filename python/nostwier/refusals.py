"""What the refusals mean, and what to do about each. The texts are those of include/nostwier_refusals.h."""

from .layout import MOST

MEANING = {
    1: "the case is under 170 bytes, or not as long as its first four bytes say",
    2: "the case is of a version other than 1",
    3: "the number of resources, zones or flowgates is out of range",
    4: "the case is not of the size that its resources, zones and flowgates need",
    5: "a field of the case is outside its range",
    6: "the steps of an offer or of a demand curve are against their rule",
    7: "a resource has a minimum above its maximum",
    8: "the certificate is under 44 bytes, or not as long as its first four bytes say",
    9: "the certificate is of a version other than 1",
    10: "the certificate has other numbers of resources, zones or flowgates than the case",
    11: "the certificate is not of the size that its resources, zones and flowgates need",
    12: "a price of the certificate is outside its range",
    13: "a quantity of the certificate is above its bound",
    14: "the schedule breaks a row",
    15: "the lent buffer is too short",
    16: "the list of numbers is of a wrong length, or a number does not fit its field",
    17: "the input is above 32,768 bytes",
}

_LENGTH = (
    "look whether the file was cut short, or is another file; its first four bytes, big-endian, are the number of bytes after "
    "them"
)
_VERSION = "write the file anew in version 1, the fifth byte"

ADVICE = {
    1: _LENGTH,
    2: _VERSION,
    3: f"keep to 1 to {MOST.resources} resources, 1 to {MOST.zones} zones and 0 to {MOST.flowgates} flowgates, the sixth to eighth "
       "byte",
    4: "look for a record that is missing or too many: 170 bytes, 16 a zone, 154 a resource, 4 and 2 a resource for each "
       "flowgate",
    5: "look for a wrong unit (kW, cents per MWh, thousandths) or a field out of order",
    6: "put steps of width 0 last, with price 0; let energy prices never fall and curve prices never rise; keep a resource's "
       "energy widths within 2,000,000 kW in sum",
    7: "compare the economic, regulating and emergency limits of each resource",
    8: _LENGTH,
    9: _VERSION,
    10: "look whether the certificate was made for this case",
    11: "look for an entry that is missing or too many: 44 bytes, 16 a zone, 4 a flowgate, 40 a resource",
    12: "write the price of every row but row 1 as 0 or more (where a solver gives a negative dual, reference/README.md says which "
        "sign it counts), and set one beyond its range to the range's end: row 1 within +-400,000,000, flowgates 0 to 400,000 "
        "cents, others 0 to 400,000,000 thousandths of a cent",
    13: "compare the quantity with its bound in the case; round it down, or look whether the resource is on-line and its flag "
        "is set",
    14: "change the schedule so that the row is met in whole kW: round it another way, or let the solver look for whole numbers",
    15: "lend a buffer as long as the sizes in nostwier.h say",
    16: "look for a negative number or one of too many digits; in a list give every field but length and version, in the file's "
        "order",
    17: "give the program one case and one certificate, nothing else",
}


class Refused(Exception):
    """A refusal of the library.

    number    1 to 17
    place     of 13 the quantity's place, of 14 the row's number, else 0
    where     what it is about in words, with value, what is possible and why, if it is known, else ''
    question  what may have gone wrong (a unit, a sign, swapped files), if there is a sign of it, else ''
    meaning   what the number says
    advice    what to do about it
    """

    def __init__(self, number: int, place: int = 0, where: str = "", question: str = ""):
        self.number = number
        self.place = place
        self.where = where
        self.question = question
        self.meaning = MEANING.get(number, "no such refusal")
        self.advice = ADVICE.get(number, "look whether the library and this module are of one version")
        super().__init__(number, place, where, question)

    def __str__(self) -> str:
        at = f" {self.place}" if self.place else ""
        where = f": {self.where}" if self.where else ""
        question = f" {self.question}" if self.question else ""
        return f"refused {self.number}{at}: {self.meaning}{where}.{question} What to do: {self.advice}."
