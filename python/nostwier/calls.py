"""The eight calls of the library. Files are bytes, or a Case or Certificate that is written for the call; lists are lists of
whole numbers; a refusal is the exception Refused."""

import ctypes
import operator
from typing import TYPE_CHECKING, Iterable, List, NamedTuple, Optional, Union

from . import library, messages
from .labels import Names
from .layout import LARGEST, MOST, Counts
from .refusals import Refused

if TYPE_CHECKING:
    from .records import Case, Certificate

    CaseFile = Union[bytes, bytearray, memoryview, Case]
    CertificateFile = Union[bytes, bytearray, memoryview, Certificate]


class Result(NamedTuple):
    """Cost, bound and gap of an accepted certificate, in grains."""

    cost: int
    bound: int
    gap: int


class ZonePrices(NamedTuple):
    """The four prices of a zone, in thousandths of a cent per MWh."""

    regulating: int
    spinning: int
    supplemental: int
    short_term: int


class Prices(NamedTuple):
    """An LMP for each resource and four prices for each zone, in thousandths of a cent per MWh."""

    lmps: List[int]
    zones: List[ZonePrices]


def check_case(case: "CaseFile", names: Optional[Names] = None) -> None:
    """Returns if the case is valid; else it is refused, by 1 to 7."""
    file = as_file(case)
    refusal = library.function("nostwier_check_case")(file, len(file))
    if refusal:
        raise messages.of_files(refusal, 0, file, None, _names(case, names))


def check_certificate(case: "CaseFile", certificate: "CertificateFile", names: Optional[Names] = None) -> Result:
    """The Result of a certificate that the case accepts; else it is refused, by 1 to 14. Names are used in its words."""
    files = as_file(case), as_file(certificate)
    answer = library.function("nostwier_check_certificate")(files[0], len(files[0]), files[1], len(files[1]))
    _look(answer, *files, _names(case, names))
    return Result(answer.cost, answer.bound, answer.gap)


def prices(case: "CaseFile", certificate: "CertificateFile") -> Prices:
    """The Prices of an accepted certificate."""
    file, room = _list("nostwier_prices", case, certificate, MOST.prices)
    counts = Counts.of_file(file)
    zones = room[counts.resources:counts.prices]
    return Prices(room[:counts.resources], [ZonePrices(*zones[i:i + 4]) for i in range(0, len(zones), 4)])


def charges(case: "CaseFile", certificate: "CertificateFile") -> List[int]:
    """The charges of an accepted certificate, in grains: rows, the resources' quantities, curve steps."""
    file, room = _list("nostwier_charges", case, certificate, LARGEST.charges)
    return room[:Counts.of_file(file).sizes(file[4]).charges]


def read_case(case: "CaseFile") -> List[int]:
    """The numbers of a valid case: every field but length and version, in the file's order."""
    return _read("nostwier_read_case", case, LARGEST.case_numbers, True)


def read_certificate(certificate: "CertificateFile") -> List[int]:
    """The numbers of a certificate: every field but length and version, in the file's order."""
    return _read("nostwier_read_certificate", certificate, LARGEST.certificate_numbers, False)


def write_case(numbers: Iterable[int]) -> bytes:
    """The file, of version 1, of a case with these numbers."""
    return _write("nostwier_write_case", numbers, LARGEST.case_bytes)


def write_certificate(numbers: Iterable[int]) -> bytes:
    """The file, of version 1, of a certificate with these numbers."""
    return _write("nostwier_write_certificate", numbers, LARGEST.certificate_bytes)


def as_file(file: Union["CaseFile", "CertificateFile"]) -> bytes:
    """A file as it is lent."""
    from .records import Filed

    if isinstance(file, Filed):
        return file.to_bytes()
    if not isinstance(file, (bytes, bytearray, memoryview)):
        raise TypeError(f"a file is wanted as bytes, or a Case or Certificate, not {type(file).__name__}")
    return bytes(file)


def _names(case, names):
    """The names that are given, else those of a Case."""
    return names if names is not None else getattr(case, "names", Names())


def _look(answer, case, certificate, names=Names()):
    """Raises the refusal of an answer, in words."""
    if answer.refusal:
        raise messages.of_files(answer.refusal, answer.place, case, certificate, names)


def _list(name, case, certificate, size):
    """The file of a case, and a buffer of so many numbers into which a call has written for it."""
    files = as_file(case), as_file(certificate)
    room = (ctypes.c_int64 * size)()
    answer = library.function(name)(files[0], len(files[0]), files[1], len(files[1]), room, len(room))
    _look(answer, *files, _names(case, None))
    return files[0], room


def _read(name, given, size, is_case):
    file = as_file(given)
    room = (ctypes.c_int64 * size)()
    answer = library.function(name)(file, len(file), room, len(room))
    if answer.refusal:
        raise messages.of_files(answer.refusal, 0, *((file, None) if is_case else (None, file)), _names(given, None))
    return room[:answer.count]


def _write(name, numbers, size):
    taken = []
    for place, number in enumerate(numbers, 1):
        try:
            if isinstance(number, bool):
                raise TypeError
            number = operator.index(number)
        except TypeError:
            raise TypeError(f"number {place} of the list is {number!r}, and no whole number") from None
        taken.append(min(max(number, -2**63), 2**63 - 1))  # no field holds the ends of 64 bits, nor what is beyond them
    room = (ctypes.c_uint8 * size)()
    answer = library.function(name)((ctypes.c_int64 * len(taken))(*taken), len(taken), room, len(room))
    if answer.refusal:
        raise Refused(answer.refusal)
    return bytes(room[:answer.count])
