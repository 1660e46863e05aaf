"""Nostwier for Python: checks of electricity dispatch cases and certificates.

A thin layer over the shared library: every verdict and every number of an answer is the library's. Power is in kW; prices of
offers, curves and flowgates in cents per MWh, all other prices in thousandths of a cent; cost, bound, gap and charges in
grains, 1,200,000,000 of which are one dollar of a five-minute interval.

    import nostwier
    case = nostwier.Case.load("small.json")            # a JSON source or a file; or Case.from_dict, Case.from_bytes
    certificate = nostwier.Certificate.load("small.cert")
    result = nostwier.check_certificate(case, certificate)
    print(result.gap, nostwier.dollars(result.gap))
    print(nostwier.explain(case, certificate))         # where the gap comes from
    print(nostwier.cite(case, certificate))            # the sentence to publish
    print(case.state(1).availability, case.state(1).hi)     # of resource 1: on-line or not, limits and bounds, with the reasons
    case.save("small.case")

A refusal is the exception Refused, with the number, the place, what it is about, what it means and what to do. A dictionary or
JSON text that is no case or certificate is the exception Misfiled, which names the field.
"""

from .calls import (
    Prices,
    Result,
    ZonePrices,
    charges,
    check_case,
    check_certificate,
    prices,
    read_case,
    read_certificate,
    write_case,
    write_certificate,
)
from .flowgates import FiledFlowgate, flowgate
from .labels import Charge, Names, charge_labels, listed_charges, quantity_labels, row_labels
from .layout import Counts, Sizes
from .library import VERSION as __version__
from .library import LibraryMissing
from .model import Figure, Part, Quantity, Row, State, Summary, parts, quantities, rows, summary
from .records import (
    NO_TRIP,
    Availability,
    Breaker,
    ByCurve,
    Case,
    Certificate,
    Curves,
    Dispatch,
    Field,
    Flags,
    Flowgate,
    Kind,
    Limits,
    Misfiled,
    Reserve,
    Reserves,
    Resource,
    ResourceRows,
    RowPrices,
    Status,
    Step,
    Zone,
)
from .refusals import ADVICE, MEANING, Refused
from .units import GRAINS_PER_DOLLAR, dollars
from .explain import Explained, cite, explain, explained

__all__ = [
    "ADVICE", "Availability", "Breaker", "ByCurve", "Case", "Certificate", "Charge", "Counts", "Curves", "Dispatch", "Explained",
    "Field", "Figure", "FiledFlowgate", "Flags", "Flowgate", "GRAINS_PER_DOLLAR", "Kind", "LibraryMissing", "Limits", "MEANING",
    "Misfiled", "NO_TRIP", "Names", "Part", "Prices", "Quantity", "Refused", "Reserve", "Reserves", "Resource", "ResourceRows",
    "Result", "Row", "RowPrices", "Sizes", "State", "Status", "Step", "Summary", "Zone", "ZonePrices", "__version__", "charge_labels",
    "charges", "check_case", "check_certificate", "cite", "dollars", "explain", "explained", "flowgate", "listed_charges",
    "parts", "prices", "quantities", "quantity_labels", "read_case", "read_certificate", "row_labels", "rows", "summary",
    "write_case", "write_certificate",
]
