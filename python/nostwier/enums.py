"""What the numbers of a resource mean: kind, breaker, status bits and flags; and what they make of it."""

import enum


class Kind(enum.IntEnum):
    """The kind of a resource, which says when it is on-line."""

    conventional = 1
    intermittent = 2
    external_asynchronous = 3


class Breaker(enum.IntEnum):
    """The breaker of a resource; an open one keeps it off-line."""

    open = 0
    closed = 1


class Status(enum.IntFlag):
    """Status bits of a resource."""

    committed = 1
    available = 2
    active_schedule = 4
    on_line_supplemental = 8


class Flags(enum.IntFlag):
    """Flags of a resource: what it may provide, and which limits are released."""

    regulating = 1
    spinning = 2
    off_line_supplemental = 4
    off_line_short_term = 8
    emergency_maximum_released = 16
    self_scheduled = 32
    emergency_minimum_released = 64
    on_line_short_term = 128


class Availability(enum.Enum):
    """What a resource is; the program prints 1 for on-line, and 0 for the other two."""

    on_line = "on-line"
    off_line = "off-line"
    tripped = "tripped"


NO_TRIP = 255
