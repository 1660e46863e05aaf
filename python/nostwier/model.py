"""What a case says of its resources, and a certificate of its rows: on-line, off-line or tripped, limits, upper bounds, both
sides of each row, price and amount of each charge; all with the reason in words.

It serves messages alone. The library judges: no verdict and no number of an answer is made here.
"""

from typing import TYPE_CHECKING, Iterator, List, NamedTuple, Optional, Tuple

from .enums import Availability, Breaker, Flags, Kind, Status
from .labels import Names
from .layout import CURVE_STEPS, CURVES, ENERGY_STEPS, QUANTITIES, RESOURCE_ROWS, ZONE_REQUIREMENTS, of_version

if TYPE_CHECKING:
    from .records import Case, Certificate, Resource

ON_LINE_OUTPUT = 500  # kW, of a conventional resource
TRIP_MINUTES = 15  # a conventional resource is tripped unless it tripped longer ago
INTERVAL_MINUTES = 5


class Figure(NamedTuple):
    """A limit or an upper bound in kW, and why it is what it is."""

    kw: int
    why: str


class State(NamedTuple):
    """What follows from a case for one of its resources.

    availability         whether it is on-line, off-line or tripped, and in reasons why it is not on-line
    maximum, minimum     MAX and MIN of the rows e+g+c <= MAX, e+s <= MAX and e-g >= MIN
    hi, lo               HI and LO of the rows e <= HI and e >= LO
    e, g, c, s, o        the upper bounds of its five quantities
    spinning             whether its c counts as spinning reserve
    """

    availability: Availability
    reasons: List[str]
    maximum: Figure
    minimum: Figure
    hi: Figure
    lo: Figure
    e: Figure
    g: Figure
    c: Figure
    s: Figure
    o: Figure
    spinning: bool

    @property
    def on_line(self) -> bool:
        """Whether it is on-line, and neither off-line nor tripped."""
        return self.availability is Availability.on_line


def availability(resource: "Resource") -> Availability:
    """What a resource is. A trip of 15 minutes ago or less decides before breaker and output, of a conventional one alone."""
    if resource.kind == Kind.conventional and resource.minutes_since_trip <= TRIP_MINUTES:
        return Availability.tripped
    return Availability.off_line if _missing(resource) else Availability.on_line


def _missing(resource):
    """What a resource lacks to be on-line, but for a trip."""
    reasons = []
    output = resource.estimated_output
    if resource.kind == Kind.intermittent:
        if not resource.status & Status.committed:
            reasons.append("it has not the status 'committed'")
        if output <= 0:
            reasons.append(f"its estimated output is {output:,} kW, and an intermittent resource is on-line only above 0 kW")
    elif resource.kind == Kind.external_asynchronous:
        if not resource.status & Status.available:
            reasons.append("it has not the status 'available'")
        if not resource.status & Status.active_schedule:
            reasons.append("it has not the status 'active_schedule'")
    else:
        if -ON_LINE_OUTPUT < output < ON_LINE_OUTPUT:
            reasons.append(f"its estimated output is {output:,} kW, and {ON_LINE_OUTPUT} kW or more (or -{ON_LINE_OUTPUT} kW or "
                           "less) is needed")
    if resource.breaker != Breaker.closed:
        reasons.append("its breaker is open")
    return reasons


def state(case: "Case", number: int) -> State:
    """The State of a case's resource, by its number from 1."""
    if not 1 <= number <= len(case.resources):
        raise IndexError(f"there is no resource {number}: they are numbered from 1 to {len(case.resources)}")
    resource = case.resources[number - 1]
    if resource.availability is Availability.tripped:
        return _tripped_state(resource)
    if resource.availability is Availability.off_line:
        return _off_line_state(case, resource)
    return _on_line_state(case, resource)


def _tripped_state(resource):
    """Every upper bound is 0; the limits are an off-line resource's."""
    trip = f"it is tripped: it tripped {resource.minutes_since_trip} minutes ago, and more than {TRIP_MINUTES} are needed"
    limits, bounds = _limits_without_output(resource, "tripped"), {quantity.key: Figure(0, trip) for quantity in QUANTITIES}
    return State(Availability.tripped, [trip, *_missing(resource)], *limits, spinning=False, **bounds)


def _off_line_state(case, resource):
    reasons = _missing(resource)
    off = "it is off-line, because " + ", and ".join(reasons)
    economic = _economic(resource)
    if resource.flags & Flags.off_line_supplemental:
        c = _least([economic, Figure(resource.off_line_response_limit, "the off-line response limit"),
                    _share(case.reserves.contingency, "contingency")], off)
    else:
        c = Figure(0, f"{off}, and its flag 'off_line_supplemental' is clear")
    if resource.flags & Flags.off_line_short_term:
        o = _least([economic, Figure(resource.off_line_short_term_limit, "the off-line short-term limit")], off)
    else:
        o = Figure(0, f"{off}, and its flag 'off_line_short_term' is clear")
    none = Figure(0, off)
    return State(Availability.off_line, reasons, *_limits_without_output(resource, "off-line"), none, none, c, none, o, False)


def _limits_without_output(resource, what):
    """MAX, MIN, HI and LO of a resource that is off-line or tripped."""
    top, floor = Figure(resource.economic.maximum, f"the economic maximum, as it is {what}"), Figure(0, f"0, as it is {what}")
    return top, floor, top, floor


def _on_line_state(case, resource):
    flags, reserves = resource.flags, case.reserves
    most, least = _most_and_least(resource)

    def reserve(figures, name, allowed, what):
        if not allowed:
            return Figure(0, what)
        return _least([_ramp(resource, figures, name), _share(figures, name), Figure(most.kw, f"MAX, {most.why}")], "")

    return State(
        Availability.on_line, [], most, least, *_ramped(resource, most),
        Figure(sum(step.width for step in resource.energy_steps), "the sum of the widths of its energy steps"),
        reserve(reserves.regulating, "regulating", flags & Flags.regulating, "its flag 'regulating' is clear"),
        reserve(reserves.contingency, "contingency", flags & Flags.spinning or resource.status & Status.on_line_supplemental,
                "its flag 'spinning' is clear, and it has not the status 'on_line_supplemental'"),
        reserve(reserves.short_term, "short_term", flags & Flags.on_line_short_term, "its flag 'on_line_short_term' is clear"),
        Figure(0, "it is on-line, and this quantity is for off-line resources"),
        bool(flags & Flags.spinning),
    )


def _economic(resource):
    return Figure(resource.economic.maximum, "the economic maximum")


def _most_and_least(resource):
    """MAX and MIN on-line: a released emergency limit comes first, then the regulating one."""
    flags = resource.flags
    most, least = _economic(resource), Figure(resource.economic.minimum, "the economic minimum")
    if flags & Flags.regulating:
        most = Figure(resource.regulating.maximum, "the regulating maximum, as flag 'regulating' is set")
        least = Figure(resource.regulating.minimum, "the regulating minimum, as flag 'regulating' is set")
    if flags & Flags.emergency_maximum_released:
        most = Figure(resource.emergency.maximum, "the emergency maximum, as flag 'emergency_maximum_released' is set")
    if flags & Flags.emergency_minimum_released:
        least = Figure(resource.emergency.minimum, "the emergency minimum, as flag 'emergency_minimum_released' is set")
    return most, least


def _ramped(resource, most):
    """HI and LO on-line, of its MAX too: a self-schedule lifts LO no further than HI and MAX."""
    initial, up, down = resource.initial_energy, resource.ramp_up, resource.ramp_down
    hi = Figure(initial + INTERVAL_MINUTES * up,
                f"the initial energy {initial:,} plus {INTERVAL_MINUTES} minutes of ramp up at {up:,} kW a minute")
    lo = Figure(max(0, initial - INTERVAL_MINUTES * down),
                f"the initial energy {initial:,} less {INTERVAL_MINUTES} minutes of ramp down at {down:,} kW a minute, at least 0")
    if resource.flags & Flags.self_scheduled:
        lo = max(lo, _self_scheduled(resource, hi, most), key=lambda figure: figure.kw)
    return hi, lo


def _self_scheduled(resource, hi, most):
    """As much of the self-schedule as HI and MAX allow."""
    yields = f"that the self-schedule of {resource.self_schedule:,} yields to"
    return min(Figure(resource.self_schedule, "the self-schedule, as flag 'self_scheduled' is set"),
               Figure(hi.kw, f"the HI {yields}"), Figure(most.kw, f"the MAX {yields}"), key=lambda figure: figure.kw)


def states(case: "Case") -> List[State]:
    """The State of each resource of a case."""
    return [state(case, number) for number in range(1, len(case.resources) + 1)]


def _ramp(resource, reserve, name):
    return Figure(
        resource.ramp_rate * reserve.minutes * 1000 // reserve.multiplier,
        f"the ramp rate {resource.ramp_rate:,} kW a minute times the minutes {reserve.minutes} of {name} reserve, divided by its "
        f"multiplier {reserve.multiplier:,} / 1,000")


def _share(reserve, name):
    return Figure(reserve.share * reserve.requirement // 1000,
                  f"the share {reserve.share:,} / 1,000 of the market's {name} requirement {reserve.requirement:,} kW")


def _least(figures, before):
    least = min(figures, key=lambda figure: figure.kw)
    return Figure(least.kw, f"{before}, and this is {least.why}" if before else f"this is {least.why}")


# ---- Quantities and rows of a certificate.


class Quantity(NamedTuple):
    """A quantity of a certificate: how much, and at most how much with the reason."""

    amount: int
    bound: Figure


def quantities(case: "Case", certificate: "Certificate") -> List[Quantity]:
    """Each quantity of a certificate with its bound, place 1 first."""
    cleared = [Quantity(getattr(certificate.cleared, curve.key),
                        Figure(sum(step.width for step in getattr(case.curves, curve.key)), "the sum of the widths of its curve's steps"))
               for curve in of_version(CURVES, case.version)]
    return cleared + [Quantity(getattr(dispatch, quantity.key), getattr(its, quantity.key))
                      for its, dispatch in zip(states(case), certificate.resources) for quantity in of_version(QUANTITIES, case.version)]


class Row(NamedTuple):
    """A row of a certificate: both sides in words and numbers. Of flowgates they are thousandths of a kW."""

    left_words: str
    left: int
    sense: str
    right_words: str
    right: int
    divisor: int = 1

    @property
    def slack(self) -> int:
        """Left less right of the row written 'at least'."""
        return self.right - self.left if self.sense == "<=" else self.left - self.right

    @property
    def met(self) -> bool:
        """Whether the slack is not negative; of row 1, whether it is 0."""
        return self.slack == 0 if self.sense == "=" else self.slack >= 0


GIVEN = {  # what counts towards the reserve of each curve
    "operating": "g+c", "regulating_plus_spinning": "g and the c that is spinning", "regulating": "g", "short_term": "s+o",
}


class Provided(NamedTuple):
    """A resource's reserves, scheduled or at most, in kW."""

    g: int
    c: int
    s: int
    o: int
    spinning: bool


def _given(provided):
    """What resources give to the reserve of each curve."""
    return {
        "operating": sum(p.g + p.c for p in provided),
        "regulating_plus_spinning": sum(p.g + (p.c if p.spinning else 0) for p in provided),
        "regulating": sum(p.g for p in provided),
        "short_term": sum(p.s + p.o for p in provided),
    }


def rows(case: "Case", certificate: "Certificate") -> Iterator[Row]:
    """Each row with its two sides, row 1 first."""
    its, dispatch = states(case), certificate.resources
    yield Row("the energy of all resources", sum(d.e for d in dispatch), "=", "the demand", case.demand)
    provided = [Provided(d.g, d.c, d.s, d.o, s.spinning) for d, s in zip(dispatch, its)]
    given = _given(provided)
    for curve in of_version(CURVES, case.version):
        yield Row(f"{GIVEN[curve.key]} of all resources", given[curve.key], ">=", "the cleared quantity",
                  getattr(certificate.cleared, curve.key))
    for number, zone in enumerate(case.zones, 1):
        given = _given([p for p, resource in zip(provided, case.resources) if resource.zone == number])
        for required in of_version(ZONE_REQUIREMENTS, case.version):
            yield Row(f"{GIVEN[required.key]} of the zone's resources", given[required.key], ">=", "the zone's requirement",
                      getattr(zone, required.key))
    for flowgate in case.flowgates:
        flow = sum(factor * d.e for factor, d in zip(flowgate.shift_factors, dispatch))
        yield Row("the flow", flow, "<=", "the limit", 1000 * flowgate.limit, 1000)
    for d, s in zip(dispatch, its):
        limits = _resource_rows(d, s)
        yield from (limits[row.key] for row in of_version(RESOURCE_ROWS, case.version))


def _resource_rows(d, s):
    """The rows of a resource, by their names."""
    return {
        "within_max": Row("e+g+c", d.e + d.g + d.c, "<=", f"MAX, {s.maximum.why},", s.maximum.kw),
        "short_term_within_max": Row("e+s", d.e + d.s, "<=", f"MAX, {s.maximum.why},", s.maximum.kw),
        "above_min": Row("e-g", d.e - d.g, ">=", f"MIN, {s.minimum.why},", s.minimum.kw),
        "within_hi": Row("e", d.e, "<=", f"HI, {s.hi.why},", s.hi.kw),
        "above_lo": Row("e", d.e, ">=", f"LO, {s.lo.why},", s.lo.kw),
    }


# ---- Price and amount behind each charge.


class Part(NamedTuple):
    """What a charge is the product of: of a row its price and slack; of a quantity or step its net price and the amount, or
    if that price is negative, what is left up to its bound. price in thousandths of a cent, per_kw 1000 if the amount is in
    thousandths of a kW (at a price in cents)."""

    what: str  # 'slack', 'used' or 'left'
    price: int
    amount: int
    per_kw: int = 1

    @property
    def grains(self) -> int:
        """The charge that comes of price and amount."""
        return abs(self.price) * self.amount if self.what == "left" else self.price * self.amount


def _part(net, amount, bound):
    return Part("left", net, bound - amount) if net < 0 else Part("used", net, amount)


def parts(case: "Case", certificate: "Certificate") -> List[Part]:
    """Price and amount behind each charge, in the order of charges."""
    prices = certificate.row_prices
    parts = [Part("slack", price, row.slack, row.divisor)
             for price, row in zip(certificate.prices_of_rows(), rows(case, certificate))]
    for place, (resource, s, d) in enumerate(zip(case.resources, states(case), certificate.resources)):
        lmp = prices.energy - sum(price * flowgate.shift_factors[place] for price, flowgate in zip(prices.flowgates, case.flowgates))
        zone = prices.zones[resource.zone - 1]
        reserve = {required.key: getattr(prices.market, required.key) + getattr(zone, required.key)
                   for required in of_version(ZONE_REQUIREMENTS, case.version)}
        net = _net_prices(resource, s.spinning, lmp, reserve, d.row_prices)
        parts += _step_parts(resource.energy_steps, ENERGY_STEPS, d.e, net["e"], s.on_line)
        parts += [_part(net[quantity.key], getattr(d, quantity.key), getattr(s, quantity.key).kw)
                  for quantity in of_version(QUANTITIES, case.version) if quantity.key != "e"]
    for curve in of_version(CURVES, case.version):
        cleared, price = getattr(certificate.cleared, curve.key), getattr(prices.market, curve.key)
        parts += _step_parts(getattr(case.curves, curve.key), CURVE_STEPS, cleared, lambda step: price - 1000 * step.price)
    return parts


def _net_prices(resource, spinning, lmp, reserve, limits):
    """The net price of each quantity of a resource; of energy that of a step. reserve: what each kind of reserve is paid in the
    resource's zone, market and zone price together."""
    energy = lmp - limits.within_max - limits.short_term_within_max + limits.above_min - limits.within_hi + limits.above_lo
    regulating = reserve["operating"] + reserve["regulating_plus_spinning"] + reserve["regulating"]
    contingency = reserve["operating"] + (reserve["regulating_plus_spinning"] if spinning else 0)
    return {
        "e": lambda step: 1000 * step.price - energy,
        "g": 1000 * resource.regulating_price - regulating + limits.within_max + limits.above_min,
        "c": 1000 * resource.contingency_price - contingency + limits.within_max,
        "s": limits.short_term_within_max - reserve["short_term"],
        "o": 1000 * resource.off_line_short_term_price - reserve["short_term"],
    }


def _step_parts(steps, count, amount, net, available=True):
    """The parts of steps, which an amount fills in their order."""
    for step in _padded(steps, count):
        used = min(amount, step.width)
        amount -= used
        yield _part(net(step), used, step.width if available else 0)


class _NoStep:
    width = price = 0


def _padded(steps, count):
    return list(steps) + [_NoStep] * (count - len(steps))


# ---- A case in a few numbers, so that a wrong unit is seen.


class Summary(NamedTuple):
    """A case in a few numbers: kW; cents per MWh."""

    demand: int
    on_line: int
    most: int  # what the resources that are on-line can give at most, kW
    least: int  # and at least
    offers: Optional[Tuple[int, int]]  # least and most of the energy offers' prices
    off_line: List[Tuple[str, str]]  # what is not on-line: the resource in words, and why
    warnings: List[str]


def summary(case: "Case", names: Optional[Names] = None) -> Summary:
    """The Summary of a case. Warnings are what is accepted but odd."""
    names = case.names if names is None else names
    its = states(case)
    most = sum(max(0, min(s.e.kw, s.maximum.kw, s.hi.kw)) for s in its if s.on_line)
    least = sum(max(s.minimum.kw, s.lo.kw) for s in its if s.on_line)
    offers = [step.price for resource in case.resources for step in resource.energy_steps if step.width]
    off_line = [(names.of("resource", number), ", and ".join(s.reasons)) for number, s in enumerate(its, 1) if not s.on_line]
    warnings = [*_unmet_demand(case.demand, most, least, off_line), *_out_of_reach(its, names), *_short_zones(case, its, names),
                *_odd_units(case, offers)]
    return Summary(case.demand, sum(s.on_line for s in its), most, least, (min(offers), max(offers)) if offers else None, off_line,
                   warnings)


def _unmet_demand(demand, most, least, off_line):
    if demand > most:
        yield (f"no schedule can meet the demand of {mw(demand)} MW: the resources that are on-line can give at most "
               f"{mw(most)} MW (each the least of its steps' widths, MAX and HI)"
               + ("; see above what keeps the others off-line" if off_line else "") + asks(demand, most, "kW"))
    if demand < least:
        yield (f"no schedule can keep to the demand of {mw(demand)} MW: the resources that are on-line must give at "
               f"least {mw(least)} MW (each the larger of MIN and LO)" + asks(least, demand, "kW"))


def _out_of_reach(its, names):
    for number, s in enumerate(its, 1):
        name = names.of("resource", number)
        top, bottom = min(s.e.kw, s.maximum.kw, s.hi.kw), max(s.minimum.kw, s.lo.kw)
        if s.on_line and top < bottom:
            yield (f"no schedule: {name} must give at least {bottom:,} kW and can give at most {top:,} kW (steps' widths "
                   f"{s.e.kw:,}, MAX {s.maximum.kw:,}, HI {s.hi.kw:,}, MIN {s.minimum.kw:,}, LO {s.lo.kw:,})")


def _short_zones(case, its, names):
    for number, zone in enumerate(case.zones, 1):
        chosen = [s for s, resource in zip(its, case.resources) if resource.zone == number]
        can = _given([Provided(s.g.kw, s.c.kw, s.s.kw, s.o.kw, s.spinning) for s in chosen])
        for required in of_version(ZONE_REQUIREMENTS, case.version):
            requirement, kw = getattr(zone, required.key), can[required.key]
            if requirement > kw:
                yield (f"no schedule can meet the {required.words} requirement of {names.of('zone', number)}, {requirement:,} kW: its "
                       f"resources can give at most {kw:,} kW by their flags, ramps and shares{asks(requirement, kw, 'kW')}")


def _odd_units(case, offers):
    powers = [case.demand] + [resource.economic.maximum for resource in case.resources]
    if 0 < max(powers) < 10_000:
        yield (f"no power in this case is above {max(powers):,} kW. Is it filed in MW? Power is in kW: multiply by 1,000")
    top = max((abs(price) for price in offers), default=0)
    if 0 < top < 500:
        yield (f"no energy offer is above {top / 100:,.2f} $/MWh. Is it filed in dollars? Prices of offers are in cents per "
               "MWh: multiply by 100")
    if top > 350_000 or len(offers) and min(offers) > 100_000:
        yield (f"energy offers go up to {top / 100:,.2f} $/MWh. Prices of offers are in cents per MWh: are these in "
               "thousandths of a cent?")


def mw(kw: int) -> str:
    """kW as MW, in words."""
    return f"{kw / 1000:,.3f}"


UNITS = {
    "kW": "power is in kW: is a number here in MW or in W?",
    "kW a minute": "ramps are in kW a minute: is a number here in MW, or for five minutes or an hour?",
    "cents per MWh": "prices here are in cents per MWh: is it in dollars, or in thousandths of a cent?",
    "thousandths of a cent": "prices here are in thousandths of a cent per MWh: is it in another unit?",
    "thousandths": "it is in thousandths: is it in another unit?",
}


def asks(large: int, small: int, unit: str) -> str:
    """A question for the unit, if one figure is about 100 or 1000 times the other; else ''."""
    if small > 0 and unit in UNITS and (50 <= large / small <= 200 or 500 <= large / small <= 2000):
        return f"; that is about {round(large / small):,} times as much, and {UNITS[unit]}"
    return ""
