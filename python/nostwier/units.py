"""Grains in dollars."""

from decimal import ROUND_CEILING, ROUND_FLOOR, ROUND_HALF_UP, Decimal, localcontext

GRAINS_PER_DOLLAR = 1_200_000_000

_ROUNDING = {"nearest": ROUND_HALF_UP, "up": ROUND_CEILING, "down": ROUND_FLOOR}


def dollars(grains: int, places: int = 6, rounded: str = "nearest") -> Decimal:
    """Grains as dollars of an interval, a Decimal; rounded to the nearest (halves away from 0), 'up' or 'down'."""
    with localcontext() as context:
        context.prec = 60  # 64 bits and their quotient, with room
        return (Decimal(grains) / GRAINS_PER_DOLLAR).quantize(Decimal(1).scaleb(-places), _ROUNDING[rounded])
