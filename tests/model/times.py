"""How the times of a generated trace are written, in either unit. `share` says by how much a trace with such times is smaller."""
from reading import MICROSECONDS, MOST_TIME, NANOSECONDS


class WholeTimes:
    """Times in microseconds, as they are."""

    unit, scale, share = MICROSECONDS, 1, 1
    most = MOST_TIME[unit]
    most_written = str(most)

    @staticmethod
    def form(draw, time):
        return str(time)


class FractionTimes:
    """Times in nanoseconds, as numbers of microseconds in many forms, not all of which say the time exactly."""

    unit, scale, share = NANOSECONDS, 1_000, 3
    # The greatest float in range, as there is none between it and the next whole microsecond.
    most = MOST_TIME[unit] // scale * scale
    most_written = str(most // scale)
    ZEROS = ["0", "0.0", "0.000", "-0", "-0.0", "0e5", "0.0E-9", "1e-400", "0.0004999"]
    # Behind three places.
    NOISE = ["0", "00", "0000001", "000000000000001", "4", "4999999", "5", "50", "5000000000001", "49999999999999999999999999", "9"]
    # Fractions whose floats lie halfway between two nanoseconds.
    TIES = ["0625", "1875", "3125", "4375", "5625", "6875", "8125", "9375"]

    @classmethod
    def form(cls, draw, time):
        if time == 0:
            return draw.of(cls.ZEROS)
        kind = draw.fraction()
        if kind < 0.1:
            return f"{time}{draw.of(['e-3', 'E-3', 'e-03', '.0e-3'])}"
        if kind < 0.15:
            zeros = draw.below(9)
            return f"{time}{'0' * zeros}e-{3 + zeros}"
        sign, (whole, rest) = "-" if time < 0 else "", divmod(abs(time), cls.scale)
        if kind < 0.18:
            return f"{sign}{whole}.{draw.of(cls.TIES)}"
        exact = f"{sign}{whole}.{rest:03}"
        return exact + draw.of(cls.NOISE) if kind < 0.3 else exact.rstrip("0").rstrip(".")
