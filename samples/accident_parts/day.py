"""A made-up day of a station's rows, as samples/day has them, on which the fan stands still and the pressure dips."""
import os
import runpy

DAY = runpy.run_path(os.path.join(os.path.dirname(os.path.abspath(__file__)), "..", "day"))
ROWS, bits = DAY["ROWS"], DAY["bits"]
HOUR = ROWS // 24
STILL = 12, 14      # hours between which the fan stands still
SLOPE = 0.25        # hours that the air takes to follow it
DIP = 8.0           # hPa


def followed(hours):
    """How much of a change the air has followed, so many hours after it: 0 to 1."""
    return min(max(hours / SLOPE, 0.0), 1.0)


def rows():
    """Pressure (hPa), air temperature (C), humidity (%) and air speed (m/s), every ten seconds."""
    unit = DAY["units"](7)

    def noise(size):
        return size * (sum(next(unit) for _ in range(4)) - 2.0)

    for at in range(ROWS):
        day = at / ROWS
        still = followed(at / HOUR - STILL[0]) - followed(at / HOUR - STILL[1])
        speed = 0.9 - 0.7 * still
        yield (
            round(1009.0 + 0.3 * day - DIP * still + noise(0.15), 2),
            round(11.5 + 4.0 * day * (1.0 - day) + noise(0.1), 2),
            round(93.0 - 6.0 * speed * day * (1.0 - day) + noise(0.4), 1),
            round(speed + noise(0.05), 2),
        )


def clock(count):
    """The time of day by which so many rows were read."""
    seconds = 10 * count
    return f"{seconds // 3600}:{seconds % 3600 // 60:02}"
