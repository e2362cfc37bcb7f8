"""The pressure that an officer would have read from the whole tree, and from the damaged one."""
import math

from svg import FRAME, GREY, INK, LINE, Picture

WHOLE, DAMAGED = "#1f5fa8", "#c0392b"
LEFT, RIGHT, TOP, BOTTOM = 90, 930, 130, 450
STEP = 0.2      # hPa between two lines of the grid


class Plot:
    """Places of hours and pressures."""

    def __init__(self, pressures):
        self.low = math.floor(min(pressures) / STEP)      # in steps
        self.high = math.ceil(max(pressures) / STEP)

    def x(self, hour):
        return round(LEFT + (RIGHT - LEFT) * hour / 24, 1)

    def y(self, pressure):
        return round(BOTTOM - (BOTTOM - TOP) * (pressure / STEP - self.low) / (self.high - self.low), 1)

    def at(self, points):
        return [(self.x(hour), self.y(pressure)) for hour, pressure in points]


def axes(p, plot):
    for step in range(plot.low, plot.high + 1):
        y = plot.y(step * STEP)
        p.line((LEFT, y), (RIGHT, y), stroke="#dddddd", width=1)
        p.text(LEFT - 10, y + 4, f"{step * STEP:.1f}", 12, "end")
    for hour in range(0, 25, 2):
        x = plot.x(hour)
        p.line((x, BOTTOM), (x, BOTTOM + 5))
        p.text(x, BOTTOM + 21, hour, 12, "middle")
    p.line((LEFT, TOP), (LEFT, BOTTOM), (RIGHT, BOTTOM), stroke=INK)
    p.text(LEFT - 66, TOP - 14, "mean pressure of the day so far (hPa)", 12, bold=True)
    p.text((LEFT + RIGHT) / 2, BOTTOM + 46, "time of day (h)", 12, "middle", bold=True)


def still_fan(p, plot, start, end):
    p.rect(plot.x(start), TOP, plot.x(end) - plot.x(start), BOTTOM - TOP, FRAME, "none")
    p.text(plot.x((start + end) / 2), BOTTOM - 12, "fan off", 12, "middle", fill=GREY)


def refused(p, plot, hour, pressure):
    """Where the library stops, and what it says."""
    x, y = plot.x(hour), plot.y(pressure)
    p.line((x, TOP), (x, BOTTOM), stroke=LINE, dash="4 4")
    for way in 1, -1:
        p.line((x - 6, y - 6 * way), (x + 6, y + 6 * way), stroke=WHOLE, width=2.4)
    p.rect(x + 10, TOP + 72, 282, 58, "#ffffff", "none")
    for k, words in enumerate([f"{hour}:00, over the uplink: one bit changed.", "The library refuses the damaged tree",
                               "at every call, TREE 4, and gives no number."]):
        p.text(x + 16, TOP + 88 + 17 * k, words, 12)


def legend(p, y):
    for x, stroke, words in (24, WHOLE, "from the whole tree: the library, and the Rust"), (374, DAMAGED, "from the damaged tree: the Rust"):
        p.line((x, y - 4), (x + 26, y - 4), stroke=stroke, width=2.4)
        p.text(x + 34, y, words, 12)
    p.text(652, y, "×", 16, "middle", bold=True, fill=WHOLE)
    p.text(666, y, "from the damaged tree: the library", 12)


def picture(whole, damaged, still, uplink):
    """whole and damaged are readings, hour and hPa; still are the hours without the fan; uplink is the hour of damage."""
    plot = Plot([pressure for _, pressure in whole + damaged])
    sent = dict(whole)[uplink]
    said = "; ".join(f"at {hour:.0f}:00 {one:.2f} and {dict(damaged)[hour]:.2f} hPa" for hour, one in whole if hour > uplink and hour % 2 == 0)
    p = Picture(960, 512, "What an officer would have read",
                f"Mean pressure of the day so far. It is {sent:.2f} hPa at {uplink}:00, when the tree is sent. Then, from the whole tree and from "
                f"the damaged tree in the Rust: {said}. The library refuses the damaged tree at every call.")
    p.text(24, 56, "A day of a station, made up. Each entry's mean counts by its rows; read every ten minutes.", 12, fill=GREY)
    legend(p, 84)
    still_fan(p, plot, *still)
    axes(p, plot)
    refused(p, plot, uplink, sent)
    p.line(*plot.at(whole), stroke=WHOLE, width=2.4)
    p.line(*plot.at(damaged), stroke=DAMAGED, width=2.4)
    return p
