"""The crates in their layers, from crates.txt."""
import textwrap

from svg import BOX, EDGE, FRAME, GREY, Picture


class Crates:
    """crates.txt: groups by their comment lines, direct needs, layers, and the needs that no other need implies."""

    def __init__(self, text):
        self.groups, self.needs = [], {}
        for line in filter(None, map(str.strip, text.splitlines())):
            if line.startswith("#"):
                self.groups.append((line[1:].strip(), []))
                continue
            name, _, needs = line.partition(":")
            self.groups[-1][1].append(name)
            self.needs[name] = needs.split()
        self.needs = {name: [n for n in needs if n in self.needs] for name, needs in self.needs.items()}
        self.known = {}
        self.layer = {name: self.height(name) for name in self.needs}
        below = {name: self.beneath(name) for name in self.needs}
        self.lines = [(need, name) for name, needs in self.needs.items() for need in needs
                      if not any(need in below[other] for other in needs)]

    def height(self, name):
        """The longest way down to a crate that needs none."""
        if name not in self.known:
            self.known[name] = max((1 + self.height(need) for need in self.needs[name]), default=0)
        return self.known[name]

    def beneath(self, name):
        return {need for one in self.needs[name] for need in {one} | self.beneath(one)}


class Placed:
    """Each group in columns of its own over its layers, moved about until the lines are short and pass under no box."""

    def __init__(self, crates):
        self.crates = crates
        self.names = [names for _, names in crates.groups]
        self.rows = [[[n for n in names if crates.layer[n] == at] for at in range(max(crates.layer.values()) + 1)] for names in self.names]
        self.wide = [max(map(len, rows)) for rows in self.rows]
        spans = [[at for at, row in enumerate(rows) if row] for rows in self.rows]
        self.low, self.high = [span[0] for span in spans], [span[-1] for span in spans]
        self.column = []
        for group in range(len(self.names)):
            self.column.append(0)
            while not self.fits(group):
                self.column[group] += 1
        self.columns = max(map(sum, zip(self.column, self.wide)))
        self.improve()

    def fits(self, group):
        return all(other == group or self.low[other] > self.high[group] or self.high[other] < self.low[group]
                   or self.column[other] >= self.column[group] + self.wide[group]
                   or self.column[group] >= self.column[other] + self.wide[other] for other in range(len(self.column)))

    def places(self):
        """The middle of each crate's box, in columns."""
        return {name: self.column[g] + self.wide[g] / 2 + k - (len(row) - 1) / 2
                for g, rows in enumerate(self.rows) for row in rows for k, name in enumerate(row)}

    def cost(self):
        at, layer = self.places(), self.crates.layer
        boxes = {}
        for name in at:
            boxes.setdefault(layer[name], []).append(at[name])
        total = 0.0
        for low, high in self.crates.lines:
            total += abs(at[high] - at[low])
            for between in range(layer[low] + 1, layer[high]):
                x = at[low] + (at[high] - at[low]) * (between - layer[low]) / (layer[high] - layer[low])
                total += sum(max(0.0, 0.6 - abs(x - box)) for box in boxes.get(between, [])) * 20
        return total

    def improve(self):
        best = self.cost()
        better = True
        while better:
            better = False
            for move in self.moves():
                before = list(self.column)
                for group, column in move:
                    self.column[group] = column
                cost = self.cost() if all(self.column[g] + self.wide[g] <= self.columns and self.fits(g) for g, _ in move) else best
                if cost < best - 1e-9:
                    best, better = cost, True
                else:
                    self.column = before

    def moves(self):
        groups = range(len(self.column))
        for group in groups:
            for column in range(self.columns):
                yield [(group, column)]
        for one in groups:
            for other in range(one):
                yield [(one, self.column[other]), (other, self.column[one])]


class Ways:
    """Lines from box to box that pass no box on their way: at each layer in between one goes beside what stands there."""

    def __init__(self, crates, x, y, box):
        self.layer, self.x, self.y, self.box = crates.layer, x, y, box
        self.level = {crates.layer[name]: y[name] for name in y}
        self.taken = {}

    def beside(self, layer, ideal):
        """The place next to the ideal one that has neither a box nor another line."""
        wide = self.box[0] // 2 + 6
        boxes = [self.x[name] for name in self.x if self.layer[name] == layer]
        lines = self.taken.setdefault(layer, [])
        steps = sorted(range(-600, 601, 6), key=lambda step: (abs(step), step))
        place = next(ideal + step for step in steps if all(abs(ideal + step - at) >= wide for at in boxes)
                     and all(abs(ideal + step - at) >= 5 for at in lines))
        lines.append(place)
        return place

    def way(self, low, up):
        """From the top of a box to the bottom of one above it."""
        high = self.box[1]
        points = [(self.x[low], self.y[low])]
        end = (self.x[up], self.y[up] + high)
        for layer in range(self.layer[low] + 1, self.layer[up]):
            (x, y), middle = points[-1], self.level[layer] + high // 2
            place = self.beside(layer, round(x + (end[0] - x) * (y - middle) / (y - end[1])))
            points += [(place, middle + 22), (place, middle - 22)]
        return self.pulled([*points, end])

    def clear(self, one, other):
        """Whether the straight line between two points keeps off every box but those it begins and ends at."""
        (x, y), (u, v) = one, other
        for name, left in self.x.items():
            ends = [min(max(at, v), y) for at in (self.y[name] - 4, self.y[name] + self.box[1] + 4)]
            at = [x + (u - x) * (y - end) / (y - v) for end in ends]
            touches = max(at) > left - self.box[0] / 2 - 5 and min(at) < left + self.box[0] / 2 + 5
            if touches and v < self.y[name] + self.box[1] and self.y[name] < y:
                return False
        return True

    def pulled(self, points):
        """As few bends as the boxes let it have."""
        out = points[:1]
        while out[-1] != points[-1]:
            after = points[points.index(out[-1]) + 1:]
            out.append(next((point for point in reversed(after) if self.clear(out[-1], point)), after[0]))
        return out


def picture(text):
    crates = Crates(text)
    placed = Placed(crates)
    pitch, row, wide, high, top = 138, 78, 112, 26, 92
    layers = max(crates.layer.values()) + 1
    said = "; ".join(f"{name} in layer {crates.layer[name]} needs {', '.join(low for low, up in crates.lines if up == name) or 'no other'}"
                     for name in crates.needs)
    p = Picture(24 + 34 + placed.columns * pitch + 24, top + layers * row, "The crates, from the leaves up",
                f"A box a crate, a frame a group of crates.txt. {said}.")
    p.text(24, 56, "A line goes from a crate up to one that needs it; needs that follow from others are left out. A crate's layer, at the left, is "
           "the longest way", 12, fill=GREY)
    p.text(24, 73, "down to a crate that needs none. A frame has a group of crates.txt. The kit's io, os and libc are not drawn.", 12, fill=GREY)
    x = {name: round(58 + at * pitch) for name, at in placed.places().items()}
    y = {name: top + (layers - 1 - layer) * row + 42 for name, layer in crates.layer.items()}
    for layer in range(layers):
        p.text(24, top + (layers - 1 - layer) * row + 42 + 17, layer, 11, fill=GREY)
    titles = []
    for g, (comment, _) in enumerate(crates.groups):
        left, upper = 58 + placed.column[g] * pitch + 4, top + (layers - 1 - placed.high[g]) * row
        lines = textwrap.wrap(comment, placed.wide[g] * 22)
        above = 42 - 12 * len(lines) - 6
        p.rect(left, upper + above, placed.wide[g] * pitch - 8, (placed.high[g] - placed.low[g]) * row + 42 - above + high + 6, FRAME, "#c9ced6", 6)
        titles += [(left + 6, upper + above + 13 + 12 * k, words) for k, words in enumerate(lines)]
    ways = Ways(crates, x, y, (wide, high))
    for low, up in sorted(crates.lines, key=lambda line: crates.layer[line[1]] - crates.layer[line[0]]):
        p.line(*ways.way(low, up))
    for left, upper, words in titles:
        p.text(left, upper, words, 10, fill=GREY, halo=True)
    for name in crates.needs:
        p.rect(x[name] - wide // 2, y[name], wide, high, BOX, EDGE, 4)
        p.text(x[name], y[name] + 17, name, 12, "middle", bold=True, mono=True)
    return p
