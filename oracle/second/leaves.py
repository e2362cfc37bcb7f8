"""The leaf functions alone: cases `op feature dim a b`, printed with their result."""
from .distances import NAMES, between, merge_cost, point
from .floats import unword, word
from .summaries import Summary, devs_of, merge, push
from .tree import Settings


def summary(h, numbers):
    """Weight, dim means, dim deviations, of which Spherical has the first alone."""
    return Summary(numbers[0], numbers[1 : h.dim + 1], numbers[h.dim + 1 : h.dim + 1 + devs_of(h)])


def flat(h, s):
    return s.numbers() + [0.0] * (h.dim - devs_of(h))


def result(op, h, a, b):
    one, other = summary(h, a), summary(h, b)
    if op == 0:
        return flat(h, push(h, one, other.means))
    if op == 1:
        return flat(h, merge(h, one, other))
    if op < 8:
        return [point(h, NAMES[op - 2], one, other.means)]
    if op < 14:
        return [between(h, NAMES[op - 8], one, other)]
    return [merge_cost(one, other)]


def answer(line):
    words = line.split(" ")
    if len(words) < 3:
        raise ValueError("op, feature and dim are missing")
    op, feature, dim = (int(w, 16) for w in words[:3])
    numbers = [unword(w) for w in words[3:]]
    stride = 1 + 2 * dim
    if not 1 <= dim <= 8 or op > 14 or feature > 1 or len(numbers) != 2 * stride:
        raise ValueError("op, feature, dim or length out of range")
    h = Settings(dim, 2, 1, 1, ["spherical", "diagonal"][feature], None, None)
    words += [word(x) for x in result(op, h, numbers[:stride], numbers[stride:])]
    return " ".join(words)


def answer_all(source, out):
    for number, line in enumerate(source, 1):
        try:
            out.write(answer(line.rstrip("\n")) + "\n")
        except (ValueError, IndexError) as why:
            raise ValueError(f"line {number}: {why}") from why
