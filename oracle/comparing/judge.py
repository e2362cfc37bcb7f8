"""What counts as a difference between two speakers' answers to one case."""
from . import words


def sent(commands, answers):
    """What a speaker that does not refuse is asked: all but the calls that the other refused.
    One row of a wrong length the Rust refuses by itself."""
    return [at for at, (command, answer) in enumerate(zip(commands, answers))
            if not answer.startswith("refused")
            or (answer.startswith("refused 4") and command.text.startswith("insert"))
            or command.text == "validate"]


def unexpected(commands, answers):
    """The first answer that is not what the generator knows, as a message."""
    for command, answer in zip(commands, answers):
        first = answer.split("\n")[0]
        if command.expect and first != command.expect and not first.startswith(command.expect + " "):
            return f"`{short(command.text)}`: expected {command.expect}, got {short(first)}"
    return None


def short(text):
    line = text.split("\n")[0]
    return line if len(line) < 100 else line[:97] + "..."


def same(command, one, other, lenient):
    """A lenient speaker's `none` is no answer, and its own validation may only refuse what the tree
    check refuses. Lent words are judged for each speaker alone."""
    if command.text == "raw" or (lenient and other == "none"):
        return True
    if lenient and command.text == "validate" and one.startswith("refused"):
        return other in ("ok", "invalid")
    return one == other


def first_difference(command, one, other):
    for a, b in zip(one.split("\n"), other.split("\n")):
        if a != b:
            return f"`{short(command.text)}`: {a} | {b}"
    return f"`{short(command.text)}`: answers of different length"


def judged(commands, left, right, lenient):
    """The first difference of two answer lists (`right` may lack refused commands), or None."""
    asked = sent(commands, left) if lenient else range(len(commands))
    apart = set()      # fields that a lenient speaker could not set, until they are set back
    for at, answer in zip(asked, right):
        if commands[at].text.startswith("set ") and answer == "none":
            apart ^= {commands[at].text.split(" ")[1]}
        elif not apart and not same(commands[at], left[at], answer, lenient):
            return first_difference(commands[at], left[at], answer)
    return None


def compare(cases, left, right):
    """For each case None, or the first difference. Each speaker runs once over all of them."""
    if left.lenient and not right.lenient:
        left, right = right, left
    texts = [[c.text for c in case] for case in cases]
    one = left.answers(texts)
    lenient = right.lenient and not left.lenient
    if lenient:
        texts = [[case[at].text for at in sent(case, said)] for case, said in zip(cases, one)]
    other = right.answers(texts)
    out = []
    for case, a, b in zip(cases, one, other):
        found = judged(case, a, b, lenient)
        if not left.lenient:
            found = found or unexpected(case, a) or words.broken(case, a)
        if not right.lenient:
            found = found or unexpected(case, b) or words.broken(case, b)
        out.append(found)
    return out
