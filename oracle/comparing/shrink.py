"""The smallest script that still differs: drops commands, then rows."""
from cases.draw import Command

ROWS = ("batch", "refit", "route")


def dropped_commands(case):
    for at in range(len(case)):
        yield case[:at] + case[at + 1 :]


def dropped_rows(case):
    """Each batch cut in half, then by one row."""
    dim = dim_of(case)
    for at, command in enumerate(case):
        name, *numbers = command.text.split(" ")
        if name not in ROWS or len(numbers) < 2 * dim:
            continue
        rows = [numbers[i : i + dim] for i in range(0, len(numbers), dim)]
        half = len(rows) // 2
        cuts = [rows[half:], rows[:half]] + [rows[:i] + rows[i + 1 :] for i in range(len(rows))]
        for cut in cuts:
            text = " ".join([name] + [w for row in cut for w in row])
            yield case[:at] + [Command(text)] + case[at + 1 :]


def dim_of(case):
    for command in case:
        for line in command.text.split("\n"):
            words = line.split(" ")
            if words[0] in ("create", "settings"):
                return max(int(words[1]), 1)
    return 1


def smaller(case):
    yield from dropped_commands(case)
    yield from dropped_rows(case)


def shrunk(case, differs, tries=400):
    """A case that still differs and none of whose smaller ones tried does."""
    case = [Command(c.text) for c in case]
    if not differs(case):
        return None
    going = True
    while going and tries > 0:
        going = False
        for other in smaller(case):
            tries -= 1
            if differs(other):
                case, going = other, True
                break
            if tries <= 0:
                break
    return case
