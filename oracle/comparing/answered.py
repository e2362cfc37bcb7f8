"""Cases with the Rust's answers; where it has none (refusals, lent words), the second reading's."""
from . import judge
from .speakers import Speaker, SpeakerError


def answered(cases):
    """For each case its pairs of command text and answer. The two must agree wherever both speak."""
    reading, rust = Speaker("reading"), Speaker("rust")
    found = [why for why in judge.compare(cases, reading, rust) if why]
    if found:
        raise SpeakerError(f"the Rust and the second reading differ: {found[0]}")
    said = reading.answers([[c.text for c in case] for case in cases])
    asked = [judge.sent(case, answers) for case, answers in zip(cases, said)]
    rusts = rust.answers([[case[at].text for at in ats] for case, ats in zip(cases, asked)])
    return [merged(case, *rest) for case, *rest in zip(cases, said, asked, rusts)]


def merged(case, said, asked, rusts):
    """The Rust's word wherever it gave one."""
    out = list(said)
    for at, answer in zip(asked, rusts):
        if answer not in ("none", "invalid") and not said[at].startswith("refused 3"):
            out[at] = answer
    return [(command.text, answer) for command, answer in zip(case, out)]


def text(pairs):
    """Commands marked by `> `, each followed by its answer."""
    lines = []
    for command, answer in pairs:
        lines += [f"> {line}" for line in command.split("\n")] + answer.split("\n")
    return "".join(line + "\n" for line in lines)
