"""The runs: the whole tree in both programs, the damaged tree in the Rust without its `validate`, and in the library."""
from types import SimpleNamespace

from cases.draw import Command
from comparing import judge, words

from .day import HOUR, bits, rows
from .trees import Damaged, Tree

SETTINGS = "4 4 4 10 spherical euclidean euclidean"
UPLINK = 14 * HOUR      # rows that are in the tree when it is sent
TREE_4 = "refused 3 4"
# each command of the library's speaker, and the calls that it makes
CALLS = {
    "insert": ["cftree_insert_row"],
    "batch": ["cftree_insert_batch"],
    "refit": ["cftree_refit"],
    "route": ["cftree_route"],
    "spread": ["cftree_spread"],
    "validate": ["cftree_validate", "cftree_entries"],
}


class Unlike(Exception):
    """An answer that is not as the page tells it."""


def flat(some):
    return "".join(" " + bits(x) for row in some for x in row)


def grown(speaker, first, some):
    """The states after each row, from the tree that the first command makes."""
    said = speaker.answers([[first] + [command for row in some for command in ("insert" + flat([row]), "state")]])[0]
    odd = [answer for answer in said[:1] + said[1::2] if answer != "ok"]
    if odd:
        raise Unlike(f"{speaker.name} answers `{judge.short(odd[0])}` where a row or a tree is taken")
    return said[2::2]


def changed_word(library, sent, received):
    """Where the links of the two trees differ, and the word before and after: there has to be one such word."""
    raws = [library.answers([[tree.load(), "raw", "state"]])[0][1:] for tree in (sent, received)]
    one, other = [words.Looked(*raw).buffers for raw in raws]
    apart = [(name, at, a, b) for name in one for at, (a, b) in enumerate(zip(one[name][1], other[name][1])) if a != b]
    if [name for name, *_ in apart] != ["links"]:
        raise Unlike(f"the two trees differ in {len(apart)} lent words, and not in one of the links")
    return apart[0][1:]


def invalid(rust, received):
    """What the Rust's own `validate` says of the tree."""
    said = rust.answers([[received.load(), "validate"]])[0][1]
    if not said.startswith("invalid: "):
        raise Unlike(f"the Rust's `validate` answers `{said}`")
    return said.removeprefix("invalid: ")


def refusals(library, received, some):
    """The answer to each call with the damaged tree. Scratch and outputs are lent full of other words, and every lent
    word is looked at before and after each call. How many bytes the tree has."""
    look = [Command("raw"), Command("state")]
    case = [Command(received.load())]
    case += [Command(f"lend {name} +1 7") for name in ("scratch_floats", "scratch_links", "output", "spreads")] + look
    for name in CALLS:
        given = some[:1] if name == "insert" else some
        case += [Command(name if name in ("spread", "validate") else name + flat(given), TREE_4)] + look
    said = library.answers([[command.text for command in case]])[0]
    wrong = judge.unexpected(case, said) or words.broken(case, said)
    if wrong:
        raise Unlike(f"the damaged tree, lent to the library: {wrong}")
    lent = words.Looked(*said[5:7]).buffers
    answers = [answer for command, answer in zip(case, said) if command.expect]
    return dict(zip(CALLS, answers)), 8 * len(lent["floats"][1]) + 4 * len(lent["links"][1])


def built_anew(sent, after):
    """After which of the rows the entries were placed in a fresh tree: a rebuild that sets the merged total to 0."""
    before = sent
    for at, tree in enumerate(map(Tree, after)):
        if tree.rebuilds > before.rebuilds and tree.merged == 0:
            return at
        before = tree
    raise Unlike("the Rust did not build the damaged tree anew that day")


def counted(received, count, tree):
    """Rows that a rebuilt tree counts twice, and rows that it lacks, of the so many that were read."""
    twins = tree.twins()
    if len(twins) != 1 or tree.rows(twins[0]) < received.rows(received.twice):
        raise Unlike("the Rust's tree, built anew, has not one entry twice")
    twice = tree.rows(twins[0])
    lost = count + twice - tree.total
    if lost != received.rows(received.lost):
        raise Unlike(f"the Rust's tree, built anew, lacks {lost} rows, and not those of the entry that no leaf lists")
    return twice, lost


def replay(rust, library):
    """All that the page tells."""
    day = list(rows())
    whole = grown(library, f"create {SETTINGS} {bits(0.0)}", day)
    if grown(rust, f"create {SETTINGS} {bits(0.0)}", day) != whole:
        raise Unlike("the Rust and the library differ on the whole tree")
    sent = Tree(whole[UPLINK - 1])
    received = Damaged(sent)
    after = grown(rust, received.load(), day[UPLINK:])
    anew = built_anew(sent, after)
    count = UPLINK + anew + 1
    twice, lost = counted(received, count, Tree(after[anew]))
    answers, size = refusals(library, received, day[UPLINK:UPLINK + 3])
    return SimpleNamespace(
        sent=sent, received=received, word=changed_word(library, sent, received), invalid=invalid(rust, received),
        count=count, anew=Tree(after[anew]), unharmed=Tree(whole[count - 1]), twice=twice, lost=lost, last=Tree(after[-1]),
        answers=answers, size=size, whole=whole, after=after)
