"""The page docs/ACCIDENT.md, of what the runs have shown."""
from .day import DIP, HOUR, ROWS, STILL, clock
from .runs import CALLS, SETTINGS, TREE_4, UPLINK
from .trees import Tree

FROM, TO = 10, 16      # the hours that an officer compares
DIM, BRANCHING, LEAF_CAP, MOST = SETTINGS.split(" ")[:4]

TOP = f"""# The accident, replayed

`samples/accident` wrote this page and its picture; `samples/accident --check` says whether they are still what it writes.

A station reads a made-up day of {ROWS:,} rows, one every ten seconds.
From {STILL[0]}:00 to {STILL[1]}:00 the fan stands still, and the pressure dips by {DIP:.0f} hPa.
Its tree is small: at most {MOST} entries, {LEAF_CAP} in a leaf, {BRANCHING} nodes under a node, {DIM} numbers in a row.
At {clock(UPLINK)} it goes over the uplink, arrives with one bit changed, and takes in the rest of the day.
The whole tree is the same one without that damage. Day and bit are chosen so that a plot shows at a glance what went wrong.
"""

WORD = """
## One word

| leaf | entries as sent: number (rows at hPa) | as received |
|---|---|---|
{leaves}

Word {at} of the links was {old} and is {new}: one bit of it, and no other word.
Entry {new}, {twice} at {twice_pressure:.1f} hPa, now stands under two leaves.
Entry {old}, which is the dip, {lost} at {lost_pressure:.1f} hPa, stands under none.
"""

RUST = """
## In the Rust

Neither insert nor rebuild calls the Rust's own `validate`, so the tree was taken as it came.
Where `validate` is called, it refuses this tree: "{invalid}".
After {more} the Rust built the tree anew from its leaves' lists. What two leaves list went in twice, what none lists not at all.

| | as received | built anew | the whole tree then |
|---|---|---|---|
| rows that the station has read | {sent_count:,} | {count:,} | {count:,} |
| total weight of the tree | {received.total:,} | {anew.total:,} | {unharmed.total:,} |
| rows counted twice | 0 | {twice:,} | 0 |
| rows not counted | 0 | {lost:,} | 0 |
| mean pressure, hPa | {received_mean:.2f} | {anew_mean:.2f} | {unharmed_mean:.2f} |

The hours counted twice would alone have made {alone:.2f} hPa of the mean; the rest is the dip, which is missing.
Nothing was refused and nothing failed. At midnight the tree counted {last.total:,} rows of a day that has {rows:,}.
"""

READ = """
## What an officer would have read

![Mean pressure of the day so far, from the whole tree and from the damaged one](pictures/accident.svg)

Read is the mean pressure of the day so far: each entry's mean, by its rows.
From {start}:00 to {end}:00 it fell by {fell:.2f} hPa.
By the damaged tree in the Rust it fell by {flat:.2f} hPa: the trend lies flat, and the hours without the fan do not show.
"""

LIBRARY = """
## In the library

Every call that takes a tree checks it first, and refuses this one by TREE 4: not every entry is in one leaf list, once.

| call | answer |
|---|---|
{answers}

Not a byte changed: the head, the tree's {size:,} bytes, scratch and outputs were compared before and after each call.
So the officer reads no number from this tree, and knows why.
[README.md](../README.md), "When a call is refused", says what to do: go back to the last copy that passes.
The whole tree has the same words in the library and in the Rust, after each of the day's {rows:,} rows.
"""


def lasting(count):
    """So many rows, and as time."""
    minutes = count * 24 * 60 // ROWS
    return f"{count:,} rows or {minutes // 60} h {minutes % 60} min"


def leaves(told):
    """A line a leaf: numbers, rows and pressure as sent; the numbers as received, what differs in bold."""
    sent, received = told.sent, told.received
    for at, entries in sent.leaves.items():
        one = ", ".join(f"{e} ({sent.rows(e):,} at {sent.pressure(e):.1f})" for e in entries)
        other = ", ".join(str(e) if e in entries else f"**{e}**" for e in received.leaves[at])
        yield f"| node {at} | {one} | {other} |"


def word_part(told):
    sent, (at, old, new) = told.sent, told.word
    return WORD.format(
        leaves="\n".join(leaves(told)), at=at, old=old, new=new,
        twice=lasting(sent.rows(int(new))), twice_pressure=sent.pressure(int(new)),
        lost=lasting(sent.rows(int(old))), lost_pressure=sent.pressure(int(old)))


def rust_part(told):
    more, unharmed = told.count - UPLINK, told.unharmed
    doubled = told.twice * told.anew.pressure(told.anew.twins()[0])
    return RUST.format(
        invalid=told.invalid, more="one more row" if more == 1 else f"{more} more rows", sent_count=UPLINK, count=told.count,
        received=told.received, anew=told.anew, unharmed=unharmed, twice=told.twice, lost=told.lost,
        received_mean=told.received.mean(), anew_mean=told.anew.mean(), unharmed_mean=unharmed.mean(),
        alone=(unharmed.total * unharmed.mean() + doubled) / (unharmed.total + told.twice), last=told.last, rows=ROWS)


def read_part(told):
    start, whole = (Tree(told.whole[hour * HOUR - 1]).mean() for hour in (FROM, TO))
    damaged = Tree(told.after[TO * HOUR - UPLINK - 1]).mean()
    return READ.format(start=FROM, end=TO, fell=start - whole, flat=start - damaged)


def library_part(told):
    names = {TREE_4: "TREE 4"}
    answers = [f"| `{call}` | {names[told.answers[name]]} |" for name, calls in CALLS.items() for call in calls]
    return LIBRARY.format(answers="\n".join(answers), size=told.size, rows=ROWS)


def page(told):
    return TOP + word_part(told) + rust_part(told) + read_part(told) + library_part(told)
