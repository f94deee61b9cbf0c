"""Calls of `job`: what the program `job_cases` reads, and what it must write of it.

    python3 tests/job_cases.py            whether its stdin and stdout are as made here
    python3 tests/job_cases.py --write    writes both, and those of `balance`

A case is a heading, a job, or a view; behind them stand the calls of the balancing that
tests/balance_cases.py has. A job is the letter `j`, the figures num, den, cap, k, and the
lists sizes, sides, marks, bounds, pins. The answers are the reference's. Of a job one line
is printed: number and place of its check; number, place, cut, |A|, unread files and recipes
that hold one, of its measure.
"""

import sys
from typing import NamedTuple

from make_cases import LAST_FREE, large
from program_files import frame, heading, keep, numbers

import planner
import samples
from planner import FREE, PINNED, UNREAD

TOP = 2**64 - 1

CHAIN = samples.chain()
FLIPPED = CHAIN.changed(sides=[1, 0, 1, 0])
# The largest job, its pins in recipes of four, and in four recipes.
LARGE = large(4)
LONG = large(1024)
# As LAST_FREE: one pinned in A, one in B, and the first file is free.
FIRST_FREE = [FREE, *[UNREAD] * 5, PINNED, *[UNREAD] * 4, PINNED, *[UNREAD] * 1012]


class View(NamedTuple):
    bounds: tuple
    pins: tuple
    j: int


# ---- Ways to make cases, each of one row after the other


def chains(field, *lists):
    """The chain with another list in place of its own."""
    return [CHAIN.changed(**{field: entries}) for entries in lists]


def ratios(*pairs):
    """The chain with another num and den."""
    return [CHAIN.changed(num=num, den=den) for num, den in pairs]


def lengths(*rows):
    """The lists of the largest job, each going on as it does, cut to these lengths."""
    return [
        LARGE.changed(
            sizes=[1] * sizes,
            sides=[i % 2 for i in range(sides)],
            marks=[0] * marks,
            bounds=[4 * j for j in range(bounds)],
            pins=[k % 1024 for k in range(pins)],
        )
        for sizes, sides, marks, bounds, pins in rows
    ]


def puts(job, field, *places):
    """The job with one entry of a list put anew."""
    old = getattr(job, field)
    return [job.changed(**{field: old[:at] + (x,) + old[at + 1 :]}) for at, x in places]


def lopsided(*rows):
    """1,024 files of one size, all but the last in A, under a ratio."""
    sides = [0] * 1023 + [1]
    return [
        LARGE.changed(sizes=[size] * 1024, sides=sides, num=num, den=den)
        for size, num, den in rows
    ]


def heavy_first(*rows, size=1023):
    """1,024 files, the first of this size and the others of 1, all of these on the
    other side but so many: its mark, its side, and how many."""
    return [
        LARGE.changed(
            sizes=[size] + [1] * 1023,
            sides=[side] * (1 + beside) + [1 - side] * (1023 - beside),
            marks=[mark] + [0] * 1023,
        )
        for mark, side, beside in rows
    ]


# A fault of each number; that of 1 is one of 4 too, and that of 2 one of 5.
FAULTS = {
    1: {"bounds": [1]},
    2: {"pins": [0] * 4097},
    3: {"marks": [0, 0, 0]},
    4: {"bounds": [1, 2, 4, 6]},
    5: {"pins": [0, 1, 2, 4, 1, 2]},
    6: {"sizes": [1, 1, 0, 1]},
    7: {"num": 2},
    8: {"marks": [1, 1, 1, 1]},
    9: {"sides": [0, 0, 0, 0]},
}


def faulty(*numbers, **fields):
    """The chain with these faults, and with these fields put anew."""
    job = CHAIN.changed(**fields)
    for number in numbers:
        job = job.changed(**FAULTS[number])
    return job


def pairs(number, *others):
    return [faulty(number, other) for other in others]


# Faults of 6 and 7 at once.
WORST = {"sizes": [0, 1, 1, 1], "sides": [2, 2, 2, 2], "num": 0}


def views(bounds, pins, *recipes):
    return [View(bounds, pins, j) for j in recipes]


def part_views(*rows):
    """Recipe j of the first bounds and the first pins of the chain."""
    return [View(CHAIN.bounds[:n], CHAIN.pins[:p], j) for n, p, j in rows]


# ---- The cases

# Calls that pass check 6, and those that meet a refusal up to there.
UP_TO_6 = (
    "done",
    CHAIN,
    CHAIN.changed(cap=1),
    CHAIN.changed(cap=65535),
    # The largest size, and a pinned file in each vault.
    CHAIN.changed(sizes=[65535, 1, 1, 65535], marks=[1, 0, 0, 1]),
    # Files 0 and 3 on no recipe; one file in every recipe.
    *chains("pins", [1, 2, 2, 1, 1, 2], [0, 3, 1, 3, 2, 3]),
    # One recipe of four files; a file beside it; two recipes.
    *lengths((4, 4, 4, 2, 4), (5, 5, 5, 2, 4), (8, 8, 8, 3, 8)),
    # Other sides, which cut two recipes and one.
    *chains("sides", [1, 0, 0, 1], [0, 0, 1, 1]),
    "no 1",
    *lengths(
        (0, 0, 0, 0, 0),
        (0, 4, 4, 2, 4),
        (0, 0, 0, 2, 4),
        (4, 4, 4, 0, 0),
        (4, 4, 4, 0, 4),
        (4, 4, 4, 1, 0),
        (4, 4, 4, 1, 4),
        # Before 2 and 3.
        (0, 4, 4, 1026, 4097),
        (1025, 4, 4, 1, 4097),
        (1025, 1025, 1025, 0, 4),
    ),
    "no 2",
    *lengths(
        (1024, 1024, 1024, 2, 4),
        (1025, 1025, 1025, 2, 4),
        (1024, 1024, 1024, 1025, 4096),
        (1024, 1024, 1024, 1026, 4096),
        (4, 4, 4, 2, 4096),
        (4, 4, 4, 2, 4097),
        (1024, 1024, 1024, 1025, 4097),
        (1025, 1025, 1025, 1026, 4097),
        # Before 3, and before 4.
        (1025, 4, 4, 2, 4),
        (4, 3, 4, 1026, 4),
        (4, 4, 5, 2, 4097),
        (4, 4, 4, 1026, 4),
    ),
    "no 3",
    *lengths(
        (4, 3, 4, 2, 4),
        (4, 5, 4, 2, 4),
        (4, 0, 4, 2, 4),
        (4, 4, 3, 2, 4),
        (4, 4, 5, 2, 4),
        (4, 4, 0, 2, 4),
        (4, 0, 0, 2, 4),
        (4, 3, 5, 2, 4),
        (1024, 1023, 1024, 1025, 4096),
        (1024, 1025, 1024, 1025, 4096),
        (1024, 1024, 1023, 1025, 4096),
        (1024, 1024, 1025, 1025, 4096),
        # Before 4.
        (4, 4, 3, 2, 3),
        (4, 3, 4, 3, 4),
    ),
    "no 4",
    *chains(
        "bounds",
        # The first bound.
        [1, 2, 4, 6],
        [1, 3, 5, 6],
        [65535, 2, 4, 6],
        [2, 4, 6, 8],
        # A recipe with one pin, with none, and a fall: first, middle, last.
        [0, 1, 4, 6],
        [0, 0, 4, 6],
        [0, 2, 3, 6],
        [0, 2, 2, 6],
        [0, 2, 1, 6],
        [0, 2, 0, 6],
        [0, 2, 5, 6],
        [0, 2, 6, 6],
        [0, 2, 7, 6],
        [0, 4, 4, 4],
        [0, 0, 0, 0],
        # Near the largest number of two bytes, where 2 more is no such number.
        [0, 65534, 65535, 6],
        [0, 65535, 0, 6],
        [0, 65535, 1, 6],
        [0, 2, 65535, 1],
        [0, 2, 65534, 0],
        [0, 2, 65535, 6],
        # The last bound, which is below P or above it.
        [0, 2, 4, 7],
        [0, 2, 4, 65535],
        [0, 2, 65533, 65535],
    ),
    *lengths(
        (4, 4, 4, 2, 3),
        (4, 4, 4, 2, 5),
        (4, 4, 4, 2, 0),
        (8, 8, 8, 3, 7),
        (8, 8, 8, 3, 4096),
    ),
    *chains(
        "bounds",
        # Two of these at once: the first bound, then the lowest recipe, then the end.
        [1, 2, 2, 7],
        [1, 1, 4, 6],
        [0, 1, 1, 7],
        [0, 2, 3, 7],
        [0, 2, 4, 5],
    ),
    "no 5",
    *chains(
        "pins",
        # A pin of C, of more, and of the most there is.
        [4, 1, 2, 3, 1, 2],
        [0, 4, 2, 3, 1, 2],
        [0, 1, 2, 5, 1, 2],
        [0, 1, 2, 3, 1, 4],
        [65535, 1, 2, 3, 1, 2],
        [0, 1, 2, 3, 1, 65535],
        # A repeat in the first recipe, in the middle one and in the last.
        [0, 0, 2, 3, 1, 2],
        [0, 1, 3, 3, 1, 2],
        [0, 1, 2, 3, 2, 2],
        # A repeat across recipes, which is fine.
        [0, 1, 1, 0, 0, 1],
    ),
    # A repeat with another pin between.
    CHAIN.changed(bounds=[0, 3, 6], pins=[0, 1, 2, 3, 1, 3]),
    *chains(
        "pins",
        # Several: the lowest position, of either kind.
        [0, 0, 4, 3, 1, 2],
        [0, 4, 2, 2, 1, 2],
        [0, 1, 2, 2, 9, 9],
        [7, 7, 7, 7, 7, 7],
        [0, 1, 3, 3, 1, 1],
    ),
    # A recipe of four where there are fewer files.
    *lengths((1, 1, 1, 2, 4), (3, 3, 3, 2, 4)),
    "no 6",
    *chains("sizes", [0, 1, 1, 1], [1, 1, 0, 1], [1, 1, 1, 0], [0, 0, 0, 0]),
    *chains("sides", [2, 1, 0, 1], [0, 1, 0, 2], [0, 65535, 0, 1]),
    *chains("marks", [2, 0, 0, 0], [0, 0, 0, 2], [0, 0, 65535, 0]),
    # Two and three kinds: the lowest file. The mark 2 was a fault before order 5.
    CHAIN.changed(sizes=[1, 1, 1, 0], sides=[0, 2, 0, 1], marks=[0, 0, 2, 0]),
    CHAIN.changed(sizes=[1, 0, 1, 1], sides=[0, 1, 0, 2]),
    CHAIN.changed(sizes=[1, 1, 1, 0], marks=[0, 0, 2, 0]),
    CHAIN.changed(sides=[0, 1, 0, 3], marks=[3, 0, 0, 0]),
    CHAIN.changed(sizes=[1, 1, 0, 1], sides=[0, 1, 2, 1], marks=[0, 0, 2, 0]),
)

FROM_7_ON = (
    "no 7",
    *ratios((0, 2), (2, 2), (3, 2), (1, 1), (0, 1), (0, 0), (1, 0)),
    *ratios((500, 1000), (500, 1001), (1000, 1000), (1000, 1001)),
    *ratios((32767, 65535), (65535, 65535), (65535, 2)),
    "no 8",
    *chains("marks", [1, 1, 1, 1], [0, 1, 1, 1], [1, 1, 1, 0], [1, 1, 0, 1]),
    "no 9",
    *chains("sides", [0, 0, 0, 0], [1, 1, 1, 1]),
    # m4: |A| of 1 and 3 is balanced.
    *chains("sides", [0, 1, 1, 1], [0, 0, 0, 1]),
    # |A| of 2 under other ratios: at the edge, and past it.
    *ratios((1, 4), (249, 1000), (3, 4), (751, 1000), (1, 1000), (999, 1000)),
    # The largest file is pinned, and gives no slack.
    CHAIN.changed(sizes=[9, 1, 1, 1], sides=[0, 1, 1, 1], marks=[1, 0, 0, 0]),
    CHAIN.changed(sizes=[1, 9, 1, 1], sides=[0, 0, 0, 0], marks=[0, 1, 0, 0]),
    # Products over 32 bits.
    *lopsided((65535, 999, 1000), (65535, 998, 1000), (65535, 997, 1000)),
    *lopsided((65535, 1, 1000), (1, 999, 1000)),
    "the window of the free files",
    *(job for _, job in samples.window_jobs().values()),
    # One heavy file in the largest job, pinned at the edge and past it, or free.
    *heavy_first((1, 0, 1), (1, 0, 2), (0, 0, 2), (1, 1, 1), (1, 1, 2), (0, 1, 2)),
    # No file is free, and no start is balanced: 8.
    samples.archive().changed(marks=[1, 1, 1, 1]),
)

SEVERAL_FAULTS = (
    # Pairs that no earlier section has.
    "two faults",
    *pairs(1, 5, 6, 7, 8, 9),
    *pairs(2, 4, 6, 7, 8, 9),
    *pairs(3, 4, 5, 6, 7, 9),
    CHAIN.changed(sides=[0, 1, 0], marks=[1, 1, 1, 1]),
    *pairs(4, 5, 6, 7, 8, 9),
    *pairs(5, 6, 7, 8, 9),
    *pairs(6, 7, 8, 9),
    *pairs(7, 8, 9),
    *pairs(8, 9),
    "more faults",
    faulty(1, 8, pins=[9] * 6, **WORST),
    faulty(2, 8, bounds=[1, 1, 1, 1], **WORST),
    faulty(3, bounds=[1, 1, 1, 1], pins=[9] * 6, **WORST),
    faulty(4, 8, pins=[9] * 6, **WORST),
    faulty(5, 8, **WORST),
    faulty(6, 8, 9, num=0),
    faulty(7, 8, 9),
    faulty(4, 5, 6),
    faulty(5, 6, 7),
    faulty(3, 5, bounds=[0, 2, 3, 6]),
    faulty(2, sides=[0, 2, 0, 1], num=0),
    faulty(1, 8, 9),
)

# The first and the last places of the largest job.
LARGEST = (
    "largest",
    LARGE,
    # 4: the first bound, the first recipe, the last recipe, the end.
    *puts(LARGE, "bounds", (0, 1), (1, 1), (1, 3), (512, 2045), (1023, 4089)),
    *puts(LARGE, "bounds", (1023, 4095), (1024, 4093), (1024, 4094), (1024, 4095)),
    *puts(LARGE, "bounds", (1024, 4097), (1024, 65535), (1023, 4090), (1023, 4094)),
    # 5: C at the first and the last position, a repeat at the second and the last.
    *puts(LARGE, "pins", (0, 1024), (4095, 1024), (4095, 65535), (1, 0)),
    *puts(LARGE, "pins", (4095, 1020), (4095, 1022), (2048, 3), (4095, 1019)),
    # 6: the first and the last file.
    *puts(LARGE, "sizes", (0, 0), (1023, 0), (1023, 65535)),
    *puts(LARGE, "sides", (0, 2), (1023, 2), (1023, 0)),
    *puts(LARGE, "marks", (0, 2), (1023, 2), (1023, 1)),
    "long recipes",
    LONG,
    # A repeat at the end of a recipe, of its first pin and of the pin just before.
    *puts(LONG, "pins", (1023, 0), (1024, 1), (4095, 0), (4095, 1022)),
    *puts(LONG, "pins", (3072, 1023), (0, 1024), (4095, 1024)),
)

# Order 5. Those before it that have a mark of 2 were refused as 6.
UNREAD_FILES = (
    "unread",
    *(job for _, _, _, job in samples.unread_jobs().values()),
    *(job for _, _, job in samples.unread_starts().values()),
    # One file of the chain, on either side; two, three and all, and pinned ones beside.
    *puts(CHAIN, "marks", *((file, UNREAD) for file in range(4))),
    *puts(FLIPPED, "marks", *((file, UNREAD) for file in range(4))),
    *chains("marks", [2, 2, 0, 0], [0, 2, 2, 0], [2, 0, 0, 2]),
    *chains("marks", [0, 2, 2, 2], [2, 2, 2, 0], [2, 2, 2, 2]),
    *chains("marks", [1, 2, 2, 2], [1, 2, 0, 0], [2, 1, 0, 0], [0, 1, 2, 1]),
    # The first and the last file of the largest job, all others, and all.
    *puts(LARGE, "marks", (0, UNREAD), (1023, UNREAD)),
    LARGE.changed(marks=[FREE] + [UNREAD] * 1023),
    LARGE.changed(marks=[UNREAD] * 1023 + [FREE]),
    LARGE.changed(marks=[UNREAD] * 1024),
    LARGE.changed(marks=[FREE, FREE, UNREAD, PINNED] * 256),
    LONG.changed(marks=[FREE, FREE, UNREAD, UNREAD] * 256),
    "unread and a fault",
    # A mark over 2, alone and beside a 2; the lowest file, of whatever kind.
    *chains("marks", [3, 0, 0, 0], [0, 0, 0, 3], [0, 3, 3, 0], [3, 3, 3, 3]),
    *chains("marks", [2, 3, 0, 0], [3, 2, 0, 0], [2, 2, 2, 3], [0, 2, 0, 65535]),
    *chains("marks", [0, 4, 0, 0], [0, 0, 6, 0], [256, 0, 0, 0], [0, 0, 0, 258]),
    CHAIN.changed(sizes=[1, 1, 1, 0], marks=[0, 0, 3, 0]),
    CHAIN.changed(sizes=[1, 0, 1, 1], marks=[0, 0, 3, 0]),
    CHAIN.changed(sizes=[0, 1, 1, 1], sides=[0, 2, 0, 1], marks=[0, 0, 3, 0]),
    *puts(LARGE, "marks", (0, 3), (1023, 3)),
    # An unread file of size 0, on no side, and in a recipe twice.
    *(samples.partial_chain(sizes=sizes) for sizes in ([1, 1, 1, 0], [0, 1, 1, 0])),
    samples.partial_chain(sides=[0, 1, 0, 2]),
    samples.partial_chain(pins=[0, 1, 3, 3, 1, 2]),
    # Faults of each other number; from 7 on the measure has its numbers.
    *(samples.partial_chain(**FAULTS[number]) for number in (1, 2, 4, 5, 6, 7, 9)),
    samples.partial_chain(marks=[0, 2, 0]),
    samples.partial_chain(marks=[2, 2, 2, 2], num=0, sides=[0] * 4),
)

# Order 6.
WIDER_WINDOWS = (
    "any k",
    *samples.at_each(samples.ANY_K, CHAIN),
    "the window at each k",
    *(
        job
        for kinds in (samples.edges, samples.fine_edges)
        for _, job in samples.at_each_wider(kinds).values()
    ),
    *(job for _, job in samples.wider_jobs().values()),
    # 1,023 of 1,024 files of 65,535 in A: the least num for that, and one less.
    *(
        job.changed(k=k)
        for k, num in ((2, 998), (3, 997), (4, 996))
        for job in lopsided((65535, num, 1000), (65535, num - 1, 1000))
    ),
    "k and a fault",
    # 7 stands after 6, and before 8 and 9.
    *(faulty(number, k=5) for number in FAULTS),
    # The same with a k that may be: 9 is none at 2.
    *(faulty(number, k=2) for number in (6, 7, 8, 9)),
    faulty(7, 8, 9, k=0),
    samples.partial_chain(k=65535),
    LARGE.changed(k=0),
)

VIEWS = (
    "views",
    # Every recipe, and then none.
    *views(CHAIN.bounds, CHAIN.pins, 0, 1, 2, 3, 4, 65536, TOP - 1, TOP),
    *part_views((0, 6, 0), (0, 6, TOP), (1, 6, 0), (2, 6, 0), (2, 6, 1)),
    # Pins that end before a recipe, in it, and with it.
    *part_views((4, 0, 0), (4, 1, 0), (4, 2, 0), (4, 3, 0), (4, 3, 1), (4, 3, 2)),
    *part_views((4, 4, 1), (4, 5, 2), (0, 0, 0)),
    "damaged views",
    # Out of order.
    *views((0, 4, 2, 6), CHAIN.pins, 0, 1, 2),
    *views((6, 0, 2, 4), CHAIN.pins, 0),
    *views((65535, 0, 2, 4), CHAIN.pins, 0),
    # Beyond the pins, in part and whole.
    *views((0, 2, 4, 7), CHAIN.pins, 2),
    *views((0, 2, 4, 65535), CHAIN.pins, 2),
    *views((6, 7, 8, 9), CHAIN.pins, 0),
    *views((7, 8, 9, 9), CHAIN.pins, 0),
    *views((7, 7, 9, 9), CHAIN.pins, 0),
    *views((65535, 65535, 65535, 65535), CHAIN.pins, 1),
    # Both at once.
    *views((9, 8, 7, 6), CHAIN.pins, 0, 2),
    # No pin, one pin, all pins, and a start above 0.
    *views((3, 3, 4, 6), CHAIN.pins, 0, 1),
    *views((0, 0, 6, 6), CHAIN.pins, 0, 1, 2),
    *views((5, 6, 6, 6), CHAIN.pins, 0),
    *views((1, 5, 6, 6), CHAIN.pins, 0),
    "large views",
    *views(LARGE.bounds, LARGE.pins, 0, 512, 1023, 1024),
    *views(LARGE.bounds, LARGE.pins[:4095], 1022, 1023),
    *views(LONG.bounds, LONG.pins, 3, 4),
)

OLDER_CASES = (
    UP_TO_6
    + FROM_7_ON
    + SEVERAL_FAULTS
    + LARGEST
    + VIEWS
    + UNREAD_FILES
    + WIDER_WINDOWS
)

# Order 8. Those before it that 10 refuses now stay, and are shown again past it.
EMPTY_VAULTS = (
    "no 10",
    *(job for _, job in samples.vault_jobs().values()),
    "both halves at each k",
    *(job for _, job in samples.at_each_k(samples.vault_edges).values()),
    *(job for _, _, job in samples.at_each_k(samples.vault_starts).values()),
    "10 and a fault",
    # The chain, of which A is to hold a quarter: 10 stands after 8 and before 9.
    *(faulty(number, den=4) for number in FAULTS if number != 7),
    *ratios((0, 4), (4, 4), (5, 4), (0, 0), (1, 1001)),
    *(faulty(number, num=3, den=4) for number in (6, 8)),
    CHAIN.changed(num=3, den=4, sides=[1, 1, 1, 1]),
    *samples.at_each(samples.ANY_K, CHAIN.changed(den=4)),
    "10 in the largest job",
    # W is 1,024, and a thousandth of it more than one file and less than two.
    *(
        LARGE.changed(sizes=[size] * 1024, num=num, den=1000, k=k)
        for size in (1, 65535)
        for num in (1, 999)
        for k in (1, 2)
    ),
    # A file of 1,022 up to 1,024, and 1,023 of 1: both halves missed by 1, hit, and
    # within by 1.
    *(job for size in (1022, 1023, 1024) for job in heavy_first((0, 0, 2), size=size)),
)


def past_10(cases):
    """What these calls showed before order 8 where 10 now hides it, behind a heading for
    each of theirs. Those of 1,024 files have no room for more: they are below."""
    section = None
    for case in cases:
        if isinstance(case, str):
            section = case
        elif isinstance(case, planner.Job) and hidden_by_10(case):
            if section:
                yield f"{section}, past 10"
                section = None
            yield samples.past_10(case)


def hidden_by_10(job):
    return planner.check(job) == (10, 0) and job.files < planner.MOST_FILES


SHOWN_AGAIN = (
    *past_10(OLDER_CASES),
    "largest, past 10",
    # The heavy file is less by 1 than all others.
    *heavy_first((0, 0, 2), (0, 1, 2), size=1022),
    # The last of two files of 65,535, of which the other is pinned in A.
    LARGE.changed(sizes=[1] * 1022 + [65535] * 2, marks=[FREE] * 1022 + [PINNED, FREE]),
    # The first file alone is free, or the last, beside a pinned one in each vault.
    LARGE.changed(marks=FIRST_FREE),
    LARGE.changed(marks=LAST_FREE),
)

CASES = OLDER_CASES + EMPTY_VAULTS + SHOWN_AGAIN


# ---- What the program reads, and what it must write


def framed(case):
    """A case's frames: the letter of its kind, and what it has."""
    if isinstance(case, str):
        return heading(case)
    if isinstance(case, View):
        recipe = frame(case.j.to_bytes(8, "little"))
        return frame(b"v") + recipe + numbers(case.bounds) + numbers(case.pins)
    return frame(b"j") + figures_and_lists(case)


def figures_and_lists(job, *more):
    """Six frames of a job: its figures, with any more behind them, and its lists."""
    figures = (job.num, job.den, job.cap, job.k, *more)
    lists = (figures, job.sizes, job.sides, job.marks, job.bounds, job.pins)
    return b"".join(map(numbers, lists))


def line(case):
    """The heading, the view's length and entries, or what check and measure answer."""
    if isinstance(case, str):
        return case + "\n"
    if isinstance(case, View):
        part = planner.view(*case)
        told = [len(part), *part]
    else:
        told = planner.check(case) + planner.measure(case)
    return " ".join(map(str, told)) + "\n"


def made():
    # It makes its cases of those that stand here.
    import balance_cases

    calls, told, others = balance_cases.made()
    return {
        "crates/job_cases/stdin": b"".join(map(framed, CASES)) + calls,
        "crates/job_cases/stdout": "".join(map(line, CASES)).encode() + told,
        **others,
    }


if __name__ == "__main__":
    sys.exit(keep(made(), sys.argv[1:]))
