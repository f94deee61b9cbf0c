"""Calls of the writer: what the program `write_cases` reads, and what it must write of it.

    python3 tests/write_cases.py            whether the files are as made here
    python3 tests/write_cases.py --write    writes them

A case is a heading, a call of the writer, or a stored job that is read and written
back. The answers are the reference's. So is what `resettle` must write of the chain.
"""

import itertools
import sys
from typing import NamedTuple

from job_cases import (
    CHAIN,
    FAULTS,
    LARGE,
    LARGEST,
    LONG,
    SEVERAL_FAULTS,
    UNREAD_FILES,
    UP_TO_6,
    chains,
    faulty,
    figures_and_lists,
    lengths,
    ratios,
)
from make_cases import cases, large, one_recipe, row, wide
from program_files import frame, heading, keep

import planner
from planner import FREE, PINNED, UNREAD
from samples import ANY_K, at_each, vault_jobs

# What every byte of an output list is before the call.
FILLED = b"\xa5"
# One line holds the bytes of a block.
TO_A_LINE = planner.BLOCK


class Call(NamedTuple):
    """The writer's call, lent an output list of this length."""

    job: planner.Job
    length: int


class Back(NamedTuple):
    """A stored job to be read and written back."""

    data: bytes


# ---- Ways to make cases


def called(*jobs):
    """Each job with an output list as long as its blocks; headings as they are."""
    return [
        job if isinstance(job, str) else Call(job, planner.stored_length(job))
        for job in jobs
    ]


def off(job, *steps):
    """The job with output lists that are longer by these numbers of bytes."""
    return [Call(job, planner.stored_length(job) + step) for step in steps]


def lent(job, *whole):
    """The job with output lists of these lengths."""
    return [Call(job, length) for length in whole]


def every_side_and(*pairs):
    """Two files with each pair of sides and each of these pairs of marks."""
    twice = itertools.product((0, 1), repeat=2)
    for sides, marks in itertools.product(twice, pairs):
        yield planner.Job([1, 2], sides, marks, [0, 2], [1, 0], 1, 2, 0)


def back(named):
    """Each stored job behind its name."""
    for name, data in named.items():
        yield name
        yield Back(data)


# A job whose every list has numbers of two full bytes or steps of its own.
UNEVEN = large(
    4,
    sizes=[65535 - 63 * i for i in range(1024)],
    sides=[i // 3 % 2 for i in range(1024)],
    marks=[i // 5 % 2 for i in range(1024)],
    pins=[(k * 5 + k // 1024) % 1024 for k in range(4096)],
    num=0x1234,
    den=0x5678,
    cap=0x9ABC,
)

# A job of five blocks, the second of which is full.
TWO_FILE_BLOCKS = wide(127)


# ---- The cases

CASES = (
    # The calls that check and measure are given.
    *called(*UP_TO_6, *SEVERAL_FAULTS, *LARGEST),
    "sides and marks",
    *called(*every_side_and((0, 0), (0, 1), (1, 0), (1, 1))),
    "files that fill blocks",
    *called(*(wide(files) for files in (125, 126, 127, 252, 253))),
    "bounds that fill blocks",
    *called(*(row(files) for files in (252, 253, 254))),
    "pins that fill blocks",
    *called(*(one_recipe(pins) for pins in (252, 253, 254, 506, 507))),
    "the largest",
    *called(UNEVEN, large(4, sizes=[65535] * 1024, marks=[PINNED] * 1024)),
    "any ratio and cap",
    *called(*ratios((0, 0), (5, 3), (1, 0), (0, 1), (1, 1), (500, 1001))),
    *called(*ratios((65535, 65535), (255, 256), (256, 255))),
    *called(*(CHAIN.changed(cap=cap) for cap in (1, 255, 256, 65535))),
    "jobs that a run refuses",
    *called(faulty(7), faulty(8), faulty(9), faulty(7, 8, 9)),
    "output lists",
    *off(CHAIN, -2048, -2047, -1537, -1536, -512, -511, -1, 0, 1, 2, 511, 512, 513),
    *lent(CHAIN, 4, 6, 16384, 20000),
    *off(TWO_FILE_BLOCKS, -512, -1, 0, 1, 512),
    *off(LARGE, -16384, -16383, -512, -1, 1, 511, 512, 3616),
    *off(LONG, -512, -1, 1),
    "output lists of refused jobs",
    # 1 and 2 before the output list, and 4 to 6 after it.
    *(Call(faulty(number), length) for number in range(1, 7) for length in (0, 2049)),
    *lent(CHAIN.changed(sizes=[]), 0, 1, 512, 20000),
    *lent(CHAIN.changed(bounds=[]), 0, 1024, 1536, 2048),
    # As long as the blocks would be if sides or marks were what is counted.
    *(
        Call(job.changed(**{field: [FREE] * files}), 512 * blocks)
        for field in ("sides", "marks")
        for job, files, blocks in ((wide(126), 127, 5), (wide(127), 126, 4))
    ),
    # As long as the blocks would be if the last bound were what is counted.
    *off(one_recipe(253).changed(bounds=[0, 254]), 0, 512),
    *off(one_recipe(254).changed(bounds=[0, 253]), 0, -512),
    "bounds that are damaged",
    *called(*chains("bounds", [0, 2, 4, 5], [0, 2, 4, 4], [0, 6, 4, 2], [6, 4, 2, 0])),
    *called(*chains("bounds", [0, 65535, 65535, 6], [0, 2, 3, 4], [65535] * 4)),
    *lent(CHAIN.changed(bounds=[0, 2, 3, 6]), 0, 2047, 2049),
    "lists of unequal lengths",
    *called(*lengths((2, 1, 3, 2, 4), (5, 4, 5, 2, 4), (5, 5, 4, 2, 4))),
    *called(*lengths((127, 126, 127, 2, 4), (126, 127, 126, 2, 4), (3, 1024, 3, 2, 4))),
    *called(*lengths((1024, 4, 1024, 1025, 4096), (1024, 1024, 4, 1025, 4096))),
    # The stored jobs of the program `cases`.
    *back(cases()),
    # Order 5.
    *called(*UNREAD_FILES),
    "sides and marks of unread files",
    *called(*every_side_and((0, 2), (2, 0), (1, 2), (2, 1), (2, 2))),
    *called(*every_side_and((0, 3), (3, 0), (2, 3), (3, 2))),
    "the largest with unread files",
    *called(UNEVEN.changed(marks=[i // 5 % 3 for i in range(1024)])),
    *called(large(4, sizes=[65535] * 1024, marks=[UNREAD] * 1024)),
    "unread files that fill blocks",
    *called(*(wide(files, marks=[UNREAD] * files) for files in (126, 127))),
    "output lists of jobs with unread files",
    *off(CHAIN.changed(marks=[2, 2, 1, 0]), -512, -1, 0, 1, 512),
    # Order 6.
    "any k",
    *called(*at_each(ANY_K, CHAIN)),
    "any ratio and k",
    *called(*at_each((2, 5), CHAIN.changed(num=0, den=0))),
    *called(*at_each((4, 0), CHAIN.changed(num=65535, den=65535, cap=65535))),
    "k and a fault",
    # 1 to 6 before it; it is given where a run gives 8 or 9, and for no ratio.
    *called(*(faulty(number, k=5) for number in FAULTS)),
    *called(*(faulty(number, k=3) for number in range(6, 10))),
    "k and other sides and marks",
    *called(*at_each((1, 2), CHAIN.changed(sides=[1, 0, 0, 1], marks=[2, 1, 0, 2]))),
    "the largest and k",
    *called(UNEVEN.changed(k=3), UNEVEN.changed(k=0)),
    "output lists and k",
    *off(CHAIN.changed(k=2), -512, -1, 1, 2, 512),
    *off(CHAIN.changed(k=5), -512, -1, 1, 512),
    *off(TWO_FILE_BLOCKS.changed(k=4), -512, 0, 512),
    # Order 8.
    "jobs that a run refuses as 10",
    *called(*(job for number, job in vault_jobs().values() if number == 10)),
    *called(*(faulty(number, den=4) for number in (6, 8, 9))),
    *called(*at_each((4, 5), CHAIN.changed(den=4))),
    *off(CHAIN.changed(den=4), -1, 1),
)


# ---- What the program reads, and what it must write


def framed(case):
    """A case's frames: the letter of its kind, and what it has."""
    if isinstance(case, str):
        return heading(case)
    if isinstance(case, Back):
        return frame(b"b") + frame(case.data)
    return frame(b"w") + figures_and_lists(case.job, case.length)


def lines_of_call(case):
    """The bytes in lower-case hexadecimal; or the refusal, and whether any changed."""
    output = FILLED * case.length
    number, place, after = planner.write(case.job, output)
    if number:
        return f"refused {number} {place} {'kept' if after == output else 'changed'}"
    starts = range(0, len(after), TO_A_LINE)
    rows = [after[start : start + TO_A_LINE].hex() for start in starts]
    return "\n".join(["done", *rows])


def line_of_back(case):
    """The reader's refusal, or whether the writer gives the same bytes again."""
    number, place, _, job = planner.read_job(case.data)
    if number:
        return f"refused {number} {place}"
    written = planner.write(job, FILLED * len(case.data))
    return "same" if written == (0, 0, case.data) else "other"


def told(case):
    if isinstance(case, str):
        return case + "\n"
    return (line_of_back(case) if isinstance(case, Back) else lines_of_call(case)) + "\n"


def made():
    chain = planner.write_job(CHAIN)
    resettled, _ = planner.resettle(chain)
    return {
        "crates/write_cases/stdin": b"".join(map(framed, CASES)),
        "crates/write_cases/stdout": "".join(map(told, CASES)).encode(),
        "crates/resettle/stdin": chain,
        "crates/resettle/stdout": resettled,
    }


if __name__ == "__main__":
    sys.exit(keep(made(), sys.argv[1:]))
