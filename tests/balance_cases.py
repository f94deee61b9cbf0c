"""Calls of the balancing, of which the program `job_cases` prints the answers.

tests/job_cases.py writes them behind its own cases. A case is a heading with its name, and
then the frames of a call: the letter `b`, the figures num, den, cap, k, the lists sizes,
sides, marks, bounds, pins, and the scratch as it is before the call. It is lent these lists,
each exactly as long as its frame says. Four lines are printed of it:

    1  the name
    2  number, place, moves, cut, |A|, unread files and recipes that hold one, as the call
       answers them
    3  how many numbers the sides have, then all of them, as they are after the call
    4  the same of the scratch

So an empty list is the line `0`. The answers are the reference's, planner.balance. So is what
the program `balance` must write of the chain with all of its files in A.
"""

import itertools
import random
from typing import NamedTuple

from job_cases import (
    CHAIN,
    EMPTY_VAULTS,
    FAULTS,
    FROM_7_ON,
    UNREAD_FILES,
    UP_TO_6,
    figures_and_lists,
)
from make_cases import LAST_FREE, SEED, bad_starts, large
from program_files import frame, heading, numbers

import planner
import samples
from planner import A, B, FREE, MOST_FILES, PINNED, UNREAD

# The most numbers of any list but the scratch, and of a scratch.
MOST = 4097
MOST_SCRATCH = 12320

IN_A = CHAIN.changed(sides=[A] * 4)
IN_B = CHAIN.changed(sides=[B] * 4)


class Call(NamedTuple):
    name: str
    job: planner.Job
    scratch: tuple


# ---- Ways to make cases


def used(length):
    """A scratch that others have used: no number is 0, and none is twice there."""
    return tuple(range(1, length + 1))


def lent(job, step=0):
    """A scratch that just serves the job, or is so much longer."""
    return used(planner.scratch_numbers(job) + step)


def called(name, *jobs):
    """Each job with a scratch that just serves; a heading names those after it."""
    for k, job in enumerate(jobs):
        if isinstance(job, str):
            name = job
        else:
            yield Call(f"{name}, {k}", job, scratch_of(job))


def scratch_of(job):
    """Of a job that 1 or 2 refuse, whatever its scratch, a short one."""
    number, _ = planner.refusal(job, True, 2)
    return used(3) if number else lent(job)


def short(*cases):
    """Without the jobs that need a long scratch, of which `largest` has some."""
    return [
        case for case in cases if isinstance(case, str) or len(scratch_of(case)) < 600
    ]


def off(name, job, *steps):
    """The job with a scratch that is so much longer than it must be."""
    for step in steps:
        yield Call(f"{name}, scratch {step:+}", job, lent(job, step))


def of_lengths(name, job, *lengths):
    for length in lengths:
        yield Call(f"{name}, scratch of {length}", job, used(length))


def of_samples():
    for name, (_, _, job) in samples.unbalanced_jobs().items():
        yield Call(f"unbalanced {name}", job, lent(job))


def wrong_lengths(field, *lengths):
    """The chain with the first so many of a list, which goes on with zeros."""
    entries = getattr(IN_A, field) + (0,) * 4
    for length in lengths:
        job = IN_A.changed(**{field: entries[:length]})
        yield Call(f"no 3, {length} {field}", job, lent(job))


# As job_cases has them, but no assignment of the free files is balanced: 9 of 12 are
# pinned in A.
BALANCE_FAULTS = {
    **FAULTS,
    9: {"sizes": [9, 1, 1, 1], "sides": [A, B, B, B], "marks": [PINNED, 0, 0, 0]},
}


def faulty(*numbers):
    """The chain with these faults; where two change one list, that of the lower."""
    job = IN_A
    for number in sorted(numbers, reverse=True):
        job = job.changed(**BALANCE_FAULTS[number])
    return job


def each_fault():
    """By itself, and with a scratch that is too short, empty, and longer."""
    for number in BALANCE_FAULTS:
        job = faulty(number)
        yield from off(f"fault {number}", job, -1, 0, 1)
        yield from of_lengths(f"fault {number}", job, 0)


def pairs():
    """Every two faults at once, with a scratch that serves and one that does not."""
    for low, high in itertools.combinations(BALANCE_FAULTS, 2):
        job = faulty(low, high)
        yield Call(f"faults {low} and {high}", job, scratch_of(job))
        if low > 3:
            yield Call(f"faults 3, {low} and {high}", job, lent(job, -1))


def largest():
    for name in ("large_all_in_a", "large_all_in_b"):
        yield from off(name, bad_starts()[name], -1, 0, 1)


def small_randoms():
    """Few files, most of them not balanced, and scratch with numbers of any size."""
    rng = random.Random(SEED + 3)
    for k, side in zip(range(150), itertools.cycle((A, B, None))):
        job = samples.unbalanced_job(rng, rng.randint(2, 10), rng.randint(1, 12), side)
        length = planner.scratch_numbers(job) + rng.choice([0, 0, 1, 20])
        scratch = tuple(rng.randint(0, 65535) for _ in range(length))
        yield Call(f"random {k}", job, scratch)


def largest_unread():
    """The largest job with each fourth file unread, and with all but the last."""
    fourth = large(4, sides=[A] * 1024, marks=[FREE, UNREAD, FREE, FREE] * 256)
    yield from off("large, each fourth unread", fourth, -1, 0)
    alone = large(4, sides=[B] * 1024, marks=[UNREAD] * 1023 + [FREE])
    yield from off("large, all but one unread", alone, 0)


def unread_randoms():
    """Few files, most of them not balanced, from few to most of them unread."""
    rng = random.Random(SEED + 5)
    for k, side in zip(range(60), itertools.cycle((A, B, None))):
        job = samples.unbalanced_job(rng, rng.randint(3, 12), rng.randint(1, 12), side)
        part = rng.choice([0.1, 0.3, 0.6])
        unread = [i for i in range(job.files) if rng.random() < part]
        job = samples.with_unread(job, *unread)
        yield Call(f"unread random {k}", job, lent(job))


def any_k():
    """The chain in A at every k; 3 stands before a k that is refused."""
    for k in samples.ANY_K:
        yield from off(f"k is {k}", IN_A.changed(k=k), 0)
    yield from off("k is 5", IN_A.changed(k=5), -1, 1)
    # Balanced at 2, and too small at 1.
    yield from off("chain in B, k is 2", IN_B.changed(k=2), -1, 0, 1)


def wrong_k_and_a_fault():
    for number in BALANCE_FAULTS:
        job = faulty(number).changed(k=5)
        yield Call(f"k is 5 and fault {number}", job, scratch_of(job))


def of_wider_samples():
    for name, (_, _, job) in samples.wider_starts().items():
        yield Call(f"wider {name}", job, lent(job))


def wider_randoms():
    """Few files, most of them not balanced, at each k; some of them unread."""
    rng = random.Random(SEED + 6)
    kinds = itertools.product(samples.WIDER, (A, B, None), (0, 0.3))
    for i, (k, side, part) in enumerate(kinds):
        job = samples.unbalanced_job(rng, rng.randint(4, 14), rng.randint(1, 14), side)
        unread = [file for file in range(job.files) if rng.random() < part]
        job = samples.with_unread(job.changed(k=k), *unread)
        yield Call(f"wider random {i}", job, lent(job))


def vault_faults():
    """Each fault beside 10, with a scratch that serves and one that does not; the ratio's
    7 is a num of 0. A is to hold a twelfth: of 4 or 12 that is no more than smax."""
    for number in BALANCE_FAULTS:
        fields = {"num": 0} if number == 7 else BALANCE_FAULTS[number]
        job = IN_A.changed(den=12).changed(**fields)
        yield Call(f"fault {number} and 10", job, scratch_of(job))
        yield Call(f"fault {number} and 10, short", job, used(len(scratch_of(job)) - 1))
    yield from off("10", IN_A.changed(den=12), -1, 0, 1)
    yield from off("10 from B", IN_B.changed(num=11, den=12), -1, 0, 1)


def large_vaults():
    """A thousandth of the largest job is more than one file, and less than two."""
    for side, num in ((A, 1), (B, 999)):
        for start, k in ((side, 1), (1 - side, 1), (1 - side, 2)):
            job = large(4, sides=[start] * 1024, num=num, den=1000, k=k)
            name = f"large at {num} of 1000, all in {'AB'[start]}, k is {k}"
            yield from off(name, job, 0)


def vault_randoms():
    """Few files and a ratio near an end: of some a vault may just not be empty."""
    rng = random.Random(SEED + 8)
    for i, (k, side) in enumerate(itertools.product((1, 2, 3, 4), (A, B, None) * 3)):
        files = rng.randint(4 * k, 12 * k)
        job = samples.random_job(rng, files, files, top_size=2, den=rng.randint(3, 8))
        sides = [rng.randint(A, B) if side is None else side for _ in range(files)]
        job = job.changed(sides=sides, num=rng.choice([1, job.den - 1]), k=k)
        yield Call(f"vault random {i}", job, lent(job))


def past_10(calls):
    """What these calls showed before order 8 where 10 now hides it, each past 10 with a
    scratch as much longer than it must be. One has 1,024 files, and is below."""
    for name, job, scratch in calls:
        if planner.balance(job, scratch).number == 10 and job.files < MOST_FILES:
            step = len(scratch) - planner.scratch_numbers(job)
            past = samples.past_10(job)
            yield Call(f"{name}, past 10", past, lent(past, step))


def largest_past_10():
    """One file is free, beside a pinned one in each vault."""
    job = large(4, sides=[A] + [B] * 1023, marks=LAST_FREE)
    yield from off("large, all but three unread", job, 0)


# ---- The cases

OLDER_CASES = (
    *called("the chain", CHAIN, IN_A, IN_B),
    *called("two and three files", samples.two_files(), samples.three_files()),
    *of_samples(),
    # Of 50 numbers: none, some, one less, all, one more, many more.
    *of_lengths("chain in A", IN_A, 0, 1, 34, 38, 49, 50, 51, 66, 1000, MOST_SCRATCH),
    *of_lengths("chain in B", IN_B, 0, 49, 50, 51),
    *of_lengths("balanced chain", CHAIN, 0, 49, 50, 51),
    *wrong_lengths("sides", 0, 1, 3, 5, 8),
    *wrong_lengths("marks", 0, 1, 3, 5, 8),
    *each_fault(),
    *pairs(),
    # The calls that check and measure are given.
    *called("", *short(*UP_TO_6, *FROM_7_ON)),
    *largest(),
    *small_randoms(),
    *called("", *short(*UNREAD_FILES)),
    *largest_unread(),
    *unread_randoms(),
    *any_k(),
    *wrong_k_and_a_fault(),
    *of_wider_samples(),
    *off("large, k is 4", large(4, sides=[A] * 1024, k=4), -1, 0),
    *wider_randoms(),
)

CASES = (
    *OLDER_CASES,
    # Order 8.
    *called("", *short(*EMPTY_VAULTS)),
    *vault_faults(),
    *large_vaults(),
    *vault_randoms(),
    *past_10(OLDER_CASES),
    *largest_past_10(),
)


# ---- What the program reads, and what it must write


def framed(case):
    assert 0 < len(case.name.encode()) < 256 and len(case.scratch) <= MOST_SCRATCH
    lists = (case.job.sizes, case.job.sides, case.job.marks)
    assert all(len(one) <= MOST for one in (*lists, case.job.bounds, case.job.pins))
    return heading(case.name) + frame(b"b") + figures_and_lists(case.job) + numbers(case.scratch)


def line(told):
    return " ".join(map(str, told)) + "\n"


def told(case):
    answer = planner.balance(case.job, case.scratch)
    # Order 8: no vault is left empty.
    assert answer.number or 0 < answer.size_a < case.job.total, case.name
    figures = (answer.number, answer.place, answer.moves)
    return (
        case.name
        + "\n"
        + line((*figures, answer.cut_after, answer.size_a, *answer.unread))
        + line((len(answer.sides), *answer.sides))
        + line((len(answer.scratch), *answer.scratch))
    )


def made():
    """The frames of all calls, what is printed of them, and the files of `balance`."""
    chain = planner.write_job(IN_A)
    balanced, _ = planner.balance_stored(chain)
    calls = b"".join(map(framed, CASES)), "".join(map(told, CASES)).encode()
    return *calls, {"crates/balance/stdin": chain, "crates/balance/stdout": balanced}
