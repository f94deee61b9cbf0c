"""Calls of a pass and of a run: what the program `pass_cases` reads, and what it must write.

    python3 tests/pass_cases.py            whether its stdin and stdout are as made here
    python3 tests/pass_cases.py --write    writes both, and the files of `edition`
    python3 tests/pass_cases.py --list     each case on a line: its name, kind, edition and
                                           number
    python3 tests/pass_cases.py --check    whether the files are as made here, and the cases
                                           leave out nothing that orders 9, 10 and 12 ask for
    python3 tests/pass_cases.py --compare edition|trace|resettle PROGRAM
                     run the program with each edition on every planned stored job of
                     make_cases.py, and with other words, and compare what it writes
    python3 tests/pass_cases.py --with-3 ...   any of these with edition 3 as one that there
                     is, and its cases behind the others: for order 12, which widens
                     planner.EDITIONS so that it is always so

What is read. A case is a heading with its name (the letter `h`, and the name), and then seven
frames of a call:

    1  one letter: `p` for a pass, `r` for a run, `s` for a run that is shown in short
    2  13 numbers: edition, num, den, cap, k; then the lengths of the lists lent beside the job:
       the gain list; the four move lists (file, gain, cut, scans); the two scan lists (recipe,
       kind); the scratch
    3  sizes   4  sides   5  marks   6  bounds   7  pins

All numbers have two bytes, low byte first. The call is lent the job's five lists, each exactly
as long as its frame says, and the other eight, each exactly as long as frame 2 says. Before the
call each entry of these eight is 7. No list of the job has over 4,097 numbers; of those lent no
gain list and no move list has over 1,040, no scan list over 4,112, and no scratch over 16,416.

What is printed. Numbers stand one space apart, gains with a minus where they are below 0. A list
is shown as its length and then all its entries as they are after the call, so that an empty one
is the line `0`. First the name, on a line, and then of `p` and `r` ten lines:

    1     number, place, cut before, cut after, |A| after, moves tried, moves kept, scans,
          visits, unread files, recipes that hold one; and of a run further the passes, and
          settled as 1 or 0
    2     the sides
    3     the gain list
    4-7   the four move lists
    8-9   the two scan lists
    10    the scratch: its length, and then for each run of equal numbers how many they are and
          the number. So `12 10 0 2 7` is ten zeros and two sevens, and an empty scratch is `0`

Of `s` four lines: those of `r` numbered 1 and 2, the gain list, and the first move list.

The answers are the reference's, planner.pass_call and planner.run_call.
"""

import functools
import itertools
import random
import subprocess
import sys
from typing import NamedTuple

import make_cases
from job_cases import CHAIN, FAULTS
from make_cases import LAST_FREE, SEED, large, one_recipe, rising, row, wide
from program_files import frame, heading, keep, numbers

import planner
import samples
from mill import mill
from planner import A, B, FREE, PINNED, UNREAD

FILLED = 7
# The most numbers of each lent list.
MOST_OF_FILES, MOST_SCANS, MOST_SCRATCH = 1040, 4112, 16416
MOST_OF_JOB = 4097

LISTS = (
    "gains",
    "move_files",
    "move_gains",
    "move_cuts",
    "move_scans",
    "scan_recipes",
    "scan_kinds",
    "scratch",
)
# The editions of the cases from before order 12, and those that there were not.
BOTH = (1, 2)
OTHERS_THEN = (0, 3, 65535)


class Call(NamedTuple):
    name: str
    kind: str
    edition: int
    job: planner.Job
    lengths: tuple


# ---- Ways to make cases


def other_editions():
    """ "An edition other than 1, 2 and those that a later order adds", the first of these
    among them."""
    return 0, planner.EDITIONS[-1] + 1, 65535


def lengths(job, edition, **steps):
    """The least lengths that serve this edition; some of them longer by a step. Those of a
    job that 1 or 2 refuse are 3 each."""
    number, _ = planner.refusal(job, True, 2)
    if number:
        least = dict.fromkeys(LISTS, 3)
    else:
        named = planner.scratch_numbers(job, edition)
        least = dict.fromkeys(LISTS, job.files) | {"scratch": named}
        least |= dict.fromkeys(LISTS[5:7], 4 * job.recipes)
    return tuple(max(0, least[name] + steps.get(name, 0)) for name in LISTS)


def call(name, kind, edition, job, **steps):
    """By edition 1 or 2, or by another with the lengths that serve 2."""
    least = lengths(job, edition if edition in BOTH else 2, **steps)
    return Call(name, kind, edition, job, least)


def by_3(name, kind, job, **steps):
    return Call(name, kind, 3, job, lengths(job, 3, **steps))


def both(name, job, kinds="pr", **steps):
    """A pass and a run by editions 1 and 2."""
    for edition, kind in itertools.product(BOTH, kinds):
        yield call(f"{name}, edition {edition}, {kind}", kind, edition, job, **steps)


def all_longer(step):
    """Every list but the gain list, which must be exactly C."""
    return {name: step + at for at, name in enumerate(LISTS) if name != "gains"}


# ---- Groups


def worked():
    """Those that are worked out by hand, also turned about, and those of document 01."""
    for name, job in samples.fronts().items():
        yield from both(name, job)
        yield from both(f"{name} turned", samples.turned(job), "p")
    yield from both("chain", CHAIN)
    for cap in (1, 2, 65535):
        yield from both(f"chain, cap {cap}", CHAIN.changed(cap=cap), "r")
    yield from both("two files", samples.past_10(samples.two_files()))
    yield from both("three files", samples.three_files())


def lent_lists():
    """Each list one short, exact, longer by one and by many, and empty; all longer at
    once. A gain list that is longer is refused too."""
    job = samples.fronts()["worked"]
    for edition, kind in itertools.product(BOTH, "pr"):
        for name, step in itertools.product(LISTS, (-1, 0, 1, 16)):
            said = f"{name} {step:+}, edition {edition}, {kind}"
            yield call(said, kind, edition, job, **{name: step})
        for name in LISTS:
            said = f"no {name}, edition {edition}, {kind}"
            yield call(said, kind, edition, job, **{name: -9999})
        said = f"all longer, edition {edition}, {kind}"
        yield call(said, kind, edition, job, **all_longer(1))
    # What serves edition 1 is too short for 2, and one more than that serves 1.
    one, two = (planner.scratch_numbers(job, edition) for edition in BOTH)
    for kind in "pr":
        said = f"scratch of the other edition, {kind}"
        yield call(f"{said}, 2 by 1", kind, 1, job, scratch=two - one)
        yield call(f"{said}, 1 by 2", kind, 2, job, scratch=one - two)
        yield call(f"{said}, 1 and one by 2", kind, 2, job, scratch=one - two + 1)
        yield call(f"{said}, 2 less one by 1", kind, 1, job, scratch=two - one - 1)


def longer_lists():
    """Lists that are longer, of jobs with unread and pinned files and at each k."""
    named = {**samples.fronts(), "mill": mill().changed(num=53, den=100)}
    for at, (name, job) in enumerate(named.items()):
        kind = "s" if name == "mill" else "pr"[at % 2]
        yield from both(f"longer for {name}", job, kind, **all_longer(1 + at % 9))


FAULTY = {
    **FAULTS,
    # A is to hold a quarter, which is no more than smax; and 9 beside it.
    10: {"den": 4},
    "10 and 9": {"den": 4, "sides": [A] * 4},
    "k": {"k": 5},
    "k of 0": {"k": 0},
}


def faults():
    """Each fault by each edition, and by others, of which 32 goes before all; also where
    a list is too short, and where several are wrong."""
    for number, fields in FAULTY.items():
        job = CHAIN.changed(**fields)
        for edition, kind in zip((*BOTH, *OTHERS_THEN), itertools.cycle("pr")):
            yield call(f"fault {number}, edition {edition}, {kind}", kind, edition, job)
        yield call(f"fault {number}, edition 2, p", "p", 2, job)
        yield call(f"fault {number} and short, edition 2", "p", 2, job, scratch=-1)
        yield call(f"fault {number} and short, edition 4", "r", 4, job, scratch=-1)


def two_faults():
    """Pairs of neighbours in the order of the checks, by edition 2 and by none."""
    order = (1, 2, 3, 4, 5, 6, 7, 8, 9)
    for low, high in itertools.combinations(order, 2):
        if FAULTS[low].keys() & FAULTS[high].keys():
            continue
        job = CHAIN.changed(**FAULTS[high]).changed(**FAULTS[low])
        kind = "pr"[high % 2]
        yield call(f"faults {low} and {high}, edition 2", kind, 2, job)
        if high == low + 1:
            yield call(f"faults {low} and {high}, edition 0", kind, 0, job)


def no_edition():
    """Editions that there were not before order 12, of jobs that are right; where there is
    none nothing changes."""
    for edition in (*OTHERS_THEN, 4, 256, 257, 258, 512, 32768, 32769):
        for kind in "prs":
            yield call(f"edition {edition}, {kind}", kind, edition, CHAIN)
        job = samples.fronts()["worked"]
        yield call(f"edition {edition}, worked", "r", edition, job, **all_longer(3))
    yield call("edition 3, the largest", "s", 3, large(4))
    for name in LISTS:
        yield call(f"edition 3, {name} short", "p", 3, CHAIN, **{name: -1})


def at_each_k():
    """The same files at each k, and jobs that start at the edge of its window."""
    for k in (1, 2, 3, 4):
        for name, job in samples.fronts().items():
            wider = job.changed(k=k)
            if k > 1 and planner.check(wider) == (0, 0):
                yield call(f"{name}, k is {k}", "p", 2, wider)
        yield from both(f"held chain, k is {k}", samples.held_chain(k=k))
    for at, (name, job) in enumerate(samples.wider_jobs().items()):
        yield call(f"wider {name}", "pr"[at % 2], 2, job[1])
    for k in samples.WRONG_K:
        yield call(f"wrong k {k}", "r", 2, CHAIN.changed(k=k))


def unread():
    for at, (name, (_, _, _, job)) in enumerate(samples.unread_jobs().items()):
        yield call(f"unread {name}", "pr"[at % 2], 2, opened(job))
    for name, job in samples.fronts().items():
        for file in range(job.files):
            changed = samples.with_unread(job, file)
            if planner.check(changed) == (0, 0):
                yield call(f"{name} without {file}", "pr"[file % 2], 2, changed)


def opened(job):
    """The job, or where 10 refuses it the same past 10."""
    return samples.past_10(job) if planner.check(job) == (10, 0) else job


def random_jobs(name, count, seed, made):
    """So many that are planned, by each edition in turn a pass or a run."""
    found = 0
    for at in itertools.count():
        job = opened(made(random.Random(SEED + seed + 1000 * at)))
        if planner.check(job) != (0, 0) or job.files > 40:
            continue
        edition = 1 if found % 5 == 4 else 2
        yield call(f"{name} {found}", "pr"[found // 5 % 2], edition, job)
        found += 1
        if found == count:
            return


def plain(rng):
    return samples.random_job(
        rng,
        files=rng.randint(3, 24),
        recipes=rng.randint(1, 30),
        longest=rng.choice([2, 3, 4, 24]),
        top_size=rng.choice([1, 2, 3, 9, 65535]),
        pinned=rng.choice([0, 0, 0.1, 0.4]),
        den=rng.choice([2, 2, 3, 1000]),
        cap=rng.choice([0, 0, 1, 2]),
    )


def with_unread(rng):
    files = rng.randint(4, 20)
    return samples.unread_job(
        rng,
        files,
        rng.randint(1, 24),
        part=rng.choice([0.1, 0.3, 0.6]),
        longest=rng.choice([2, 3, 5, 20]),
        top_size=rng.choice([1, 2, 9]),
    )


def with_wider(rng):
    return samples.wider_job(
        rng,
        rng.randint(4, 20),
        rng.randint(1, 24),
        k=rng.choice(samples.WIDER),
        top_size=rng.choice([1, 2, 9, 65535]),
    )


def star(rays, side):
    """One file in as many recipes as there are rays, each with a file of its own, and a
    pinned file in each vault. The first file is alone, or with all others."""
    return samples.job_of_recipes(
        [[0, 1 + ray] for ray in range(rays)],
        sizes=[1] * (1 + rays) + [rays + 4] * 2,
        sides=[side] + [B] * rays + [A, B],
        marks=[FREE] * (1 + rays) + [PINNED] * 2,
        num=(rays + 4 + (side == A)) or 1,
        den=3 * rays + 9,
        cap=0,
    )


def bundle(recipes, side, **fields):
    """Two files in so many recipes of their own, apart or together: the ends of the range."""
    job = samples.job_of_recipes(
        [[0, 1], [1, 0]] * (recipes // 2),
        sizes=[1] * 4,
        sides=[A, side, A, B],
        marks=[FREE, FREE, PINNED, PINNED],
        num=1,
        den=2,
        cap=0,
    )
    return job.changed(sizes=[1, 1, 4, 4], **fields)


def ends():
    """Gains of plus and minus p, up to the most recipes."""
    for recipes in (2, 16):
        for side in (A, B):
            yield from both(f"bundle of {recipes}, {'AB'[side]}", bundle(recipes, side))
    for side in (A, B):
        for edition in BOTH:
            yield call(
                f"bundle of 1024, {'AB'[side]}, edition {edition}",
                "s",
                edition,
                bundle(1024, side),
            )
        yield call(f"bundle of 1024, {'AB'[side]}, whole", "p", 2, bundle(1024, side))
    for rays, side in itertools.product((1, 7), (A, B)):
        yield from both(f"star of {rays}, {'AB'[side]}", star(rays, side))
    for side in (A, B):
        yield call(f"star of 1000, {'AB'[side]}", "s", 2, star(1000, side))


def largest_jobs():
    """1,024 files, 1,024 recipes, 4,096 pins, by name."""
    return {
        "large": large(4, cap=1),
        "large, long recipes": large(1024, cap=1),
        "rising": rising(),
        "falling": rising(k=1).changed(sizes=rising().sizes[::-1]),
        "heavy": large(4, sizes=[65535] * 1024, num=500, den=1000, cap=2),
        "last free": large(4, marks=LAST_FREE),
        "half unread": large(
            4, sides=[i // 2 % 2 for i in range(1024)], marks=[FREE, UNREAD] * 512, cap=1
        ),
    }


def largest():
    """These in full and in short; lists that are longer."""
    jobs = largest_jobs()
    for name, job in jobs.items():
        yield call(f"{name}, edition 2", "s", 2, job)
        yield call(f"{name}, edition 2, short scratch", "s", 2, job, scratch=-1)
    for name in ("large", "rising"):
        yield call(f"{name}, whole", "p", 2, jobs[name], **all_longer(2))
    yield from both("one recipe of 1024", one_recipe(1024), "s")
    yield from both("1024 files", wide(1024), "s")
    yield call("1025 files", "p", 2, wide(1025))
    yield call("row of 255, whole", "p", 2, row(255))


def run_after_run():
    """A run from the sides that a run has left, by the same edition and by the other."""
    rng = random.Random(SEED + 9)
    jobs = {**samples.fronts(), "mill": mill().changed(num=53, den=100)}
    for at in range(12):
        jobs[f"random {at}"] = opened(plain(rng)).changed(cap=0)
    for name, job in jobs.items():
        if planner.check(job) != (0, 0):
            continue
        kind = "s" if name == "mill" else "r"
        for first, then in itertools.product(BOTH, BOTH):
            after = job.changed(sides=planner.run(job, edition=first).last.sides)
            yield call(f"{name}, run by {first} and then by {then}", kind, then, after)


def again(found):
    """ "Each planned case of every edition is run again from its result", lent as much as
    the first run was."""
    for case in found:
        number, _, _, sides, _ = answer(case)
        if case.kind in "rs" and number == 0:
            job = case.job.changed(sides=sides)
            yield Call(f"{case.name}, again", "s", case.edition, job, case.lengths)


@functools.cache
def planned():
    """The stored jobs of make_cases.py that a run plans, by name."""
    found = {}
    for name, data in make_cases.cases().items():
        number, _, _, job = planner.read_job(data)
        if number == 0 and planner.check(job) == (0, 0):
            found[name] = job
    return found


def older():
    """ "Both editions on every older planned case." """
    for name, job in planned().items():
        yield from both(name, job, "s")


# ---- Groups of order 12


def worked_by_3():
    """Those that are worked out by hand, also turned about, those of edition 2, and those of
    document 01."""
    for name, job in {**samples.foresights(), **samples.fronts()}.items():
        yield by_3(f"{name} by 3, p", "p", job)
        yield by_3(f"{name} by 3, r", "r", job)
        yield by_3(f"{name} turned by 3", "p", samples.turned(job))
    for name, job in samples.foresights().items():
        yield from both(name, job, "r")
    yield by_3("chain by 3, p", "p", CHAIN)
    for cap in (0, 1, 2, 65535):
        yield by_3(f"chain by 3, cap {cap}", "r", CHAIN.changed(cap=cap))
    for name, job in (
        ("two files", samples.past_10(samples.two_files())),
        ("three files", samples.three_files()),
        ("eight", samples.eight()),
    ):
        for kind in "pr":
            yield by_3(f"{name} by 3, {kind}", kind, job)


def one_recipe_by_3():
    """One recipe with so many free and pinned files on each side: every pair of binding
    numbers, of which a level asks for some."""
    numbers = [(1, 0), (2, 0), (3, 0), (4, 0), (1, 1), (2, 1), (2, 2)]
    others = [(0, 0), *numbers, (0, 1)]
    for own, other in itertools.product(numbers, others):
        if own == (1, 0) and other == (0, 0):
            continue
        free, pinned = own[0] + other[0], own[1] + other[1]
        sides = [A] * own[0] + [B] * other[0] + [A] * own[1] + [B] * other[1]
        job = samples.all_free([range(free + pinned)], sides)
        job = job.changed(marks=[FREE] * free + [PINNED] * pinned)
        # Two files on no recipe, with which |A| is a half and more of W.
        room = [(20 + max(0, n), side, PINNED) for n, side in level_room(job)]
        roomy = samples.with_files(job, *room).changed(k=4)
        said = "{}+{} against {}+{}".format(*own, *other)
        yield by_3(f"one recipe, {said}", "p", roomy)


def level_room(job):
    """What each vault lacks to the other."""
    in_a = planner.size_of_a(job, job.sides)
    return (job.total - 2 * in_a, A), (2 * in_a - job.total, B)


def lent_lists_by_3():
    """Each list one short, exact, longer by one and by many, and empty; all longer at once;
    a scratch as long as for edition 2, and one less."""
    job = samples.fronts()["worked"]
    for kind in "pr":
        for name, step in itertools.product(LISTS, (-1, 0, 1, 16)):
            yield by_3(f"{name} {step:+} by 3, {kind}", kind, job, **{name: step})
        for name in LISTS:
            yield by_3(f"no {name} by 3, {kind}", kind, job, **{name: -9999})
        yield by_3(f"all longer by 3, {kind}", kind, job, **all_longer(1))
        for step in (4 * job.recipes - 1, 4 * job.recipes):
            yield by_3(f"scratch {step} longer by 3, {kind}", kind, job, scratch=step)
    named = {**samples.foresights(), "mill": mill().changed(num=53, den=100)}
    for at, (name, job) in enumerate(named.items()):
        kind = "s" if name == "mill" else "pr"[at % 2]
        yield by_3(f"longer for {name} by 3", kind, job, **all_longer(1 + at % 9))


def faults_by_3():
    """Each fault by edition 3 and by 4, behind whose 32 each number is hidden; pairs of
    faults; also where a list is too short."""
    for number, fields in FAULTY.items():
        job = CHAIN.changed(**fields)
        for kind in "pr":
            yield by_3(f"fault {number} by 3, {kind}", kind, job)
            yield call(f"fault {number}, edition 4, {kind}", kind, 4, job)
        yield by_3(f"fault {number} and short by 3", "r", job, scratch=-1)
    for low, high in itertools.combinations(FAULTS, 2):
        if not FAULTS[low].keys() & FAULTS[high].keys():
            job = CHAIN.changed(**FAULTS[high]).changed(**FAULTS[low])
            yield by_3(f"faults {low} and {high} by 3", "pr"[high % 2], job)
    # Those whose low byte, or whose last two bits, are 3.
    for edition in (5, 7, 259, 515, 771, 32771, 65283):
        for kind in "pr":
            yield call(f"edition {edition}, {kind}", kind, edition, CHAIN)


def marks_and_k_by_3():
    """At each k, with unread files, and with pinned ones."""
    for k in (1, 2, 3, 4):
        for name, job in {**samples.foresights(), **samples.fronts()}.items():
            wider = job.changed(k=k)
            if k != job.k and planner.check(wider) == (0, 0):
                yield by_3(f"{name} by 3, k is {k}", "pr"[k % 2], wider)
        yield by_3(f"held chain by 3, k is {k}", "p", samples.held_chain(k=k))
    for at, (name, job) in enumerate(samples.wider_jobs().items()):
        yield by_3(f"wider {name} by 3", "pr"[at % 2], job[1])
    for k in samples.WRONG_K:
        yield by_3(f"wrong k {k} by 3", "r", CHAIN.changed(k=k))
    for at, (name, (_, _, _, job)) in enumerate(samples.unread_jobs().items()):
        yield by_3(f"unread {name} by 3", "pr"[at % 2], opened(job))
    for name, job in samples.foresights().items():
        for file, mark in itertools.product(range(job.files), (PINNED, UNREAD)):
            marks = [mark if i == file else old for i, old in enumerate(job.marks)]
            changed = job.changed(marks=marks)
            if planner.check(changed) == (0, 0) and marks != list(job.marks):
                word = "pinned" if mark == PINNED else "unread"
                yield by_3(f"{name} with {file} {word} by 3", "pr"[file % 2], changed)


def tied(rng):
    """Files of few recipes and of few sizes, so that many moves tie."""
    return samples.random_job(
        rng,
        files=rng.randint(6, 20),
        recipes=rng.randint(4, 16),
        longest=rng.choice([3, 4, 6]),
        top_size=rng.choice([1, 1, 2]),
        pinned=rng.choice([0, 0.1, 0.2]),
        den=2,
    )


def random_by_3():
    for name, count, seed, made in (
        ("tied", 40, 4, tied),
        ("random", 40, 5, plain),
        ("unread random", 25, 6, with_unread),
        ("wider random", 25, 7, with_wider),
    ):
        for at, one in enumerate(random_jobs(name, count, seed, made)):
            yield by_3(f"{name} {at} by 3", "ppr"[at % 3], one.job)


def ends_by_3():
    """Gains of plus and minus p, up to the most recipes."""
    for side in (A, B):
        for recipes in (2, 16):
            for kind in "pr":
                said = f"bundle of {recipes}, {'AB'[side]}, by 3, {kind}"
                yield by_3(said, kind, bundle(recipes, side))
        yield by_3(f"bundle of 1024, {'AB'[side]}, by 3", "p", bundle(1024, side))
        for rays in (1, 7):
            yield by_3(f"star of {rays}, {'AB'[side]}, by 3", "p", star(rays, side))
        yield by_3(f"star of 1000, {'AB'[side]}, by 3", "s", star(1000, side))


def largest_by_3():
    """1,024 files, 1,024 recipes, 4,096 pins, in full and in short."""
    jobs = largest_jobs()
    for name, job in jobs.items():
        yield by_3(f"{name} by 3", "s", job)
        yield by_3(f"{name} by 3, short scratch", "s", job, scratch=-1)
    for name in ("large", "rising"):
        yield by_3(f"{name} by 3, whole", "p", jobs[name], **all_longer(2))
    yield by_3("one recipe of 1024 by 3", "s", one_recipe(1024))
    yield by_3("1024 files by 3", "s", wide(1024))
    yield by_3("1025 files by 3", "p", wide(1025))
    yield by_3("row of 255 by 3, whole", "p", row(255))


def run_after_run_by_3():
    """A run by 3 from the sides that a run by each has left, and by each from those of 3."""
    rng = random.Random(SEED + 12)
    jobs = {**samples.foresights(), "mill": mill().changed(num=53, den=100)}
    for at in range(12):
        jobs[f"random {at}"] = opened(tied(rng))
    for name, job in jobs.items():
        if planner.check(job) != (0, 0):
            continue
        kind = "s" if name == "mill" else "r"
        for first in (1, 2, 3):
            after = job.changed(sides=planner.run(job, edition=first).last.sides)
            yield by_3(f"{name}, run by {first} and then by 3", kind, after)
        for then in BOTH:
            yield call(f"{name}, run by 3 and then by {then}", kind, then, after)


def older_by_3():
    """ "All older planned cases by edition 3." """
    for name, job in planned().items():
        yield by_3(f"{name}, edition 3, s", "s", job)


def foresight():
    """The cases of order 12, which stand behind all others."""
    yield from worked_by_3()
    yield from one_recipe_by_3()
    yield from lent_lists_by_3()
    yield from faults_by_3()
    yield from marks_and_k_by_3()
    yield from random_by_3()
    yield from ends_by_3()
    yield from largest_by_3()
    yield from run_after_run_by_3()
    yield from older_by_3()


# ---- The cases


@functools.cache
def cases():
    found = [
        *worked(),
        *lent_lists(),
        *longer_lists(),
        *faults(),
        *two_faults(),
        *no_edition(),
        *at_each_k(),
        *unread(),
        *random_jobs("random", 60, 1, plain),
        *random_jobs("unread random", 30, 2, with_unread),
        *random_jobs("wider random", 30, 3, with_wider),
        *ends(),
        *largest(),
        *run_after_run(),
        *older(),
        *(foresight() if 3 in planner.EDITIONS else ()),
    ]
    found += list(again(found))
    names = [case.name for case in found]
    twice = {name for name in names if names.count(name) > 1}
    assert not twice, f"two cases have one name: {twice}"
    return found


# ---- What the program reads, and what it must write


def framed(case):
    job = case.job
    of_job = (job.sizes, job.sides, job.marks, job.bounds, job.pins)
    assert 0 < len(case.name.encode()) < 256
    assert max(map(len, of_job)) <= MOST_OF_JOB
    assert max(case.lengths[:5]) <= MOST_OF_FILES and max(case.lengths[5:7]) <= MOST_SCANS
    assert case.lengths[7] <= MOST_SCRATCH
    figures = (case.edition, job.num, job.den, job.cap, job.k, *case.lengths)
    calls = map(numbers, (figures, *of_job))
    return heading(case.name) + frame(case.kind.encode()) + b"".join(calls)


def line(told):
    return " ".join(map(str, told)) + "\n"


def list_line(entries):
    return line((len(entries), *entries))


def runs_line(entries):
    """Its length, and how many of which number follow one another."""
    told = [len(entries)]
    for entry, same in itertools.groupby(entries):
        told += [len(list(same)), entry]
    return line(told)


def lent_of(case):
    gains, *others = ([FILLED] * length for length in case.lengths)
    return planner.Lent(gains, others[:4], others[4:6], others[6])


@functools.cache
def answer(case):
    called = planner.pass_call if case.kind == "p" else planner.run_call
    return called(case.job, case.edition, lent_of(case))


def told(case):
    number, place, figures, sides, lent = answer(case)
    lines = [case.name + "\n", line((number, place, *figures)), list_line(sides)]
    lines.append(list_line(lent.gains))
    if case.kind == "s":
        lines.append(list_line(lent.moves[0]))
    else:
        lines += map(list_line, (*lent.moves, *lent.scans))
        lines.append(runs_line(lent.scratch))
    return "".join(lines)


def made():
    """The files of `pass_cases`, and those of `edition`: the worked pass, by 2."""
    worked_job = planner.write_job(samples.worked())
    return {
        "crates/pass_cases/stdin": b"".join(map(framed, cases())),
        "crates/pass_cases/stdout": "".join(map(told, cases())).encode(),
        "crates/edition/args": b"2\n",
        "crates/edition/stdin": worked_job,
        "crates/edition/stdout": planner.edition_program(["2"], worked_job).encode(),
    }


# ---- Whether the cases leave nothing out


def fronts_seen(job, sides, buckets, gains):
    """What stands at the fronts, and which of the rules decides between them."""
    size_a = planner.size_of_a(job, sides)
    fronts = [planner.front(buckets[vault]) for vault in (A, B)]
    legal, distances = [], []
    for file in fronts:
        after = 0 if file is None else planner.size_after(job, sides, size_a, file)
        legal.append(file is not None and planner.balanced(job, after))
        distances.append(abs(job.den * after - job.num * job.total))
    rejected = [f is not None and not ok for f, ok in zip(fronts, legal)]
    for vault in (A, B):
        if rejected[vault]:
            moves = "and the other moves" if legal[1 - vault] else "stop"
            yield ("rejected", vault, moves)
    if all(legal):
        greater = gains[fronts[A]] - gains[fronts[B]]
        nearer = distances[B] - distances[A]
        if greater:
            yield ("greater gain", A if greater > 0 else B)
            yield ("greater gain", "nearer" if greater * nearer > 0 else "not nearer")
        elif nearer:
            yield ("better balance", A if nearer > 0 else B)
        else:
            yield ("from A",)
    elif any(legal) and not any(rejected):
        yield ("one vault alone", legal.index(True))


def left_at_the_stop(job, sides, locked):
    size_a = planner.size_of_a(job, sides)
    free = [file for file in range(job.files) if not locked[file]]
    sizes = [planner.size_after(job, sides, size_a, file) for file in free]
    if any(planner.balanced(job, size) for size in sizes):
        return ("stopped", "a legal move was left")
    return ("stopped", "no legal move was left" if free else "no file was free")


def pass_seen(job):
    """All that a pass by edition 2 shows."""
    sides = list(job.sides)
    locked = [mark != FREE for mark in job.marks]
    buckets = planner.full_buckets(job, sides, locked)
    while True:
        gains = planner.all_gains(job, sides)
        yield from fronts_seen(job, sides, buckets, gains)
        file = planner.choose_front(job, sides, buckets, gains)
        if file is None:
            yield left_at_the_stop(job, sides, locked)
            return
        if planner.choose(job, sides, locked, gains) != file:
            yield ("another move than by edition 1",)
        if gains[file] and abs(gains[file]) == len(job.file_recipes[file]):
            yield ("an end of the range", gains[file] > 0)
        locked[file] = True
        planner.leave(buckets, sides, file)
        scans = planner.scans_of_move(job, sides, locked, file)
        changes = []
        for recipe, kind in scans:
            changed, step = planner.changed_by(job, sides, locked, file, recipe, kind)
            changes += [(other, step) for other in changed]
            yield ("scan", kind, "changes" if changed else "changes none")
        for other, step in set(changes):
            times = changes.count((other, step))
            yield ("changed", step, min(times, 3))
        planner.follow_scans(job, sides, locked, buckets, file, scans)
        sides[file] = 1 - sides[file]


WANTED = {
    *(("rejected", vault, "and the other moves") for vault in (A, B)),
    *(("rejected", vault, "stop") for vault in (A, B)),
    *(("greater gain", vault) for vault in (A, B)),
    *(("greater gain", how) for how in ("nearer", "not nearer")),
    *(("better balance", vault) for vault in (A, B)),
    ("from A",),
    *(("one vault alone", vault) for vault in (A, B)),
    ("stopped", "a legal move was left"),
    ("stopped", "no legal move was left"),
    ("stopped", "no file was free"),
    ("another move than by edition 1",),
    *(("an end of the range", above) for above in (False, True)),
    *(("scan", kind, "changes") for kind in (1, 2, 3, 4)),
    *(("scan", kind, "changes none") for kind in (1, 3)),
    *(("changed", step, times) for step in (-1, 1) for times in (1, 2, 3)),
}


def see_passes():
    """Each rule of order 9 decides somewhere, in a pass that is shown in full."""
    seen = set()
    for case in cases():
        if case.kind == "p" and case.edition == 2 and answer(case)[0] == 0:
            seen |= set(pass_seen(case.job)) if case.job.files <= 60 else set()
    assert seen == WANTED, seen ^ WANTED


# ---- The same of order 12

PLACES = ("level 1", "level 2", "level 3", "distance", "number")
# The classes of a binding number that the three levels tell apart.
OWN_CLASSES, OTHER_CLASSES = (1, 2, 3), (0, 1, 2)


def ranks_of(job, sides, locked, vectors, legal=True):
    """The free files whose move is legal, or is not, with their ranks, the best first."""
    size_a = planner.size_of_a(job, sides)
    ranks = []
    for file in range(job.files):
        after = planner.size_after(job, sides, size_a, file)
        if not locked[file] and planner.balanced(job, after) == legal:
            off = abs(job.den * after - job.num * job.total)
            ranks.append((*(-one for one in vectors[file]), off, file))
    return sorted(ranks)


def choice_seen(ranks, others):
    """Which rule decides between the best and the next, and what was not legal."""
    best = ranks[0]
    if others and others[0][:3] < best[:3]:
        yield ("a greater vector is not legal",)
    if len(ranks) == 1:
        yield ("one legal move alone",)
        return
    place = next(at for at in range(5) if best[at] != ranks[1][at])
    yield ("decided at", PLACES[place])
    if PLACES[place] in ("level 2", "level 3"):
        # A level here is minus what it is in the vector.
        yield (PLACES[place], "gained by the best" if best[place] < 0 else "lost by the next")


def locks_seen(job, sides, locked, recipe):
    """On which sides of a recipe there are locked files, and of what kind."""
    for side in (A, B):
        there = [i for i in job.readable_recipes[recipe] if sides[i] == side and locked[i]]
        marks = {job.marks[i] for i in there}
        if marks:
            yield "both" if len(marks) == 2 else "pinned" if PINNED in marks else "moved"
        else:
            yield "none"


def recipes_seen(job, sides, locked, numbers):
    """The pairs of binding numbers of the recipes of free files, as the levels tell them
    apart, and the locks behind them."""
    for file in range(job.files):
        if locked[file]:
            continue
        if not job.file_recipes[file]:
            yield ("a free file on no recipe",)
        for j in job.file_recipes[file]:
            own, other = (numbers[j][side] for side in (sides[file], 1 - sides[file]))
            own = own if own in OWN_CLASSES else "many"
            yield ("numbers", own, other if other in OTHER_CLASSES else "many")
            kinds = list(locks_seen(job, sides, locked, j))
            own_lock, other_lock = kinds[sides[file]], kinds[1 - sides[file]]
            yield ("locks", own_lock, other_lock)


def vectors_seen(job):
    """All that a pass by edition 3 shows."""
    sides = list(job.sides)
    locked = [mark != FREE for mark in job.marks]
    while True:
        found = planner.full_foresight(job, sides, locked)
        yield from recipes_seen(job, sides, locked, found.numbers)
        ranks = ranks_of(job, sides, locked, found.vectors)
        others = ranks_of(job, sides, locked, found.vectors, legal=False)
        if not ranks:
            yield ("stopped", "no legal move was left" if others else "no file was free")
            return
        yield from choice_seen(ranks, others)
        file = ranks[0][-1]
        if planner.choose(job, sides, locked, planner.all_gains(job, sides)) != file:
            yield ("another move than by edition 1",)
        if found.vectors[file][0] < 0:
            yield ("a gain below 0",)
        locked[file] = True
        sides[file] = 1 - sides[file]


LOCKS = ("none", "pinned", "moved", "both")
WANTED_BY_3 = {
    *(("decided at", place) for place in PLACES),
    *(("level 2", how) for how in ("gained by the best", "lost by the next")),
    *(("level 3", how) for how in ("gained by the best", "lost by the next")),
    ("one legal move alone",),
    ("a greater vector is not legal",),
    ("a free file on no recipe",),
    ("another move than by edition 1",),
    ("a gain below 0",),
    ("stopped", "no legal move was left"),
    ("stopped", "no file was free"),
    *(
        ("numbers", own, other)
        for own in (*OWN_CLASSES, "many")
        for other in (*OTHER_CLASSES, "many")
        # A recipe of one file is refused.
        if (own, other) != (1, 0)
    ),
    *(("locks", own, other) for own in LOCKS for other in LOCKS),
}


def see_vectors():
    """Each rule of order 12 decides somewhere, in a pass that is shown in full."""
    seen = set()
    for case in cases():
        if case.kind == "p" and case.edition == 3 and answer(case)[0] == 0:
            seen |= set(vectors_seen(case.job)) if case.job.files <= 60 else set()
    assert seen == WANTED_BY_3, seen ^ WANTED_BY_3


def see_zeros():
    """By edition 3 no scan is counted or listed, and what was lent beyond stays."""
    for case in cases():
        number, _, figures, _, lent = answer(case)
        if case.edition != 3 or number:
            continue
        files, recipes = case.job.files, case.job.recipes
        assert figures[5:7] == (0, 0), case.name
        for listed, named in zip((lent.moves[3], *lent.scans), (files, *[4 * recipes] * 2)):
            assert listed == [0] * named + [FILLED] * (len(listed) - named), case.name


def see_lengths():
    """Of each edition, pass and run, each list is one short, exact and longer; the gain
    list is refused unless it is exact, and no other list for being longer."""
    for edition, kind in itertools.product(planner.EDITIONS, "pr"):
        seen = set()
        for case in cases():
            if (case.edition, case.kind) != (edition, kind):
                continue
            if planner.check(case.job) != (0, 0):
                continue
            steps = [a - b for a, b in zip(case.lengths, lengths(case.job, edition))]
            number = answer(case)[0]
            wrong = steps[0] != 0 or min(steps) < 0
            assert number == (3 if wrong else 0), case.name
            if sum(map(bool, steps)) <= 1:
                seen |= set(zip(LISTS, steps))
        for name, step in itertools.product(LISTS, (-1, 0, 1, 16)):
            assert (name, step) in seen, (edition, kind, name, step)


def see_refusals():
    """32 stands before every other number, and each other number is met by each edition."""
    hidden, met = {}, set()
    for case in cases():
        number, place, figures, sides, lent = answer(case)
        if number:
            assert not any(figures) and tuple(sides) == case.job.sides, case.name
            assert lent == lent_of(case), case.name
        if case.edition in planner.EDITIONS:
            met.add((case.edition, number))
            assert number != planner.NO_EDITION, case.name
        else:
            assert (number, place) == (planner.NO_EDITION, 0), case.name
            fits = lent_of(case).fits(case.job, 2)
            hidden.setdefault(case.edition, set()).add(planner.check(case.job, fits)[0])
    numbers_for_no = set(range(11))
    for edition in planner.EDITIONS:
        assert {number for by, number in met if by == edition} == numbers_for_no, edition
    for edition in other_editions():
        assert hidden[edition] >= numbers_for_no, (edition, hidden[edition])


def see_marks():
    """By each edition after the first: pinned and unread files, recipes with fewer than two
    readable ones, and each k."""
    for edition in planner.EDITIONS[1:]:
        see_marks_by(edition)


def see_marks_by(edition):
    seen = set()
    for case in cases():
        if case.edition != edition or answer(case)[0]:
            continue
        job = case.job
        seen |= {("mark", mark) for mark in job.marks} | {("k", job.k)}
        seen |= {("readable", min(len(files), 2)) for files in job.readable_recipes}
    wanted = {("mark", mark) for mark in (FREE, PINNED, UNREAD)}
    wanted |= {("k", k) for k in (1, 2, 3, 4)} | {("readable", 0), ("readable", 2)}
    assert seen == wanted, seen ^ wanted


def see_older():
    """ "Both editions on every older planned case", and edition 3."""
    called = {(case.name, case.edition): case for case in cases()}
    for name in planned():
        for edition in planner.EDITIONS:
            assert answer(called[f"{name}, edition {edition}, s", edition])[0] == 0, name


def see_again():
    """Each planned run is run again. Where it settled, the second run makes one pass, keeps
    no move, and leaves the sides and the cut; and the passes of the first were at most the
    starting cut plus one."""
    called = {case.name: case for case in cases()}
    unsettled = 0
    for case in cases():
        if case.kind == "p" or case.name.endswith(", again") or answer(case)[0]:
            continue
        _, _, first, sides, _ = answer(case)
        number, _, second, left, _ = answer(called[f"{case.name}, again"])
        assert number == 0, case.name
        (before, after, *_, passes, settled), kept = first, second[4]
        if not settled:
            unsettled += 1
            continue
        assert passes <= before + 1, case.name
        assert second[:2] == (after, after) and second[-2:] == (1, 1), case.name
        assert kept == 0 and left == sides, case.name
    assert unsettled > 10, unsettled


def check():
    wrong = keep(made(), [])
    for see in (see_passes, see_lengths, see_refusals, see_marks, see_older, see_again):
        see()
    if 3 in planner.EDITIONS:
        see_vectors()
        see_zeros()
    done = [case for case in cases() if answer(case)[0] == 0]
    print(f"{len(cases())} cases, {len(done)} of them planned, leave nothing out")
    return wrong


def listed():
    for case in cases():
        print(f"{case.name}: {case.kind}, edition {case.edition}, {answer(case)[0]}")
    return 0


# ---- The programs over stored jobs


def written(told):
    """A program that writes to standard output alone."""
    return lambda words, data: (told(words, data).encode(), b"")


def rewritten(words, data):
    stored, said = planner.resettle_program(words, data)
    return stored, said.encode()


PROGRAMS = {
    "edition": written(planner.edition_program),
    "trace": written(planner.trace_program),
    "resettle": rewritten,
}
OTHER_TEXTS = ("", "0", "3", "4", "01", "+1", " 2", "2 ", "12", "65537", "two")
OTHER_WORDS = ([], ["1", "2"], *([text] for text in OTHER_TEXTS))


def stored_jobs():
    """Those that are planned and, for the refusals, some that are not."""
    for name, job in planned().items():
        yield name, planner.write_job(job)
    for number, fields in FAULTS.items():
        if number not in (1, 2, 3):
            yield f"fault {number}", planner.write_job(CHAIN.changed(**fields))
    yield "no bytes", b""


def compare(name, program):
    """Runs the program on each job by each edition; how many outputs differ, each named."""
    by_each = itertools.product(stored_jobs(), planner.EDITIONS)
    calls = [(job, [str(edition)], data) for (job, data), edition in by_each]
    chain = planner.write_job(CHAIN)
    calls += [("the chain", words, data) for words in OTHER_WORDS for data in (chain, b"")]
    wrong = 0
    for job, words, data in calls:
        done = subprocess.run([program, *words], input=data, capture_output=True)
        if (done.stdout, done.stderr) != PROGRAMS[name](words, data):
            wrong += 1
            print(f"{job} with {words}: differs")
    print(f"{len(calls)} compared, {wrong} differ")
    return min(wrong, 1)


def main(words):
    """What the script exits with."""
    if words[:1] == ["--with-3"]:
        planner.EDITIONS = (1, 2, 3)
        words = words[1:]
    if words == ["--list"]:
        return listed()
    if words == ["--check"]:
        return check()
    if words[:1] == ["--compare"]:
        return compare(*words[1:])
    return keep(made(), words)


if __name__ == "__main__":
    sys.exit(main(sys.argv[1:]))
