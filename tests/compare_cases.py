"""Calls of the comparing: what the program `compare_cases` reads, and what it must write of it.

    python3 tests/compare_cases.py            whether the files are as made here
    python3 tests/compare_cases.py --write    writes them
    python3 tests/compare_cases.py --list     each case on a line: its name, the lengths of the
                                              two stored jobs and of the list, and the answer
    python3 tests/compare_cases.py --check    whether the cases and their answers agree with
                                              one another, and leave nothing out
    python3 tests/compare_cases.py --compare PROGRAM
                     run the program on the two files of every case, and compare what it
                     prints and its status

A case is a heading with its name, and then the frames of a call: the letter `c`, the first
stored job, the second, and a number, which is the length of the lent list of records. Before
the call each of the four numbers of each record of that list is 165, which no record has for
what differs. Of a case these lines are printed:

    the name
    `refused`, job, number, place, count, and `kept` if each record of the list is as before
    the call, else `changed`

or

    the name
    `done` and the count
    each record's four numbers, so many lines as the count says
    `kept` if each record beyond these is as before the call, else `changed`

The answers are the reference's, planner.compare. So is what `compare` must write of the chain
and its night.
"""

import itertools
import pathlib
import random
import subprocess
import sys
import tempfile
from typing import NamedTuple

from make_cases import SEED, large, one_recipe, row, wide
from program_files import frame, heading, keep, numbers

import faults
import planner
import samples
from mill import mill
from planner import A, B, PINNED, UNREAD, write_job

# What each record of a lent list is before the call.
FILLED = (165, 165, 165, 165)
# The most records of a lent list, and the most bytes of a stored job in a frame.
MOST_LENT = planner.MOST_DIFFERENCES + 9
MOST_BYTES = 20000

CHAIN = samples.chain()
OTHER = samples.all_kinds()[1]
# Last night's chain and tonight's, in all that can differ: 15 records.
NIGHTS = write_job(CHAIN), write_job(OTHER)


class Call(NamedTuple):
    name: str
    old: bytes
    new: bytes
    length: int


# ---- Ways to make cases


def needed(old, new):
    """How many records two stored jobs need, or 0 where one is refused."""
    *_, count, _ = planner.compare(old, new, [])
    return count


def of_lengths(name, old, new, *lengths):
    """Two stored jobs with lists of these lengths."""
    for length in lengths:
        yield Call(f"{name}, list of {length}", old, new, length)


def off(name, old, new, *steps):
    """The same with lists that are so much longer than they must be."""
    for step in steps:
        length = needed(old, new) + step
        if length >= 0:
            yield Call(f"{name}, list {step:+}", old, new, length)


def jobs_off(name, old, new, *steps):
    return off(name, write_job(old), write_job(new), *steps)


# ---- The cases


def by_hand():
    """Those of samples.py: just enough room, too little, and the other way round."""
    for name, (old, new, _) in samples.compared_jobs().items():
        yield from jobs_off(name, old, new, -1, 0)
        yield from jobs_off(f"{name} turned", new, old, 2)


def lists():
    """Every length up to what is needed, and beyond it."""
    yield from of_lengths("all kinds", *NIGHTS, *range(18), 255, 256, 4103, MOST_LENT)
    chain, _ = NIGHTS
    yield from of_lengths("the chain with itself", chain, chain, 0, 1, 5, 4103)


def with_itself():
    for name, job in (
        ("unread", samples.partial_chain()),
        ("archive", samples.archive()),
        ("mill", mill()),
        ("k is 4", CHAIN.changed(k=4)),
        ("no run takes it", CHAIN.changed(num=0, den=0, marks=[PINNED] * 4)),
    ):
        yield from jobs_off(f"{name} with itself", job, job, 0, 2)


def all_k():
    """Six values against seven, and seven against seven."""
    for old, new in itertools.product(range(1, 5), repeat=2):
        jobs = samples.at_each((old, new), CHAIN)
        yield from jobs_off(f"k {old} and k {new}", *jobs, 0)


def ends_of_numbers():
    """Figures that differ in the low byte alone, in the high one, and by all."""
    for low, high in ((255, 256), (1, 257), (256, 512), (65279, 65535), (1, 65535)):
        for field in ("num", "den", "cap"):
            jobs = (CHAIN.changed(**{field: figure}) for figure in (low, high))
            yield from jobs_off(f"{field} {low} and {high}", *jobs, 0)
        jobs = (CHAIN.changed(sizes=[1, 1, 1, size]) for size in (low, high))
        yield from jobs_off(f"size {low} and {high}", *jobs, 0)


def sides_and_marks():
    """Each second value of a file against each other."""
    for old, new in itertools.combinations(range(6), 2):
        jobs = (
            CHAIN.changed(sides=[value % 2, 1, 0, 1], marks=[value // 2, 0, 0, 0])
            for value in (old, new)
        )
        yield from jobs_off(f"second {old} and {new}", *jobs, 0)


def stored_faults():
    """Each refusal of the reader, by name, in the order of its checks."""
    chain = write_job(CHAIN)
    found = {f"{length} bytes": chain[:length] for length in (0, 1, 511, 512, 2047)}
    found["2049 bytes"] = chain + b"\0"
    found["20000 bytes"] = chain.ljust(MOST_BYTES, b"\0")
    found["zeros"] = bytes(512)
    for fault in faults.IN_ORDER:
        (number, place), _ = fault
        if number not in (7, 8, 9):
            found[f"{number} at {place}"] = faults.stored_chain([fault])
    found["seventh is 5"] = faults.stored_chain([faults.WRONG_SEVENTH], k=2)
    return found


def refused():
    """Each by itself in either job, with a list of none and with one that would serve."""
    old, new = NIGHTS
    for name, bad in stored_faults().items():
        yield from of_lengths(f"job 1 has {name}", bad, new, 0, 15)
        yield from of_lengths(f"job 2 has {name}", old, bad, 0, 15)


def both_refused():
    """Each with itself, and with the next, both ways: job 1's refusal is told."""
    found = list(stored_faults().items())
    for (name, bad), (other, worse) in zip(found, found[1:] + found[:1]):
        yield from of_lengths(f"both have {name}", bad, bad, 3)
        yield from of_lengths(f"job 1 has {name}, job 2 {other}", bad, worse, 3)
        yield from of_lengths(f"job 1 has {other}, job 2 {name}", worse, bad, 0)


def read_up_to_6():
    """What only a run refuses is compared."""
    for fault in (*faults.IN_ORDER[-3:], faults.EMPTY_VAULT):
        (number, _), _ = fault
        data = faults.stored_chain([fault])
        yield from off(f"{number} in job 2", write_job(CHAIN), data, -1, 0, 1)
        yield from off(f"{number} in job 1", data, write_job(CHAIN), 0)


def blocks_of_a_kind():
    """Changes at the ends of blocks, and jobs with one block more."""
    for file in (0, 125, 126, 251, 252):
        sizes = samples.put([1] * 253, file, 300)
        other = wide(253, sizes=sizes)
        yield from jobs_off(f"size of file {file}", wide(253), other, 0)
    for files in (125, 126, 252):
        jobs = wide(files), wide(files + 1)
        yield from jobs_off(f"files {files} and one more", *jobs, -1, 0)
    for recipe in (0, 251, 252, 253):
        recipes = [[i, i + 1] for i in range(254)]
        recipes[recipe].reverse()
        other = samples.with_recipes(row(255), *recipes)
        yield from jobs_off(f"order of recipe {recipe}", row(255), other, 0)
    for files in (252, 253):
        jobs = row(files), row(files + 1)
        yield from jobs_off(f"a row of {files} and one more", *jobs, 0)
    for pin in (0, 252, 253, 505, 506):
        one = one_recipe(507).changed(sizes=[1] * 508, sides=[A] * 508, marks=[0] * 508)
        other = one.changed(pins=samples.put(one.pins, pin, 507))
        yield from jobs_off(f"pin at {pin}", one, other, 0)
    for pins in (252, 253, 506):
        jobs = one_recipe(pins), one_recipe(pins + 1)
        yield from jobs_off(f"one recipe of {pins} and one more", *jobs, 0)
    # The first pin of a recipe in place of the last of the one before it.
    long = samples.with_recipes(wide(508), range(254), range(254, 508))
    longer = samples.with_recipes(wide(508), range(253), range(253, 508))
    yield from jobs_off("a bound at 254 and at 253", long, longer, -1, 0)


def nights():
    """Last night's job and what `resettle` or `balance` made of it."""
    for name, job in (
        ("chain", CHAIN),
        ("partial chain", samples.partial_chain()),
        # Before order 8, which refuses it as 10; and one of the same k that is planned.
        ("chain at 2", CHAIN.changed(k=2)),
        ("held chain at 2", samples.held_chain(k=2)),
        ("mill at 53", mill().changed(num=53, den=100)),
    ):
        after = job.changed(sides=planner.all_passes(job)[-1].sides)
        yield from jobs_off(f"{name} and its night", job, after, -1, 0)
    old = write_job(mill())
    new, _ = planner.balance_stored(old)
    yield from off("mill and its start", old, new, 0)
    at_53 = mill().changed(num=53, den=100)
    yield from jobs_off("mill and mill at 53", mill(), at_53, 0)


def randoms():
    """Random jobs with one change, with many, and beside others; lists of any length."""
    rng = random.Random(SEED + 7)
    last = CHAIN
    for k in range(40):
        part, at = rng.choice([0, 0.2, 0.5]), rng.randint(1, 4)
        files, recipes = rng.randint(2, 30), rng.randint(1, 30)
        job = samples.random_job(rng, files, recipes, pinned=rng.choice([0, 0.3]))
        unread = [file for file in range(files) if rng.random() < part]
        job = samples.with_unread(job.changed(k=at), *unread)
        once = samples.changed_once(rng, job)
        often = samples.changed_often(rng, job, rng.randint(2, 30))
        yield from jobs_off(f"random {k}, one change", job, once, 0)
        yield from jobs_off(f"random {k}, many changes", often, job, rng.randint(-3, 3))
        step = rng.choice([-1, 0, 1])
        yield from jobs_off(f"random {k} and the one before", last, job, step)
        last = job


def largest():
    """The most records, and single changes at the ends of the largest job."""
    old, new = map(write_job, samples.most_different())
    yield from off("all of the largest", old, new, -4103, -4102, -1, 0, 1, 9)
    yield from off("all of the largest turned", new, old, 0)
    small = write_job(samples.two_files().changed(sides=[A, A]))
    yield from off("the largest and two files", old, small, -1, 0)
    yield from off("two files and the largest", small, old, 0)
    yield from off("the largest with itself", old, old, 0, 1)
    job = large(4)
    for name, fields in (
        ("size", {"sizes": [1] * 1023 + [65535]}),
        ("side", {"sides": samples.put(job.sides, 1023, A)}),
        ("mark", {"marks": [0] * 1023 + [UNREAD]}),
        ("pins", {"pins": (*job.pins[:4094], 1023, 1022)}),
        ("k", {"k": 4}),
    ):
        other = job.changed(**fields)
        yield from jobs_off(f"last {name} of the largest", job, other, 0)
    # Each side of it, and each recipe of it the other way round.
    yield from jobs_off("all sides", job, job.changed(sides=[B, A] * 512), -1, 0)
    turned = [files[::-1] for files in job.whole_recipes]
    yield from jobs_off("all recipes", job, samples.with_recipes(job, *turned), -1, 0)
    # The last block of job 1 is damaged, and of job 2.
    damaged = old[:-1] + bytes([old[-1] ^ 1])
    yield from of_lengths("last block of job 1", damaged, new, 4103)
    yield from of_lengths("last block of job 2", new, damaged, 4103)


GROUPS = (
    by_hand,
    lists,
    with_itself,
    all_k,
    ends_of_numbers,
    sides_and_marks,
    refused,
    both_refused,
    read_up_to_6,
    blocks_of_a_kind,
    nights,
    randoms,
    largest,
)

CASES = tuple(itertools.chain.from_iterable(group() for group in GROUPS))


# ---- What the program reads, and what it must write


def framed(case):
    assert len(case.name.encode()) < 256 and case.length <= MOST_LENT
    assert max(len(case.old), len(case.new)) <= MOST_BYTES
    jobs = frame(case.old) + frame(case.new)
    return heading(case.name) + frame(b"c") + jobs + numbers((case.length,))


def kept(before, after):
    return "kept" if before == after else "changed"


def answer(case):
    return planner.compare(case.old, case.new, [FILLED] * case.length)


def first_line(case):
    """How a case ends, without its records."""
    room = [FILLED] * case.length
    job, number, place, count, after = answer(case)
    if number:
        return f"refused {job} {number} {place} {count} {kept(room, after)}"
    return f"done {count}"


def lines_of(case):
    _, number, _, count, after = answer(case)
    if number:
        return [case.name, first_line(case)]
    beyond = after[count:]
    records = [" ".join(map(str, record)) for record in after[:count]]
    stayed = kept([FILLED] * len(beyond), beyond)
    return [case.name, first_line(case), *records, stayed]


def told(case):
    return "".join(line + "\n" for line in lines_of(case))


def made():
    chain, _ = NIGHTS
    resettled, _ = planner.resettle(chain)
    return {
        "crates/compare_cases/stdin": b"".join(map(framed, CASES)),
        "crates/compare_cases/stdout": "".join(map(told, CASES)).encode(),
        "crates/compare/args": b"chain.job\nresettled.job\n",
        "crates/compare/data/chain.job": chain,
        "crates/compare/data/resettled.job": resettled,
        "crates/compare/stdout": planner.compare_program(chain, resettled),
    }


# ---- Whether the cases agree with one another


def unframed(data):
    """The frames in these bytes."""
    frames = []
    while data:
        end = 2 + int.from_bytes(data[:2], "little")
        frames.append(data[2:end])
        data = data[end:]
    return frames


def see_frames():
    """The frames hold each case whole."""
    frames = unframed(b"".join(map(framed, CASES)))
    assert len(frames) == 6 * len(CASES), "another number of frames"
    for at, case in enumerate(CASES):
        heads, rest = frames[6 * at : 6 * at + 3], frames[6 * at + 3 : 6 * at + 6]
        assert heads == [b"h", case.name.encode(), b"c"], case.name
        length = case.length.to_bytes(2, "little")
        assert rest == [case.old, case.new, length], case.name


def see_case(case):
    """An answer against the same two jobs turned round, the program, and the bytes."""
    job, number, place, count, after = answer(case)
    printed = planner.compare_program(case.old, case.new).decode().splitlines()
    if job:
        assert printed == [f"refused {job} {number} {place}"] and count == 0, "program"
        return
    assert count == len(printed) <= planner.MOST_DIFFERENCES, "count"
    assert (count == 0) == (case.old == case.new), "equal bytes"
    assert (number == 30) == (case.length < count), "too short"
    turned = planner.compare(case.new, case.old, [FILLED] * case.length)
    assert turned[:4] == (job, number, place, count), "turned round"
    if number == 0:
        records = [(what, n, b, a) for what, n, a, b in turned[4][:count]]
        assert after[:count] == records, "turned round"
        assert lines_of(case)[2:-1] == printed, "program"
        assert lines_of(case)[-1] == "kept", "beyond"


def see_nothing_left_out():
    """Each kind of difference, each refusal of either job, each sort of list."""
    answers = [(case, answer(case)) for case in CASES]
    records = [
        record
        for _, (_, number, _, count, after) in answers
        if number == 0
        for record in after[:count]
    ]
    assert {what for what, *_ in records} == set(range(1, 12)), "kinds"
    given = {(job, number) for _, (job, number, *_) in answers}
    numbers_given = {1, 2, 4, 5, 6, 20, 21, 22}
    expected = {(0, 0), (0, 30), *itertools.product((1, 2), numbers_given)}
    assert given == expected, "refusals"
    assert max(count for _, (*_, count, _) in answers) == 4103, "the most records"
    off_by = {case.length - told[3] for case, told in answers if told[0] == 0}
    assert {-1, 0, 1} <= off_by, "lists"
    assert any(case.length == 0 and told[3] for case, told in answers), "no room"


def check():
    names = [case.name for case in CASES]
    assert len(set(names)) == len(names), "two cases have one name"
    see_frames()
    for case in CASES:
        try:
            see_case(case)
        except AssertionError as error:
            raise AssertionError(f"{case.name}: {error}") from error
    see_nothing_left_out()
    print(f"{len(CASES)} cases agree")
    return 0


def listed():
    for case in CASES:
        jobs = f"{len(case.old)} and {len(case.new)} bytes"
        print(f"{case.name}: {jobs}, list of {case.length}: {first_line(case)}")
    return 0


# ---- The program over two files


def status(printed):
    """0 no difference, 1 differences, 2 refused."""
    if not printed:
        return 0
    return 2 if printed.startswith(b"refused ") else 1


def agrees(program, *files):
    done = subprocess.run([program, *files], capture_output=True)
    expected = planner.compare_files(files)
    return (done.stdout, done.returncode) == (expected, status(expected))


def compare(program):
    """Runs the program on each two files once; how many outputs differ, each named."""
    pairs = {(case.old, case.new): case.name for case in CASES}
    wrong = []
    with tempfile.TemporaryDirectory() as folder:
        old, new, gone = (pathlib.Path(folder, name) for name in ("old", "new", "gone"))
        for (old_bytes, new_bytes), name in pairs.items():
            old.write_bytes(old_bytes)
            new.write_bytes(new_bytes)
            if not agrees(program, old, new):
                wrong.append(name)
        old.write_bytes(write_job(CHAIN))
        for files in ((gone, old), (old, gone), (gone, gone), (old, old)):
            if not agrees(program, *files):
                wrong.append(" and ".join(file.name for file in files))
    for name in wrong:
        print(f"{name}: differs")
    print(f"{len(pairs) + 4} compared, {len(wrong)} differ")
    return min(len(wrong), 1)


def main(words):
    """What the script exits with."""
    if words == ["--list"]:
        return listed()
    if words == ["--check"]:
        return check()
    if words[:1] == ["--compare"]:
        return compare(*words[1:])
    return keep(made(), words)


if __name__ == "__main__":
    sys.exit(main(sys.argv[1:]))
