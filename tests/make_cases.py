"""Stored jobs for the programs, each with the report that the reference makes of it.

    python3 tests/make_cases.py                  the names, one to a line
    python3 tests/make_cases.py NAME             one name, its bytes and its report
    python3 tests/make_cases.py --write DIR      DIR/NAME.job and DIR/NAME.report of all
    python3 tests/make_cases.py --examples DIR   the same of the examples alone
    python3 tests/make_cases.py --program DIR    DIR/stdin and DIR/stdout of the program `cases`
    python3 tests/make_cases.py --check DIR      whether these are as made here, and whether the
                     reports and the jobs show what order 8 asks of them
    python3 tests/make_cases.py --compare PROGRAM
                     run the program on every job and compare what it prints
    python3 tests/make_cases.py --compare-traces PROGRAM
                     the same of a program that prints traces
    python3 tests/make_cases.py --compare-resettled PROGRAM
                     the same of a program that writes stored jobs with new sides;
                     what it says on standard error is compared too
    python3 tests/make_cases.py --compare-balanced PROGRAM
                     the same of one that writes stored jobs with balanced sides

The jobs are the same at every run: all that is random goes by a fixed seed.
"""

import functools
import itertools
import pathlib
import random
import subprocess
import sys

sys.path.insert(0, str(pathlib.Path(__file__).parent / "reference"))

import faults
import planner
import samples
from mill import mill
from planner import A, B, FREE, PINNED, UNREAD, make_block, write_job, write_values
from program_files import frame

SEED = 1982


# ---- Small jobs that more than one group uses


def wide(files, **fields):
    """So many files of size 1, A and B in turn, in one recipe of two."""
    job = planner.Job(
        sizes=[1] * files,
        sides=[i % 2 for i in range(files)],
        marks=[FREE] * files,
        bounds=[0, 2],
        pins=[0, 1],
        num=1,
        den=2,
        cap=0,
    )
    return job.changed(**fields)


def one_recipe(pins):
    """So many files, all in one recipe."""
    return wide(pins, bounds=[0, pins], pins=range(pins))


def row(files):
    """So many files in a row, each in one recipe with the next."""
    return samples.in_a_row([], samples.in_turn(1, files))


def large(length, **fields):
    """1,024 files in recipes of this length that go round them four times."""
    job = planner.Job(
        sizes=[1] * 1024,
        sides=[i % 2 for i in range(1024)],
        marks=[FREE] * 1024,
        bounds=range(0, 4097, length),
        pins=[k % 1024 for k in range(4096)],
        num=1,
        den=2,
        cap=0,
    )
    return job.changed(**fields)


def rising(**fields):
    """The largest job with sizes that differ by as much as they can, under one pass."""
    sizes = [1 + 64 * i for i in range(1024)]
    return large(4, sizes=sizes, num=499, den=1000, cap=1, **fields)


# ---- Groups: each yields a name and the bytes of a stored job


def own_cases():
    """Those that document 01 gives."""
    yield "chain", write_job(samples.chain())
    yield "chain_cap_1", write_job(samples.chain(cap=1))
    yield "chain_cap_2", write_job(samples.chain(cap=2))
    yield "chain_cap_65535", write_job(samples.chain(cap=65535))
    yield "m5", write_job(samples.two_files())
    yield "m6", write_job(samples.three_files())
    yield "m9", bytes(512)


def limits():
    """The most of each count and one more, and the blocks that counts just fill."""
    yield "files_1024", write_job(wide(1024))
    yield "files_1025", write_job(wide(1025))
    yield "recipes_1024", write_job(large(4))
    yield "recipes_1025", write_job(large(4, bounds=range(0, 4101, 4)))
    yield "pins_4096_in_four", write_job(large(1024, cap=1))
    yield "pins_4097", write_job(large(1024, pins=[0] * 4097))
    for files in (125, 126, 127, 252, 253):
        yield f"files_{files}", write_job(wide(files))
    # 253 and 254 bounds, and pins of 252, 254, 506 and 508.
    for files in (127, 128, 253, 254, 255):
        yield f"row_of_{files}", write_job(row(files))
    for pins in (252, 253, 254, 506, 507, 1024):
        yield f"one_recipe_of_{pins}", write_job(one_recipe(pins))
    yield "den_1000", write_job(samples.chain().changed(num=500, den=1000))
    yield "den_1001", write_job(samples.chain().changed(num=500, den=1001))
    yield "num_is_den", write_job(samples.chain().changed(num=2))
    yield "num_is_den_1000", write_job(samples.chain().changed(num=1000, den=1000))
    # Products over 32 bits, and a walk in which each distance differs.
    heavy = large(4, sizes=[65535] * 1024, num=500, den=1000, cap=2)
    yield "sizes_65535", write_job(heavy)
    yield "sizes_rising", write_job(rising())


def refusals():
    """Every number at several places, in jobs whose layout is right."""
    chain = samples.chain()
    yield "no_1_files", write_values((0, 3, 6, 1, 2, 0), [], chain.bounds, chain.pins)
    files = planner.file_values(chain)
    yield "no_1_recipes", write_values((4, 0, 6, 1, 2, 0), files, [0], chain.pins)
    yield "no_1_header_alone", make_block(0, 1, (0, 0, 0, 0, 0, 0))
    yield "no_2_header_alone", make_block(0, 1, (65535,) * 6)
    for name, header in (
        ("files", (1025, 3, 6)),
        ("recipes", (4, 1025, 6)),
        ("pins", (4, 3, 4097)),
    ):
        yield f"no_2_{name}", make_block(0, 1, header + (1, 2, 0))
    for name, bounds in (
        ("first", [1, 2, 4, 6]),
        ("recipe_0", [0, 1, 4, 6]),
        ("recipe_0_empty", [0, 0, 4, 6]),
        ("recipe_1", [0, 2, 3, 6]),
        ("recipe_1_falls", [0, 4, 2, 6]),
        ("recipe_2", [0, 2, 5, 6]),
        ("recipe_2_falls_far", [0, 2, 65535, 1]),
        ("recipe_1_near_the_top", [0, 65534, 65535, 6]),
        ("end_above", [0, 2, 4, 7]),
        ("end_far_above", [0, 2, 4, 65535]),
    ):
        yield f"no_4_{name}", write_job(chain.changed(bounds=bounds))
    yield "no_4_end_below", write_job(chain.changed(pins=[0, 1, 2, 3, 1, 2, 3]))
    yield "no_4_no_pins", write_job(chain.changed(pins=[]))
    for place, pins in (
        (0, [4, 1, 2, 3, 1, 2]),
        (1, [0, 0, 2, 3, 1, 2]),
        (3, [0, 1, 2, 65535, 1, 2]),
        (5, [0, 1, 2, 3, 1, 1]),
    ):
        yield f"no_5_at_{place}", write_job(chain.changed(pins=pins))
    yield "no_5_not_across", write_job(chain.changed(pins=[0, 1, 1, 0, 0, 1]))
    for file in range(4):
        sizes = [0 if i == file else 1 for i in range(4)]
        yield f"no_6_at_{file}", write_job(chain.changed(sizes=sizes))
    for num, den in ((0, 2), (3, 2), (0, 0), (1, 0), (1, 1), (65535, 65535)):
        yield f"no_7_{num}_of_{den}", write_job(chain.changed(num=num, den=den))
    yield "no_8", write_job(chain.changed(marks=[PINNED] * 4))
    for file in (0, 3):
        marks = [FREE if i == file else PINNED for i in range(4)]
        yield f"free_{file}_alone", write_job(chain.changed(marks=marks))
    yield "no_9_all_in_a", write_job(chain.changed(sides=[A] * 4))
    yield "no_9_all_in_b", write_job(chain.changed(sides=[B] * 4))
    # |A| is 2 of 4, and smax 1: balanced from a quarter up to three.
    for num, den in ((1, 4), (249, 1000), (3, 4), (751, 1000)):
        job = chain.changed(num=num, den=den)
        yield f"edge_of_balance_{num}_of_{den}", write_job(job)


def large_refusals():
    """The last places of the largest job, over several blocks of a kind."""
    for place, bound in ((512, 2045), (1023, 4095), (1024, 4095), (1024, 65535)):
        bounds = list(range(0, 4097, 4))
        bounds[place] = bound
        yield f"large_no_4_{place}_{bound}", write_job(large(4, bounds=bounds))
    for place, pin in ((253, 1024), (4095, 1024), (4095, 1020), (4095, 1022)):
        pins = [k % 1024 for k in range(4096)]
        pins[place] = pin
        yield f"large_no_5_{place}_{pin}", write_job(large(4, pins=pins))
    for place in (125, 126, 1023):
        sizes = [0 if i == place else 1 for i in range(1024)]
        yield f"large_no_6_{place}", write_job(large(4, sizes=sizes))


def lengths():
    """Files shorter and longer than they must be."""
    data = write_job(samples.chain())
    for length in (0, 1, 2, 510, 511, 512, 513, 1024, 1536, 2047):
        yield f"no_20_{length}_bytes", data[:length]
    yield "no_20_one_byte_more", data + b"\0"
    yield "no_20_a_block_more", data + data[-512:]
    yield "no_20_a_block_less_of_the_largest", write_job(large(4))[:-512]
    yield "no_20_a_byte_more_than_the_largest", write_job(large(4)) + b"\0"
    yield "no_20_many_more", data + bytes(20000)
    yield "m9_and_more", bytes(1024)


# Name, byte and what is put there, of any block of the chain.
WRONG_HEADS = (
    ("number", 0, 7),
    ("number_high", 1, 1),
    ("kind_0", 2, 0),
    ("kind_other", 2, 5),
    ("count_0", 3, 0),
    ("count_more", 3, 10),
    ("count_255", 3, 255),
    ("last_unused_low", 508, 1),
    ("last_unused_high", 509, 128),
)


def layouts():
    """One wrong byte of one block at a time."""
    for block in range(4):
        for name, at in (("low", 510), ("high", 511), ("head", 0), ("value", 4)):
            data = bytearray(write_job(samples.chain()))
            data[512 * block + at] ^= 1
            yield f"no_21_block_{block}_{name}", bytes(data)
        for name, at, byte in WRONG_HEADS:
            blocks = faults.Blocks(samples.chain())
            blocks.set_byte(block, at, byte)
            yield f"no_22_block_{block}_{name}", blocks.stored()
        blocks = faults.Blocks(samples.chain())
        used = blocks.blocks[block][3]
        blocks.set_value(block, used, 1)
        yield f"no_22_block_{block}_first_unused", blocks.stored()
    # 4 was refused as 22 before order 5, and is an unread file in A.
    yield "second_of_0_is_4", second_of_chain(0, 4)
    yield "second_of_3_is_4", second_of_chain(3, 4)
    yield "no_22_second_of_1_is_256", second_of_chain(1, 256)
    yield "no_22_second_of_2_is_65535", second_of_chain(2, 65535)


def second_of_chain(file, second):
    """The chain with another second value of a file."""
    blocks = faults.Blocks(samples.chain())
    blocks.set_value(1, 2 * file + 1, second)
    return blocks.stored()


def large_layouts():
    """Blocks of the largest job: the first, the last of each kind, and the 253rd
    value of a block of files, which is never used."""
    for block in (0, 1, 9, 10, 14, 15, 31):
        blocks = faults.Blocks(large(4))
        blocks.set_step(block, 256)
        yield f"large_no_21_block_{block}", blocks.stored()
        blocks = faults.Blocks(large(4))
        blocks.set_byte(block, 0, block ^ 1)
        yield f"large_no_22_block_{block}", blocks.stored()
    blocks = faults.Blocks(large(4))
    blocks.set_value(5, 252, 1)
    yield "large_no_22_unused_of_a_full_block", blocks.stored()


def fault_name(fault):
    (number, place), _ = fault
    return f"{number}_at_{place}"


def pairs():
    """Two faults of the chain at once: every pair of faults.IN_ORDER."""
    for early, late in itertools.combinations(faults.IN_ORDER, 2):
        name = f"pair_{fault_name(early)}_and_{fault_name(late)}"
        yield name, faults.stored_chain([early, late])


def triples():
    """Three neighbours in the order of the refusals."""
    for three in zip(faults.IN_ORDER, faults.IN_ORDER[1:], faults.IN_ORDER[2:]):
        name = "_and_".join(fault_name(fault) for fault in three)
        yield f"triple_{name}", faults.stored_chain(three)


# Name, how many, files, recipes, and the longest recipe: from tiny to full size.
SHAPES = (
    ("tiny", 60, (2, 8), (1, 8), 8),
    ("small", 40, (8, 40), (4, 60), 6),
    ("middle", 12, (60, 200), (60, 240), 8),
    ("broad", 3, (600, 900), (500, 900), 5),
)


def random_jobs():
    """Sound jobs of every size, with sizes, pins, ratios and caps of all sorts."""
    rng = random.Random(SEED)
    for name, count, files, recipes, longest in SHAPES:
        for k in range(count):
            job = samples.random_job(
                rng,
                files=rng.randint(*files),
                recipes=rng.randint(*recipes),
                longest=longest,
                reach=rng.choice([0, 12, 30]),
                top_size=rng.choice([1, 2, 9, 500, 65535]),
                pinned=rng.choice([0, 0.05, 0.3, 0.8]),
                den=rng.choice([2, 3, 10, 1000, None]),
                cap=rng.choice([0, 0, 0, 1, 2, 65535]),
            )
            yield f"{name}_{k}", write_job(job)


def full_jobs():
    """1,024 files, 1,024 recipes and all 4,096 pins."""
    rng = random.Random(SEED + 1)
    for name, reach, top_size in (
        ("even", 40, 1),
        ("uneven", 1024, 900),
        ("heavy", 24, 65535),
    ):
        job = samples.job_of_recipes(
            [samples.near_files(rng, 1024, 4, reach) for _ in range(1024)],
            sizes=[rng.randint(1, top_size) for _ in range(1024)],
            sides=[A] * 1024,
            marks=[PINNED if rng.random() < 0.03 else FREE for _ in range(1024)],
            num=rng.randint(400, 600),
            den=1000,
            cap=0,
        )
        job = job.changed(sides=samples.wide_window_sides(rng, job))
        yield f"full_{name}", write_job(job)


def mill_job():
    """As it came, which is refused as 9; and under a ratio near to its start."""
    yield "mill", write_job(mill())
    yield "mill_at_53", write_job(mill().changed(num=53, den=100))


def windows():
    """The window of the free files, beside heavy pinned ones and at its edges."""
    for name, (_, job) in samples.window_jobs().items():
        yield name, write_job(job)


def archived_jobs():
    """Random jobs whose pinned files are heavy."""
    rng = random.Random(SEED + 2)
    for k in range(20):
        job = samples.random_job(
            rng, rng.randint(6, 40), rng.randint(6, 50), pinned=0.25
        )
        yield f"archived_{k}", write_job(samples.with_archives(rng, job))


@functools.cache
def bad_starts():
    """Order 3's: jobs to be balanced, by name, and two of the largest size."""
    rng = random.Random(SEED + 3)
    jobs = {}
    for name, (_, _, job) in samples.unbalanced_jobs().items():
        jobs[f"unbalanced_{name}"] = job
    for k, side in enumerate((A, B, None, A, B, None)):
        files, recipes = rng.randint(20, 60), rng.randint(20, 60)
        job = samples.unbalanced_job(rng, files, recipes, side)
        jobs[f"unbalanced_random_{k}"] = job
    jobs["large_all_in_a"] = large(4, sides=[A] * 1024)
    jobs["large_all_in_b"] = rising(sides=[B] * 1024)
    return jobs


def stored_starts(jobs):
    for name, job in jobs.items():
        yield name, write_job(job)


def then_run(jobs):
    """Those of which files are moved, with the balanced sides: none is refused but as
    10, by which the balancing refuses it too."""
    for name, job in jobs.items():
        after = job.changed(sides=samples.sides_in_window(job))
        if after.sides != job.sides:
            number, _ = planner.check(after)
            assert number == planner.balance(job).number, f"{name} is not balanced"
            yield f"{name}_then_run", write_job(after)


def unbalanced_jobs():
    yield from stored_starts(bad_starts())


def balanced_jobs():
    yield from then_run(bad_starts())


def unread_jobs():
    """Order 5's, from no file unread to all of them."""
    for name, (_, _, _, job) in samples.unread_jobs().items():
        yield f"unread_{name}", write_job(job)


def unread_bytes():
    """Second values of 4 and more, and faults beside an unread file."""
    for file, second in ((0, 5), (3, 5)):
        yield f"second_of_{file}_is_{second}", second_of_chain(file, second)
    for file, second in ((0, 6), (3, 6), (2, 7), (1, 260)):
        yield f"no_22_second_of_{file}_is_{second}", second_of_chain(file, second)
    # The first file of the largest job, and the last, which is the 16th of its block.
    for name, block, at, second in (
        ("large_first_second_is_5", 1, 1, 5),
        ("large_last_second_is_5", 9, 31, 5),
        ("large_no_22_last_second_is_6", 9, 31, 6),
    ):
        blocks = faults.Blocks(large(4, cap=1))
        blocks.set_value(block, at, second)
        yield name, blocks.stored()
    # What is asked of a file's size and of its pins is asked of an unread one too.
    for name, fields in (
        ("unread_no_5", {"pins": [0, 1, 3, 3, 1, 2]}),
        ("unread_no_6", {"sizes": [1, 1, 1, 0]}),
        ("unread_no_7", {"num": 2}),
    ):
        yield name, write_job(samples.partial_chain(**fields))


def large_unread():
    """The largest job: every other file unread, all but the last, and uneven ones."""
    in_pairs = [i // 2 % 2 for i in range(1024)]
    halved = [FREE, UNREAD] * 512
    yield "large_unread_half", write_job(large(4, sides=in_pairs, marks=halved, cap=1))
    marks = [UNREAD] * 1023 + [FREE]
    yield "large_unread_but_one", write_job(large(4, marks=marks))
    marks = [i % 5 // 3 * UNREAD for i in range(1024)]
    yield "large_unread_long_recipes", write_job(large(1024, marks=marks, cap=1))


@functools.cache
def unread_starts():
    """Starts with unread files that are to be balanced, by name."""
    jobs = {}
    for name, (_, _, job) in samples.unread_starts().items():
        jobs[f"unread_start_{name}"] = job
    return jobs


def unread_balanced():
    yield from stored_starts(unread_starts())
    yield from then_run(unread_starts())


def random_unread_jobs():
    """Sound jobs, and some that no start makes sound, with few to most files unread."""
    rng = random.Random(SEED + 5)
    for k, part in enumerate((0.05, 0.2, 0.5, 0.8, 0.1, 0.3, 0.6, 0.2)):
        job = samples.unread_job(
            rng,
            files=rng.randint(8, 60),
            recipes=rng.randint(8, 80),
            part=part,
            top_size=rng.choice([1, 9, 65535]),
            pinned=rng.choice([0, 0.1, 0.3]),
            cap=rng.choice([0, 0, 2]),
        )
        yield f"unread_random_{k}", write_job(job)


def unread():
    """Order 5: files that could not be read."""
    yield from unread_jobs()
    yield from unread_bytes()
    yield from unread_balanced()
    yield from random_unread_jobs()
    yield from large_unread()


def of_header(*header):
    """The chain under a header of these values."""
    chain = samples.chain()
    return write_values(header, planner.file_values(chain), chain.bounds, chain.pins)


def header_bytes():
    """Headers of five values up to eight, every seventh value, and values beyond."""
    six = planner.header_values(samples.chain())
    yield "no_22_header_of_5", of_header(*six[:5])
    for k in samples.ANY_K:
        if k not in samples.WIDER:
            yield f"no_22_seventh_is_{k}", of_header(*six, k)
    yield "no_22_header_of_8", of_header(*six, 2, 0)
    yield "no_22_header_of_8_with_an_eighth", of_header(*six, 2, 2)
    # A value that stands behind those that are counted.
    for name, k, at in (
        ("seventh_of_six", 1, 6),
        ("eighth_of_seven", 2, 7),
        ("last_of_seven", 4, 252),
    ):
        blocks = faults.Blocks(samples.chain().changed(k=k))
        blocks.set_value(0, at, 2)
        yield f"no_22_{name}", blocks.stored()


def wider_faults():
    """Faults of the chain with seven values, beside a wrong k and beside a right one."""
    for fault in (faults.IN_ORDER[at] for at in (0, 2, 3, 4, 5)):
        name = f"seventh_is_5_and_{fault_name(fault)}"
        yield name, faults.stored_chain([fault, faults.WRONG_SEVENTH], k=2)
    for fault in (faults.IN_ORDER[at] for at in (4, 6, 11, 14, 15)):
        yield f"wider_{fault_name(fault)}", faults.stored_chain([fault], k=3)


@functools.cache
def wider_starts():
    """Starts to be balanced at each k over 1, by name."""
    stored = ("impossible_from_above_by_1", "just_possible_from_below_by_1", "beside")
    return {
        f"wider_start_{name}": job
        for name, (_, _, job) in samples.wider_starts().items()
        if name.startswith(stored)
    }


def random_wider_jobs():
    """Sound jobs at each k that start near its edge, some with unread files."""
    rng = random.Random(SEED + 6)
    for i, k in enumerate(2 * samples.WIDER):
        job = samples.wider_job(
            rng,
            files=rng.randint(12, 60),
            recipes=rng.randint(12, 80),
            k=k,
            top_size=rng.choice([1, 9, 65535]),
            pinned=rng.choice([0, 0.1, 0.3]),
            cap=rng.choice([0, 0, 2]),
        )
        yield f"wider_random_{i}", write_job(job)


def large_wider_jobs():
    """The largest job at the edge of its window, and with sizes that differ."""
    # |A| is 516 of 1,024.
    sides = [A] * 8 + [A, B] * 508
    yield "large_wider_even", write_job(large(4, sides=sides, k=4, cap=1))
    yield "large_wider_rising", write_job(rising(k=3))
    yield "mill_at_k_2", write_job(mill().changed(k=2))


def wider_windows():
    """Order 6: a wider window when asked."""
    named = {**samples.at_each_wider(samples.edges), **samples.wider_jobs()}
    for name, (_, job) in named.items():
        yield f"wider_{name}", write_job(job)
    yield from header_bytes()
    yield from wider_faults()
    yield from stored_starts(wider_starts())
    yield from then_run(wider_starts())
    yield from random_wider_jobs()
    yield from large_wider_jobs()


def vault_pairs():
    """Order 8's fault of the chain beside each other one."""
    for fault in faults.BEFORE_10:
        name = f"vault_pair_{fault_name(fault)}_and_10_at_0"
        yield name, faults.stored_chain([fault, faults.EMPTY_VAULT])
    for fault in faults.AFTER_10:
        name = f"vault_pair_10_at_0_and_{fault_name(fault)}"
        yield name, faults.stored_chain([faults.EMPTY_VAULT, fault])


@functools.cache
def vault_starts():
    """Starts to be balanced where a vault may just not be empty, by name."""
    found = samples.at_each_k(samples.vault_starts)
    return {f"vault_start_{name}": job for name, (_, _, job) in found.items()}


def large_vaults():
    """One file of many in A, and in B: a thousandth of W is smax, and more than it."""
    for side, num in ((A, 1), (B, 999)):
        name = "ab"[side]
        for files in (1000, 1001):
            sides = [side] + [1 - side] * (files - 1)
            job = wide(files, sides=sides, num=num, den=1000, cap=1)
            yield f"vault_{name}_of_{files}", write_job(job)
        sides = [side] + [1 - side] * 1023
        for size, k in ((1, 1), (1, 2), (65535, 1), (65535, 2)):
            fields = {"sizes": [size] * 1024, "num": num, "den": 1000, "k": k}
            job = large(4, sides=sides, cap=1, **fields)
            yield f"large_vault_{name}_of_{size}_at_{k}", write_job(job)


def vaults():
    """Order 8: no vault may be emptied."""
    named = {**samples.vault_jobs(), **samples.at_each_k(samples.vault_edges)}
    for name, (_, job) in named.items():
        yield f"vault_{name}", write_job(job)
    yield from vault_pairs()
    yield from stored_starts(vault_starts())
    yield from then_run(vault_starts())
    yield from large_vaults()


def refused_as_10(data):
    """The job in these bytes, if 10 is what a run answers."""
    number, _, _, job = planner.read_job(data)
    return job if number == 0 and planner.check(job) == (10, 0) else None


# Three readable files in recipes of their own: one pinned in A, one in B, the last free.
LAST_FREE = [PINNED, *[UNREAD] * 4, PINNED, *[UNREAD] * 1017, FREE]
# Where there is no room for a file more.
PAST_10 = {"large_unread_but_one": large(4, marks=LAST_FREE)}


def shown_again():
    """What a case from before order 8 showed of a pass or a refusal, where 10 now hides
    it: the same past 10."""
    for name, data in older_cases().items():
        job = refused_as_10(data)
        if job is not None:
            past = PAST_10.get(name) or samples.past_10(job)
            yield f"{name}_past_10", write_job(past)


# The guide's pass by edition 2 is an example and no case.
EXAMPLES = ("chain", "eight", "mill", "mill_at_53")


def examples(named):
    return [(name, {**named, "eight": write_job(samples.eight())}[name]) for name in EXAMPLES]


OLDER_GROUPS = (
    own_cases,
    limits,
    refusals,
    large_refusals,
    lengths,
    layouts,
    large_layouts,
    pairs,
    triples,
    random_jobs,
    full_jobs,
    mill_job,
    windows,
    archived_jobs,
    unbalanced_jobs,
    balanced_jobs,
    unread,
    wider_windows,
)
GROUPS = (vaults, shown_again)


def named_by(groups):
    """Every name of these groups with its bytes, in a fixed order."""
    found = {}
    for name, data in itertools.chain.from_iterable(group() for group in groups):
        assert name not in found, f"two cases are named {name}"
        found[name] = data
    return found


@functools.cache
def older_cases():
    """Those from before order 8."""
    return named_by(OLDER_GROUPS)


def cases():
    """Every name with its bytes, in a fixed order."""
    older, newer = older_cases(), named_by(GROUPS)
    assert not older.keys() & newer.keys(), "two cases have one name"
    return {**older, **newer}


def write(folder, named):
    folder.mkdir(parents=True, exist_ok=True)
    for name, data in named:
        (folder / f"{name}.job").write_bytes(data)
        (folder / f"{name}.report").write_text(planner.run_stored(data))


def framed(name, data):
    """A case as the program takes it: its name, and its job."""
    return frame(name.encode()) + frame(data)


def reports(named):
    return {name: planner.run_stored(data) for name, data in named.items()}


def program(named, told):
    """What the program `cases` reads, and what it must write of it: by file."""
    return {
        "stdin": b"".join(framed(*case) for case in named.items()),
        "stdout": "".join(f"{name}\n{report}" for name, report in told.items()).encode(),
    }


def write_program(folder, named):
    for file, data in program(named, reports(named)).items():
        (folder / file).write_bytes(data)


# ---- What order 8 asks of the cases


def sizes_of(report):
    """The sizes that a report shows, or none where it is a refusal."""
    lines = [line.split() for line in report.splitlines()]
    return [int(size) for head, *sizes in lines if head == "size" for size in sizes]


def see_no_empty_vault(told):
    """ "In no case of the run does a report show a size of 0." """
    shown = {name: sizes_of(report) for name, report in told.items()}
    assert [name for name, sizes in shown.items() if 0 in sizes] == [], "an empty vault"
    assert all(len(sizes) in (0, 2) for sizes in shown.values()), "not two sizes"
    return sum(1 for sizes in shown.values() if sizes)


def see_both_halves(named):
    """num·W against den·k·smax, and the same of B's share: at each k less by 1, equal and
    more by 1, each alone and with the answer that is asked for; and both equal at once."""
    seen = set()
    for data in named.values():
        number, _, _, job = planner.read_job(data)
        if number or planner.refusal(job, True, 8) != (0, 0):
            continue
        slack = job.den * job.k * job.largest
        off_a = job.num * job.total - slack
        off_b = (job.den - job.num) * job.total - slack
        assert (planner.check(job) == (10, 0)) == (min(off_a, off_b) <= 0), "10 is wrong"
        seen |= {(job.k, "a", off_a)} if off_b > 1 else set()
        seen |= {(job.k, "b", off_b)} if off_a > 1 else set()
        seen |= {(job.k, "both", off_a)} if off_a == off_b else set()
    for k in (1, *samples.WIDER):
        for half, off in itertools.product("ab", (-1, 0, 1)):
            assert (k, half, off) in seen, (k, half, off)
        assert {(k, "both", 0), (k, "both", 1)} <= seen, (k, "both")


def planned(job):
    """What a run shows of a job when 10 is not asked: its number, or all but the sizes
    and the sides of the files that stand behind the job's own."""
    if planner.find_9(job, True) is not None:
        return 9
    answers = planner.all_passes(job)
    return [
        (one.cut_before, one.cut_after, one.kept, one.scans, one.visits)
        + (one.move_files[: one.tried], one.move_gains[: one.tried])
        + (one.move_cuts[: one.tried], one.scan_recipes, one.scan_kinds)
        for one in answers
    ]


def see_shown_again(named):
    """Each older case that is refused as 10 has one beside it that is not, and that shows
    what it would have shown."""
    count = 0
    for name, data in older_cases().items():
        job = refused_as_10(data)
        if job is not None:
            _, _, _, past = planner.read_job(named[f"{name}_past_10"])
            assert planner.check(past) in ((0, 0), (9, 0)), name
            assert planned(past) == planned(job), name
            count += 1
    return count


def check(folder, named):
    """What the script exits with."""
    told = reports(named)
    made = program(named, told).items()
    wrong = [file for file, data in made if (folder / file).read_bytes() != data]
    for file in wrong:
        print(f"{folder / file}: differs")
    runs = see_no_empty_vault(told)
    see_both_halves(named)
    again = see_shown_again(named)
    print(f"{len(named)} stored jobs, {runs} of them planned, and no vault empty")
    print(f"{again} from before order 8 are refused as 10, and shown again past it")
    return min(len(wrong), 1)


def shown(name, data):
    """One case as text: its name, its bytes by 32 in hexadecimal, its report."""
    rows = [data[at : at + 32].hex(" ") for at in range(0, len(data), 32)]
    return "\n".join([name, *rows, planner.run_stored(data)])


def prints(told):
    """Whether a program printed what the reference tells of a job."""
    return lambda data, done: done.stdout == told(data).encode()


def rewrites(told):
    """Whether a program wrote the reference's bytes, and said its words beside; a script explains a refusal behind them."""

    def agrees(data, done):
        written, said = told(data)
        more = done.stderr.removeprefix(said.encode())
        explained = said.startswith("refused") and more.count(b"\n") == 1 and b" means: " in more
        return done.stdout == written and done.stderr.startswith(said.encode()) and (more == b"" or explained)

    return agrees


COMPARED = {
    "--compare": prints(planner.run_stored),
    "--compare-traces": prints(planner.trace),
    "--compare-resettled": rewrites(planner.resettle),
    "--compare-balanced": rewrites(planner.balance_stored),
}


def compare(program, named, agrees):
    """Runs the program on each job; how many outputs differ, each named."""
    wrong = 0
    for name, data in named:
        done = subprocess.run([program], input=data, capture_output=True)
        if not agrees(data, done):
            wrong += 1
            print(f"{name}: differs")
            sys.stderr.buffer.write(done.stderr)
    print(f"{len(named)} compared, {wrong} differ")
    return wrong


def main(words):
    """What the program exits with."""
    named = cases()
    if not words:
        print("\n".join(named))
    elif words[0] == "--write":
        write(pathlib.Path(words[1]), named.items())
    elif words[0] == "--examples":
        write(pathlib.Path(words[1]), examples(named))
    elif words[0] == "--program":
        write_program(pathlib.Path(words[1]), named)
    elif words[0] == "--check":
        return check(pathlib.Path(words[1]), named)
    elif words[0] in COMPARED:
        return min(compare(words[1], named.items(), COMPARED[words[0]]), 1)
    else:
        print(shown(words[0], named[words[0]]), end="")
    return 0


if __name__ == "__main__":
    sys.exit(main(sys.argv[1:]))
