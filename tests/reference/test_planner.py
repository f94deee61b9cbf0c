"""Self-tests of the reference: what documents 01 and 02 say, asked of planner.py.

The last class plants the errors that document 01 names and asks that the same
tests see them, so that none of them passes for want of looking.
"""

import dataclasses
import functools
import itertools
import pathlib
import random
import tempfile
import unittest
from unittest import mock

import faults
import planner
import samples
from mill import mill
from planner import A, B, FREE, PINNED, UNREAD

RANDOM_JOBS = 300


def opened(job):
    """The job, or where 10 refuses it the same past 10."""
    return samples.past_10(job) if planner.check(job) == (10, 0) else job


def sound_jobs(of_seed):
    """So many of those that a run takes, without those that need many files for it."""
    jobs = map(opened, map(of_seed, itertools.count()))
    sound = (job for job in jobs if planner.check(job) == (0, 0) and job.files < 40)
    return list(itertools.islice(sound, RANDOM_JOBS))


@functools.cache
def small_jobs():
    """Random sound jobs from two files up, of many shapes; always the same ones."""
    return sound_jobs(random_of_seed)


def random_of_seed(seed):
    """Sound but for its balance; every fourth has heavy pinned files."""
    rng = random.Random(seed)
    job = samples.random_job(
        rng,
        files=rng.randint(2, 24),
        recipes=rng.randint(1, 30),
        longest=rng.choice([2, 3, 5, 24]),
        top_size=rng.choice([1, 3, 9, 65535]),
        pinned=rng.choice([0, 0.1, 0.5, 0.9]),
        cap=rng.choice([0, 0, 1, 2, 65535]),
    )
    return samples.with_archives(rng, job) if seed % 4 == 3 else job


@functools.cache
def unread_jobs():
    """Random sound jobs with unread files, from few up to all but one."""
    return sound_jobs(unread_of_seed)


def unread_of_seed(seed):
    rng = random.Random(seed)
    return samples.unread_job(
        rng,
        files=rng.randint(3, 20),
        recipes=rng.randint(1, 24),
        part=rng.choice([0.1, 0.3, 0.5, 0.8]),
        longest=rng.choice([2, 3, 5, 20]),
        top_size=rng.choice([1, 3, 9, 65535]),
        pinned=rng.choice([0, 0.1, 0.4]),
        cap=rng.choice([0, 0, 1, 2]),
    )


@functools.cache
def wider_jobs():
    """Random sound jobs at each k over 1, most of which are not balanced at 1."""
    return sound_jobs(wider_of_seed)


def wider_of_seed(seed):
    rng = random.Random(seed)
    return samples.wider_job(
        rng,
        files=rng.randint(4, 20),
        recipes=rng.randint(1, 24),
        k=samples.WIDER[seed % 3],
        top_size=rng.choice([1, 3, 9, 65535]),
        pinned=rng.choice([0, 0.1, 0.4]),
        cap=rng.choice([0, 0, 1, 2]),
    )


def moves_of(answer):
    return answer.move_files[: answer.tried]


def scans_by_move(answer):
    """The listed scans of each move, cut where the fourth move list says."""
    scans = list(zip(answer.scan_recipes, answer.scan_kinds))
    ends = [0] + answer.move_scans[: answer.tried]
    return [scans[a:b] for a, b in zip(ends, ends[1:])]


def scanned_files(job, sides, file, recipe, kind):
    """The files that a scan of this kind speaks of. sides: before the move."""
    others = [other for other in job.whole_recipes[recipe] if other != file]
    if kind in (1, 3):
        return others
    side_to = 1 - sides[file]
    return [other for other in others if (sides[other] == side_to) == (kind == 2)]


STEPS = {1: 1, 2: -1, 3: -1, 4: 1}


class Replay:
    """The gains of the free files, kept by the listed scans alone."""

    def __init__(self, job, start):
        self.job = job
        self.sides = list(start)
        self.locked = [mark != FREE for mark in job.marks]
        self.gains = planner.all_gains(job, start)

    def move(self, file, scans):
        self.locked[file] = True
        for recipe, kind in scans:
            for other in scanned_files(self.job, self.sides, file, recipe, kind):
                if not self.locked[other]:
                    self.gains[other] += STEPS[kind]
        self.sides[file] = 1 - self.sides[file]

    def free_gains(self):
        return self.free_part(self.gains)

    def recounted(self):
        return self.free_part(planner.all_gains(self.job, self.sides))

    def free_part(self, gains):
        return {i: gain for i, gain in enumerate(gains) if not self.locked[i]}


# ---- What a pass has to meet; each raises AssertionError where it does not


def see_replay(job, start):
    """After every move the replayed gains of free files are those from scratch."""
    answer = planner.one_pass(job, start)
    replay = Replay(job, start)
    for file, scans in zip(moves_of(answer), scans_by_move(answer)):
        replay.move(file, scans)
        assert replay.free_gains() == replay.recounted(), "a gain replayed is wrong"


def see_four_scans(job, start):
    """No recipe is scanned over four times, and the visits are the sum."""
    answer = planner.one_pass(job, start)
    scanned = answer.scan_recipes[: answer.scans]
    for recipe in set(scanned):
        assert scanned.count(recipe) <= 4, "a recipe scanned over four times"
    lengths = [job.bounds[j + 1] - job.bounds[j] for j in scanned]
    assert answer.visits == sum(lengths), "the visits are not the sum"


def see_moves(job, start):
    """Each move is free and legal, no free file ranks before it, and sums hold."""
    answer = planner.one_pass(job, start)
    sides = list(start)
    locked = [mark != FREE for mark in job.marks]
    for k, file in enumerate(moves_of(answer)):
        legal = legal_moves(job, sides, locked)
        assert file in legal, "a move that is not legal"
        assert file == min(legal, key=legal.get), "a better move was there"
        assert answer.move_gains[k] == -legal[file][0], "a gain is wrong"
        locked[file] = True
        sides[file] = 1 - sides[file]
        now = planner.cut(job, sides)
        gained = sum(answer.move_gains[: k + 1])
        assert answer.move_cuts[k] == now, "a cut is wrong"
        assert answer.cut_before - gained == now, "the gains do not add up"
    assert not legal_moves(job, sides, locked), "a legal move was left"


def off_goal(job, sides):
    """How far den·|A| is above num·W, less than 0 where below; and the slack."""
    readable = [i for i in range(job.files) if job.marks[i] != UNREAD]
    total = sum(job.sizes[i] for i in readable)
    in_a = sum(job.sizes[i] for i in readable if sides[i] == A)
    free_sizes = [size for size, mark in zip(job.sizes, job.marks) if mark == FREE]
    return job.den * in_a - job.num * total, job.den * job.k * max(free_sizes)


def in_window(job, sides):
    """Both of the two tests of balance say that it is off by the slack at most."""
    off, slack = off_goal(job, sides)
    return abs(off) <= slack


def legal_moves(job, sides, locked):
    """Each legal file with its rank, the gain taken as what the cut loses."""
    legal = {}
    for file in range(job.files):
        after = planner.sides_after(sides, [file])
        if locked[file] or not in_window(job, after):
            continue
        lost = planner.cut(job, sides) - planner.cut(job, after)
        legal[file] = (-lost, abs(off_goal(job, after)[0]), file)
    return legal


def see_best_prefix(job, start):
    """The sides are those of the shortest prefix of least cut, and so are figures."""
    answer = planner.one_pass(job, start)
    moves = moves_of(answer)
    cuts = [
        planner.cut(job, planner.sides_after(start, moves[:k]))
        for k in range(len(moves) + 1)
    ]
    assert all(now > cuts[answer.kept] for now in cuts[: answer.kept]), "not shortest"
    assert all(now >= cuts[answer.kept] for now in cuts), "not the least cut"
    assert answer.cut_after == cuts[answer.kept], "not the cut of the prefix"
    left = planner.sides_after(start, moves[: answer.kept])
    assert answer.sides == left, "not the sides of the prefix"
    assert answer.size_a == planner.size_of_a(job, left), "not the size of A"


def see_lists(job, start):
    """The gain list at the end, and the zeros behind the lists."""
    answer = planner.one_pass(job, start)
    moves = moves_of(answer)
    end = planner.all_gains(job, planner.sides_after(start, moves))
    for file in range(job.files):
        if job.marks[file] != FREE:
            expected = 0
        elif file in moves:
            expected = answer.move_gains[moves.index(file)]
        else:
            expected = end[file]
        assert answer.gains[file] == expected, "the gain list is wrong"
    move_lists = (
        answer.move_files,
        answer.move_gains,
        answer.move_cuts,
        answer.move_scans,
    )
    for entries in move_lists:
        assert len(entries) == job.files, "a move list is not C long"
        assert not any(entries[answer.tried :]), "no zeros behind the moves"
    for entries in (answer.scan_recipes, answer.scan_kinds):
        assert len(entries) == 4 * job.recipes, "a scan list is not 4N long"
        assert not any(entries[answer.scans :]), "no zeros behind the scans"


ALL_SEEN = (see_replay, see_four_scans, see_moves, see_best_prefix, see_lists)


class Chain(unittest.TestCase):
    """ "Chain case, whole"."""

    def setUp(self):
        self.job = samples.chain()
        self.first = planner.one_pass(self.job, self.job.sides)
        self.second = planner.one_pass(self.job, self.first.sides)

    def test_starting_gains(self):
        self.assertEqual(planner.all_gains(self.job, self.job.sides), [1, 2, 2, 1])

    def test_first_pass(self):
        answer = self.first
        self.assertEqual(answer.move_files, [1, 2, 0, 3])
        self.assertEqual(answer.move_cuts, [1, 1, 2, 3])
        self.assertEqual((answer.cut_before, answer.cut_after), (3, 1))
        self.assertEqual((answer.tried, answer.kept), (4, 1))
        self.assertEqual((answer.scans, answer.visits), (9, 18))
        self.assertEqual(answer.sides, [A, A, A, B])

    def test_second_pass(self):
        answer = self.second
        self.assertEqual(answer.move_files, [2, 1, 3, 0])
        self.assertEqual(answer.move_cuts, [1, 1, 2, 1])
        self.assertEqual((answer.kept, answer.visits), (0, 18))
        self.assertEqual(answer.gains, [1, 0, 0, -1])

    def test_run(self):
        answer = planner.run(self.job)
        self.assertEqual((answer.passes, answer.settled), (2, True))
        self.assertEqual((answer.tried, answer.kept), (8, 1))
        self.assertEqual((answer.scans, answer.visits), (18, 36))
        self.assertEqual(answer.last, self.second)

    def test_program(self):
        report = planner.run_stored(planner.write_job(self.job))
        self.assertEqual(
            report,
            "done\ncut 3 1\nsize 3 1\npasses 2\nsettled yes\n"
            "kept 1\nvisits 36\nsides AAAB\n",
        )

    def test_trace(self):
        lines = planner.trace(planner.write_job(self.job)).splitlines()
        moves = [line for line in lines if line.startswith("move")]
        self.assertEqual(
            moves, ["move 1 2 1", "move 2 0 1", "move 0 -1 2", "move 3 -1 3"]
        )
        # The first move's two recipes, each with its two adjustments.
        self.assertEqual(
            lines[:6],
            ["done", moves[0], "scan 0 2", "scan 0 3", "scan 2 2", "scan 2 3"],
        )
        self.assertEqual(lines[-8], "gains -1 2 0 -1")
        self.assertEqual(lines[-7:-5], ["cut 3 1", "size 3 1"])
        self.assertEqual(
            lines[-5:], ["tried 4", "kept 1", "scans 9", "visits 18", "sides AAAB"]
        )
        self.assertEqual(len(lines), 1 + 4 + 9 + 8)

    def test_cap_of_one_is_not_settled(self):
        answer = planner.run(samples.chain(cap=1))
        self.assertEqual((answer.passes, answer.settled, answer.visits), (1, False, 18))

    def test_cap_of_two_is_settled(self):
        """The second pass is the last by the cap, and leaves the cut equal."""
        answer = planner.run(samples.chain(cap=2))
        self.assertEqual((answer.passes, answer.settled), (2, True))


class Marked(unittest.TestCase):
    """m3 to m9; m1 and m2 are the chain's own tests, and m5 is one of order 8."""

    def test_m3_gains_after_the_first_move(self):
        job = samples.chain()
        gains = planner.all_gains(job, planner.sides_after(job.sides, [1]))
        self.assertEqual([gains[i] for i in (0, 2, 3)], [-1, 0, 1])

    def test_m4_balance(self):
        job = samples.chain()
        found = [planner.balanced(job, size_a) for size_a in range(5)]
        self.assertEqual(found, [False, True, True, True, False])

    def kinds(self, moves):
        """The scan kinds of moves that are given and not chosen."""
        job = samples.three_files()
        sides, locked, kinds = list(job.sides), [False] * 3, []
        for file in moves:
            locked[file] = True
            scans = planner.scans_of_move(job, sides, locked, file)
            kinds += [kind for _, kind in scans]
            sides[file] = 1 - sides[file]
        return kinds

    def test_m6_the_bound_met(self):
        self.assertEqual(self.kinds([0, 1, 2]), [2, 4, 3, 1])

    def test_locked_file_left_alone_is_not_scanned(self):
        """The moves 0, 2, 1 "would give five" were the locked file scanned."""
        self.assertEqual(self.kinds([0, 2, 1]), [2, 4, 2])

    def test_m7_check_of_zeros(self):
        self.assertEqual(planner.block_check(bytes(510)), 21845)

    def test_m8_check_of_the_last_byte(self):
        self.assertEqual(planner.block_check(bytes(509) + b"\xff"), 20823)

    def test_m9_zeros_are_refused(self):
        self.assertEqual(planner.run_stored(bytes(512)), "refused 21 0\n")


class Passes(unittest.TestCase):
    """Facts of every pass, on many random jobs."""

    def test_random_jobs(self):
        for job in small_jobs():
            self.assertEqual(planner.check(job), (0, 0))
            for see in ALL_SEEN:
                see(job, job.sides)

    def test_gain_is_what_the_cut_loses(self):
        for job in small_jobs():
            gains = planner.all_gains(job, job.sides)
            for file in range(job.files):
                after = planner.sides_after(job.sides, [file])
                lost = planner.cut(job, job.sides) - planner.cut(job, after)
                self.assertEqual(gains[file], lost)
                self.assertLessEqual(abs(gains[file]), len(job.file_recipes[file]))

    def test_balance_after_every_move(self):
        for job in small_jobs():
            answer = planner.one_pass(job, job.sides)
            for k in range(answer.tried + 1):
                after = planner.sides_after(job.sides, moves_of(answer)[:k])
                self.assertTrue(planner.balanced(job, planner.size_of_a(job, after)))

    def test_pinned_files_stay(self):
        for job in small_jobs():
            answer = planner.run(job)
            for file in range(job.files):
                if job.marks[file] == PINNED:
                    self.assertEqual(answer.last.sides[file], job.sides[file])

    def test_file_on_no_recipe_has_gain_0(self):
        job = samples.chain().changed(
            sizes=[1] * 5, sides=[A, B, A, B, A], marks=[FREE] * 5
        )
        self.assertEqual(planner.check(job), (0, 0))
        answer = planner.one_pass(job, job.sides)
        self.assertIn(4, moves_of(answer))
        self.assertEqual(answer.gains[4], 0)

    def test_ties_go_by_distance_then_number(self):
        """Gains alike: file 1 lands nearest the goal, and 2 is as near but later."""
        job = samples.job_of_recipes(
            [[0, 1, 2, 3]],
            sizes=[4, 2, 2, 4],
            sides=[A, A, A, B],
            marks=[FREE] * 4,
            num=1,
            den=2,
            cap=0,
        )
        # |A| is 8 of 12: file 1 or 2 brings it to 6, file 0 to 4, file 3 to 12.
        # File 3 has the greatest gain, and 12 is more than 6 + 4.
        self.assertEqual(planner.all_gains(job, job.sides), [0, 0, 0, 1])
        self.assertEqual(planner.one_pass(job, job.sides).move_files[0], 1)


class Runs(unittest.TestCase):
    def test_run_is_its_passes(self):
        for job in small_jobs():
            answer = planner.run(job)
            self.assertEqual((answer.number, answer.place), (0, 0))
            sides, cuts, visits = job.sides, [planner.cut(job, job.sides)], 0
            for _ in range(answer.passes):
                one = planner.one_pass(job, sides)
                sides, visits = one.sides, visits + one.visits
                cuts.append(one.cut_after)
            self.assertEqual(answer.visits, visits)
            self.assertEqual(answer.last.sides, sides)
            # Every pass but the last lowers the cut.
            for before, after in zip(cuts, cuts[1:-1]):
                self.assertLess(after, before)
            self.assertEqual(answer.settled, cuts[-1] == cuts[-2])
            if not answer.settled:
                self.assertEqual(answer.passes, job.cap)
            if job.cap:
                self.assertLessEqual(answer.passes, job.cap)


def wide_job(files):
    """So many files of size 1, half in each vault, one recipe of two."""
    return planner.Job(
        [1] * files, [i % 2 for i in range(files)], [0] * files, [0, 2], [0, 1], 1, 2, 0
    )


class Refusals(unittest.TestCase):
    """The table "Numbers for no"."""

    def refused(self, number, place, lent_ok=True, **fields):
        job = samples.chain().changed(**fields)
        self.assertEqual(planner.check(job, lent_ok), (number, place))
        answer = vars(planner.run(job, lent_ok))
        self.assertEqual((answer.pop("number"), answer.pop("place")), (number, place))
        # "All other numbers of a refused answer are 0."
        self.assertEqual(answer.pop("unread"), (0, 0))
        self.assertFalse(any(answer.values()))

    def test_1(self):
        self.refused(1, 0, sizes=[])
        self.refused(1, 0, bounds=[])
        self.refused(1, 0, bounds=[0])

    def test_2(self):
        self.assertEqual(planner.check(wide_job(1024)), (0, 0))
        self.assertEqual(planner.check(wide_job(1025)), (2, 0))
        self.refused(2, 0, bounds=[0] * 1026)
        self.refused(4, 0, bounds=[0] * 1025)
        self.refused(2, 0, pins=[0] * 4097)
        self.refused(4, 3, pins=[0] * 4096)

    def test_3(self):
        self.refused(3, 0, sides=[A, B, A])
        self.refused(3, 0, sides=[A, B, A, B, A])
        self.refused(3, 0, marks=[])
        self.refused(3, 0, lent_ok=False)

    def test_3_lent_lengths(self):
        job = samples.chain()
        right = dict(gains=4, moves=[4] * 4, scans=[12] * 2, scratch=6 + 16 + 12 + 16)
        self.assertTrue(planner.lent_fits(job, **right))
        longer = dict(gains=4, moves=[5] * 4, scans=[13] * 2, scratch=51)
        self.assertTrue(planner.lent_fits(job, **longer))
        for wrong in (
            dict(gains=3),
            dict(gains=5),
            dict(moves=[4, 4, 3, 4]),
            dict(scans=[12, 11]),
            dict(scratch=49),
        ):
            self.assertFalse(planner.lent_fits(job, **{**right, **wrong}))

    def test_4(self):
        self.refused(4, 0, bounds=[1, 3, 5, 6])
        self.refused(4, 0, bounds=[0, 1, 4, 6])
        self.refused(4, 1, bounds=[0, 2, 3, 6])
        self.refused(4, 2, bounds=[0, 2, 65535, 6])
        self.refused(4, 3, bounds=[0, 2, 4, 7])
        self.refused(4, 3, bounds=[0, 2, 4, 65535])
        # A short recipe goes before an end that is not P.
        self.refused(4, 2, bounds=[0, 2, 4, 5])
        self.refused(4, 1, bounds=[0, 2, 0, 7])

    def test_5(self):
        self.refused(5, 0, pins=[4, 1, 2, 3, 1, 2])
        self.refused(5, 5, pins=[0, 1, 2, 3, 1, 65535])
        self.refused(5, 1, pins=[0, 0, 2, 3, 1, 4])
        self.refused(5, 5, pins=[0, 1, 2, 3, 1, 1])

    def test_6(self):
        self.refused(6, 0, sizes=[0, 1, 1, 1])
        self.refused(6, 3, sides=[A, B, A, 2])
        self.refused(6, 1, marks=[0, 3, 0, 65535])
        # Order 5: "refusal 6 now means a mark over 2"; the rest of it stays.
        self.refused(6, 3, marks=[0, 2, 0, 65535])
        self.refused(6, 1, sizes=[1, 0, 1, 1], marks=[0, 2, 0, 0])
        self.refused(6, 1, sides=[A, 2, A, B], marks=[0, 2, 0, 0])

    def test_7(self):
        self.refused(7, 0, num=0)
        self.refused(7, 0, num=2)
        self.refused(7, 0, num=0, den=0)
        self.refused(7, 0, num=500, den=1001)
        passes = samples.chain().changed(num=500, den=1000)
        self.assertEqual(planner.check(passes), (0, 0))

    def test_8(self):
        self.refused(8, 0, marks=[PINNED] * 4)
        # "8 still means no mark 0."
        self.refused(8, 0, marks=[UNREAD] * 4)
        self.refused(8, 0, marks=[PINNED, UNREAD, UNREAD, PINNED])

    def test_9(self):
        self.refused(9, 0, sides=[A] * 4)
        self.refused(9, 0, sides=[B] * 4)

    def test_measure(self):
        job = samples.chain()
        found = (0, 0, 3, 2, 0, 0)
        self.assertEqual(planner.measure(job), found)
        # It needs no ratio, no free file and no balance, and may leave a vault empty.
        for fields in (dict(num=0), dict(marks=[PINNED] * 4), dict(den=4)):
            self.assertEqual(planner.measure(job.changed(**fields)), found)
        in_a = job.changed(sides=[A] * 4)
        self.assertEqual(planner.measure(in_a), (0, 0, 0, 4, 0, 0))
        bad = job.changed(sizes=[1, 0, 1, 1])
        self.assertEqual(planner.measure(bad), (6, 1, 0, 0, 0, 0))

    def test_view(self):
        bounds, pins = [0, 2, 5, 4, 6, 7], [0, 1, 2, 3, 1, 2]
        self.assertEqual(planner.view(bounds, pins, 0), [0, 1])
        self.assertEqual(planner.view(bounds, pins, 1), [2, 3, 1])
        for j in (2, 4, 5, 6, 10**9):
            self.assertEqual(planner.view(bounds, pins, j), [])
        self.assertEqual(planner.view(bounds, pins, 3), [1, 2])
        self.assertEqual(planner.view([], pins, 0), [])
        # A part that starts within the pins and ends beyond them, and a fall
        # from beyond them.
        self.assertEqual(planner.view([2, 7], pins, 0), [])
        self.assertEqual(planner.view([7, 6], pins, 0), [])


# One fault of each number, on fields that leave the other faults standing; that of 10,
# which stands after 8, does not leave this 7 standing, and has its own tests.
JOB_FAULTS = {
    1: dict(bounds=[0]),
    2: dict(pins=[0] * 4097),
    3: dict(marks=[0] * 3),
    4: dict(bounds=[1, 2, 4, 6]),
    5: dict(pins=[0, 1, 2, 4, 1, 2]),
    6: dict(sizes=[1, 1, 0, 1]),
    7: dict(num=2),
    8: dict(marks=[PINNED] * 4),
    9: dict(sides=[A] * 4),
}


class Order(unittest.TestCase):
    """ "Checks run in the order 1 to 9 and the first that applies is the answer." """

    def test_pairs_of_faults(self):
        for low, high in itertools.combinations(JOB_FAULTS, 2):
            # The fields of the lower number stand where both change one list.
            fields = {**JOB_FAULTS[high], **JOB_FAULTS[low]}
            number, _ = planner.check(samples.chain().changed(**fields))
            self.assertEqual(number, low, (low, high))

    def test_each_fault_by_itself(self):
        for number, fields in JOB_FAULTS.items():
            job = samples.chain().changed(**fields)
            self.assertEqual(planner.check(job)[0], number)


# A byte of any block of the chain, and what must not stand there.
WRONG_LAYOUTS = ((0, 9), (1, 1), (2, 0), (2, 5), (3, 0), (3, 253), (509, 1))


class Stored(unittest.TestCase):
    """ "The stored job"."""

    def setUp(self):
        self.job = samples.chain()
        self.data = planner.write_job(self.job)

    def answer(self, data, room=None):
        number, place, header, job = planner.read_job(data, room)
        if number:
            self.assertEqual((header, job), ((0,) * 7, None))
        return number, place

    def rechecked(self, block, at, byte):
        """The chain's bytes with one byte of a block put anew, and its check too."""
        blocks = [bytearray(planner.block_at(self.data, b)) for b in range(4)]
        blocks[block][at] = byte
        check = planner.block_check(blocks[block])
        blocks[block][510:] = planner.two_bytes(check)
        return b"".join(blocks)

    def test_the_bytes_themselves(self):
        """The layout, from document 01's sentences and not from the writer."""
        self.assertEqual(len(self.data), 4 * 512)
        head = bytes([0, 0, 1, 6, 4, 0, 3, 0, 6, 0, 1, 0, 2, 0, 0, 0])
        files = bytes([1, 0, 2, 8, 1, 0, 0, 0, 1, 0, 1, 0, 1, 0, 0, 0, 1, 0, 1, 0])
        bounds = bytes([2, 0, 3, 4, 0, 0, 2, 0, 4, 0, 6, 0])
        pins = bytes([3, 0, 4, 6, 0, 0, 1, 0, 2, 0, 3, 0, 1, 0, 2, 0])
        for number, block in enumerate((head, files, bounds, pins)):
            start = 512 * number
            self.assertEqual(self.data[start : start + len(block)], block)
            self.assertFalse(any(self.data[start + len(block) : start + 510]))
            total = 21845 + sum((i + 1) * byte for i, byte in enumerate(block))
            low, high = total % 256, total // 256 % 256
            self.assertEqual(self.data[start + 510 : start + 512], bytes([low, high]))

    def test_what_was_written_is_read(self):
        for job in small_jobs():
            data = planner.write_job(job)
            counts = job.files, job.recipes, len(job.pins)
            header = (*counts, job.num, job.den, job.cap, 1)
            self.assertEqual(planner.read_job(data), (0, 0, header, job))

    def test_block_counts(self):
        """126 files, 253 bounds and 253 pins to a block; no values, no block."""
        for files, recipes, pins, blocks in (
            (126, 252, 253, 4),
            (127, 252, 253, 5),
            (126, 253, 253, 5),
            (126, 252, 254, 5),
            (1, 1, 0, 3),
            (1024, 1024, 4096, 1 + 9 + 5 + 17),
        ):
            self.assertEqual(len(planner.value_counts(files, recipes, pins)), blocks)

    def test_short_and_long(self):
        for length in (0, 1, 511):
            self.assertEqual(self.answer(self.data[:length]), (20, 0))
        for length in (512, 513, 2047):
            self.assertEqual(self.answer(self.data[:length]), (20, 0))
        self.assertEqual(self.answer(self.data + b"\0"), (20, 0))
        self.assertEqual(self.answer(self.data + self.data[512:1024]), (20, 0))

    def test_wrong_check(self):
        for block in range(4):
            for at in (0, 4, 509, 510, 511):
                data = bytearray(self.data)
                data[512 * block + at] ^= 1
                self.assertEqual(self.answer(bytes(data)), (21, block))

    def test_wrong_layout(self):
        for block in range(4):
            for at, byte in WRONG_LAYOUTS:
                data = self.rechecked(block, at, byte)
                self.assertEqual(self.answer(data), (22, block))

    def test_first_unused_value(self):
        """Both bytes behind the last value of each block."""
        for block, used in enumerate((6, 8, 4, 6)):
            for at in (4 + 2 * used, 5 + 2 * used):
                self.assertEqual(self.answer(self.rechecked(block, at, 1)), (22, block))

    def test_unused_value_of_a_full_file_block(self):
        """126 files take 252 values; the 253rd is unused."""
        data = bytearray(planner.write_job(wide_job(127)))
        data[512 + 508] = 1
        check = planner.block_check(planner.block_at(data, 1))
        data[512 + 510 : 1024] = planner.two_bytes(check)
        self.assertEqual(self.answer(bytes(data)), (22, 1))

    def test_header_of_no_files(self):
        for at in (4, 6):
            self.assertEqual(self.answer(self.rechecked(0, at, 0)), (1, 0))

    def test_header_of_one_file(self):
        """One file and one recipe pass 1, and meet 4: the recipe has no pins."""
        data = planner.write_values((1, 1, 0, 1, 2, 0), [1, 0], [0, 0], [])
        self.assertEqual(self.answer(data), (4, 0))

    def test_header_at_its_most(self):
        job = samples.random_job(random.Random(1), 1024, 1024, longest=4, reach=64)
        self.assertEqual(self.answer(planner.write_job(job)), (0, 0))
        for header in ((1025, 1, 2), (2, 1025, 2), (2, 1, 4097), (65535,) * 3):
            block = planner.make_block(0, 1, header + (1, 2, 0))
            self.assertEqual(self.answer(block), (2, 0))

    def test_second_value_of_a_file(self):
        """Order 5: "22 a file's second value over 5"."""
        for second in range(6):
            self.assertEqual(self.answer(self.rechecked(1, 6, second)), (0, 0))
        for second in (6, 7, 255):
            self.assertEqual(self.answer(self.rechecked(1, 6, second)), (22, 1))
        self.assertEqual(self.answer(self.rechecked(1, 7, 1)), (22, 1))

    def test_reading_stops_after_6(self):
        late = dict(num=0), dict(marks=[PINNED] * 4), dict(sides=[A] * 4), dict(den=4)
        for fields in late:
            data = planner.write_job(self.job.changed(**fields))
            self.assertEqual(self.answer(data), (0, 0))
        for number in (4, 5, 6):
            data = planner.write_job(self.job.changed(**JOB_FAULTS[number]))
            self.assertEqual(self.answer(data)[0], number)

    def test_room(self):
        needed = (4, 4, 4, 4, 6)
        self.assertEqual(self.answer(self.data, needed), (0, 0))
        for k in range(5):
            room = tuple(n - (i == k) for i, n in enumerate(needed))
            self.assertEqual(self.answer(self.data, room), (3, 0))

    def test_program_adds_7_to_10(self):
        for number, fields in ((10, dict(den=4)), *list(JOB_FAULTS.items())[-3:]):
            data = planner.write_job(self.job.changed(**fields))
            self.assertEqual(planner.run_stored(data), f"refused {number} 0\n")
            self.assertEqual(planner.trace(data), f"refused {number} 0\n")


class StoredOrder(unittest.TestCase):
    """ "Order: under 512 bytes 20; block 0 check 21, layout 22; ..." """

    def report(self, planted):
        return planner.run_stored(faults.stored_chain(planted))

    def test_no_fault(self):
        self.assertTrue(self.report([]).startswith("done\n"))

    def test_each_fault_by_itself(self):
        for fault in faults.IN_ORDER:
            (number, place), _ = fault
            self.assertEqual(self.report([fault]), f"refused {number} {place}\n")

    def test_pairs_of_faults(self):
        for early, late in itertools.combinations(faults.IN_ORDER, 2):
            (number, place), _ = early
            for pair in ((early, late), (late, early)):
                self.assertEqual(self.report(pair), f"refused {number} {place}\n")

    def test_under_512_goes_first(self):
        for fault in faults.IN_ORDER:
            data = faults.stored_chain([fault])[:511]
            self.assertEqual(planner.run_stored(data), "refused 20 0\n")

    def test_room_goes_before_the_length(self):
        data = faults.stored_chain([])
        room = (4, 4, 3, 4, 6)
        self.assertEqual(planner.read_job(data[:512], room)[:2], (3, 0))
        # And after 1 and 2.
        none = faults.stored_chain([faults.IN_ORDER[2]])
        self.assertEqual(planner.read_job(none, (0,) * 5)[:2], (1, 0))
        many = faults.stored_chain([faults.IN_ORDER[3]])
        self.assertEqual(planner.read_job(many, (0,) * 5)[:2], (2, 0))


def stored_variants(job):
    """The bytes of a small job with one byte of a block put anew, and checked again."""
    count = planner.stored_length(job) // planner.BLOCK
    for block, at in itertools.product(range(count), range(24)):
        for byte in (*range(8), 100, 255):
            blocks = faults.Blocks(job)
            blocks.set_byte(block, at, byte)
            yield blocks.stored()


class Written(unittest.TestCase):
    """Order 1: the writer, and the stored job with new sides."""

    def written(self, job, step=0):
        """Number and place of a call whose output list is off by so many bytes."""
        output = bytes([165]) * (planner.stored_length(job) + step)
        number, place, after = planner.write(job, output)
        self.assertEqual(after, output if number else planner.write_job(job))
        return number, place

    def refused(self, number, place, **fields):
        job = samples.chain().changed(**fields)
        self.assertEqual(self.written(job), (number, place))

    def test_what_was_written_is_read(self):
        for job in small_jobs():
            number, place, data = planner.write(job, bytes(planner.stored_length(job)))
            self.assertEqual((number, place), (0, 0))
            self.assertEqual(planner.read_job(data)[3], job)

    def test_what_is_accepted_is_written_back(self):
        """Of all files with one byte put anew, those that are accepted."""
        accepted = 0
        for data in stored_variants(samples.chain().changed(marks=[0, 1, 2, 0])):
            number, _, _, job = planner.read_job(data)
            if number == 0:
                accepted += 1
                self.assertEqual(planner.write(job, bytes(len(data))), (0, 0, data))
        self.assertGreater(accepted, 200)

    def test_7_to_10_are_never_given(self):
        """ "The ratio and cap are carried as they are, good or bad." """
        job = samples.chain()
        for fields in (
            *(JOB_FAULTS[number] for number in (7, 8, 9)),
            dict(den=4),
            dict(num=0, den=0),
            dict(num=65535, den=65535, cap=65535),
            dict(num=5, den=1001, marks=[PINNED] * 4, sides=[A] * 4),
        ):
            bad = job.changed(**fields)
            self.assertEqual(self.written(bad), (0, 0))
            self.assertEqual(planner.read_job(planner.write_job(bad))[3], bad)

    def test_first_and_last_places(self):
        self.refused(1, 0, sizes=[])
        self.refused(1, 0, bounds=[0])
        self.refused(1, 0, bounds=[])
        self.refused(2, 0, bounds=[0] * 1026)
        self.refused(2, 0, pins=[0] * 4097)
        self.refused(3, 0, sides=[A, B, A])
        self.refused(3, 0, marks=[FREE] * 5)
        self.refused(4, 0, bounds=[1, 3, 5, 6])
        self.refused(4, 0, bounds=[0, 1, 4, 6])
        self.refused(4, 2, bounds=[0, 2, 5, 6])
        self.refused(4, 3, bounds=[0, 2, 4, 7])
        self.refused(5, 0, pins=[4, 1, 2, 3, 1, 2])
        self.refused(5, 5, pins=[0, 1, 2, 3, 1, 1])
        self.refused(6, 0, sizes=[0, 1, 1, 1])
        self.refused(6, 3, sides=[A, B, A, 2])
        self.refused(6, 3, marks=[2, 2, 2, 3])

    def test_output_list_of_another_length(self):
        for files in (126, 127, 1024):
            for step in (-512, -1, 1, 512):
                self.assertEqual(self.written(wide_job(files), step), (3, 0))
            self.assertEqual(self.written(wide_job(files)), (0, 0))
        self.assertEqual(planner.write(samples.chain(), b""), (3, 0, b""))

    def test_order(self):
        """The lower of two faults; an output list that is too long is one of 3."""
        for low, high in itertools.combinations(range(1, 7), 2):
            job = samples.chain().changed(**{**JOB_FAULTS[high], **JOB_FAULTS[low]})
            self.assertEqual(self.written(job)[0], low)
        for number in range(1, 7):
            job = samples.chain().changed(**JOB_FAULTS[number])
            self.assertEqual(self.written(job, step=1)[0], min(number, 3))

    def test_block_edges(self):
        """Each length, as document 01 counts the blocks."""
        for job, blocks in (
            (samples.chain(), 4),
            (wide_job(126), 4),
            (wide_job(127), 5),
            (wide_job(253), 6),
        ):
            self.assertEqual(planner.stored_length(job), 512 * blocks)


class Resettled(unittest.TestCase):
    """A stored job with the sides after its run."""

    def test_only_the_sides_are_new(self):
        for job in small_jobs():
            data, said = planner.resettle(planner.write_job(job))
            self.assertEqual(said, "")
            sides = planner.run(job).last.sides
            self.assertEqual(planner.read_job(data)[3], job.changed(sides=sides))

    def test_the_chain(self):
        """Sides A, A, A, B: of all bytes those of file 1 change, and the check."""
        old = planner.write_job(samples.chain())
        new, said = planner.resettle(old)
        changed = [at for at in range(len(old)) if old[at] != new[at]]
        self.assertEqual((changed, said), ([512 + 10, 512 + 510], ""))

    def test_refused(self):
        for fault in faults.IN_ORDER:
            (number, place), _ = fault
            told = planner.resettle(faults.stored_chain([fault]))
            self.assertEqual(told, (b"", f"refused {number} {place}\n"))


class Window(unittest.TestCase):
    """Order 2: "smax is over files with mark 0"."""

    def test_the_worked_case(self):
        """It starts at 10, "and A may be 6 or 7"."""
        job = samples.archive()
        self.assertEqual(planner.size_of_a(job, job.sides), 10)
        self.assertEqual(planner.check(job), (9, 0))
        balanced = [size_a for size_a in range(14) if planner.balanced(job, size_a)]
        self.assertEqual(balanced, [6, 7])

    def test_8_stands_before_9(self):
        job = samples.archive().changed(marks=[PINNED] * 4)
        self.assertEqual(planner.check(job), (8, 0))

    def test_window_jobs(self):
        for name, (number, job) in samples.window_jobs().items():
            self.assertEqual(planner.check(job), (number, 0), name)

    def test_everything_else_stays_apart(self):
        """One more file of ten finds room beside the archive, and not all."""
        _, job = samples.window_jobs()["archive_in_a_free_in_b"]
        answer = planner.one_pass(job, job.sides)
        for k in range(answer.tried + 1):
            sides = planner.sides_after(job.sides, moves_of(answer)[:k])
            self.assertIn(planner.size_of_a(job, sides), (60000, 60100))

    def test_measure_and_writer_know_no_window(self):
        job = samples.archive()
        self.assertEqual(planner.measure(job), (0, 0, 1, 10, 0, 0))
        length = planner.stored_length(job)
        self.assertEqual(planner.write(job, bytes(length))[:2], (0, 0))


@functools.cache
def any_starts():
    """Random jobs of few files, about half of which a run refuses as 10."""
    rng = random.Random(3)
    sides = itertools.cycle((A, B, None))
    return [
        samples.unbalanced_job(rng, rng.randint(2, 10), rng.randint(1, 12), side)
        for side in itertools.islice(sides, RANDOM_JOBS)
    ]


@functools.cache
def bad_starts():
    """The same past 10: two in three of them a run refuses as 9."""
    return list(map(opened, any_starts()))


def assignments(job):
    """Every assignment of the free files, as sides."""
    free = [i for i in range(job.files) if job.marks[i] == FREE]
    for chosen in itertools.product((A, B), repeat=len(free)):
        sides = list(job.sides)
        for file, side in zip(free, chosen):
            sides[file] = side
        yield sides


def free_on(job, sides, side):
    return [i for i in range(job.files) if job.marks[i] == FREE and sides[i] == side]


def see_balance(job, start):
    """The moves one by one: each takes from the heavy side what leaves the least cut."""
    answer = planner.balance(job.changed(sides=start))
    sides, moves = list(start), 0
    while not in_window(job, sides):
        heavy = A if off_goal(job, sides)[0] > 0 else B
        afters = [planner.sides_after(sides, [i]) for i in free_on(job, sides, heavy)]
        # Of equals the first, which is that of the lowest file.
        sides = min(afters, key=lambda after: planner.cut(job, after))
        moves += 1
    told = (answer.number, answer.place, answer.moves, answer.sides)
    assert told == (0, 0, moves, sides), "other moves"
    assert answer.cut_after == planner.cut(job, sides), "another cut"
    assert answer.size_a == planner.size_of_a(job, sides), "another size of A"


def see_9(job, start):
    """9 exactly if none of all assignments is balanced."""
    answer = planner.balance(job.changed(sides=start))
    found = any(in_window(job, sides) for sides in assignments(job))
    assert answer.number == (0 if found else 9), "9 is wrong"


def balanceable():
    return [job for job in bad_starts() if planner.balance(job).number == 0]


# As JOB_FAULTS, but no assignment of the free files is balanced: 9 of 12 stay in A.
BALANCE_FAULTS = {
    **JOB_FAULTS,
    9: dict(sizes=[9, 1, 1, 1], sides=[A, B, B, B], marks=[PINNED, 0, 0, 0]),
}


class Balanced(unittest.TestCase):
    """Order 3: the balanced start."""

    def test_9_exactly_if_no_assignment_is_balanced(self):
        refused = 0
        for job in bad_starts():
            see_9(job, job.sides)
            refused += planner.balance(job).number == 9
        self.assertGreater(refused, 20)
        self.assertGreater(RANDOM_JOBS - refused, 100)

    def test_unbalanced_jobs(self):
        for name, (number, moves, job) in samples.unbalanced_jobs().items():
            answer = planner.balance(job)
            told = (answer.number, answer.place, answer.moves)
            self.assertEqual(told, (number, 0, moves), name)
            if number == 0:
                see_balance(job, job.sides)
                after = job.changed(sides=answer.sides)
                self.assertEqual(planner.run(after).number, 0, name)

    def test_moves(self):
        moved = 0
        for job in balanceable():
            see_balance(job, job.sides)
            moved += planner.balance(job).moves > 1
        self.assertGreater(moved, 20)

    def test_the_start_is_balanced_and_runs(self):
        for job in balanceable():
            answer = planner.balance(job)
            after = job.changed(sides=answer.sides)
            self.assertEqual(planner.check(after), (0, 0))
            # A second call finds nothing to do.
            again = planner.balance(after)
            self.assertEqual((again.moves, again.sides), (0, answer.sides))
            self.assertEqual(
                (again.cut_after, again.size_a), (answer.cut_after, answer.size_a)
            )

    def test_one_way_and_free_files_only(self):
        """No file moves twice: as many sides differ as moves were made."""
        for job in balanceable():
            answer = planner.balance(job)
            changed = [i for i in range(job.files) if answer.sides[i] != job.sides[i]]
            self.assertEqual(len(changed), answer.moves)
            self.assertFalse(any(job.marks[i] for i in changed))
            self.assertLessEqual(len({job.sides[i] for i in changed}), 1)

    def test_balanced_starts_stay(self):
        for job in small_jobs():
            answer = planner.balance(job)
            self.assertEqual((answer.number, answer.moves), (0, 0))
            self.assertEqual(answer.sides, list(job.sides))

    def test_the_chain_in_one_vault(self):
        """Gains -1, -2, -2, -1: file 0 moves, and three of four are balanced."""
        for side, sizes in ((A, "3 1"), (B, "1 3")):
            job = samples.chain().changed(sides=[side] * 4)
            data, said = planner.balance_stored(planner.write_job(job))
            self.assertEqual(said, f"done\nmoves 1\ncut 1\nsize {sizes}\n")
            sides = (1 - side, side, side, side)
            self.assertEqual(planner.read_job(data)[3], job.changed(sides=sides))

    def test_gains_as_they_stand_after_each_move(self):
        """Six files in a row, all in A, to B: 0 and then its neighbour, and so on."""
        job = samples.in_a_row([], [(1, A)] * 6, num=1, den=6)
        # W is 6 and smax 1: |A| from 0 up to 2.
        self.assertEqual(planner.balance(job).number, 10)
        # The same with a pinned file of 1 in A, and one of 5 in B.
        answer = planner.balance(samples.past_10(job))
        self.assertEqual(answer.sides, [B, B, B, B, A, A, A, B])
        self.assertEqual((answer.moves, answer.cut_after, answer.size_a), (4, 1, 3))

    def see_refused(self, job, scratch, refused):
        """No number but those of the refusal, and no lent list is changed."""
        answer = planner.balance(job, scratch)
        self.assertEqual((answer.number, answer.place), refused)
        self.assertFalse(answer.moves or answer.cut_after or answer.size_a)
        self.assertEqual((answer.sides, answer.scratch), (list(job.sides), scratch))

    def test_refusals(self):
        for number, fields in BALANCE_FAULTS.items():
            job = samples.chain().changed(**fields)
            scratch = list(range(1, 1 + planner.scratch_numbers(job)))
            self.see_refused(job, scratch, planner.check(job))
            self.assertEqual(planner.check(job)[0], number)

    def test_order_of_the_refusals(self):
        """The lower of two; a scratch that is too short is one of 3."""
        for low, high in itertools.combinations(BALANCE_FAULTS, 2):
            fields = {**BALANCE_FAULTS[high], **BALANCE_FAULTS[low]}
            job = samples.chain().changed(**fields)
            self.assertEqual(planner.balance(job).number, low, (low, high))
        for number, fields in BALANCE_FAULTS.items():
            job = samples.chain().changed(**fields)
            short = [7] * (planner.scratch_numbers(job) - 1)
            self.see_refused(job, short, (min(number, 3), 0))

    def test_scratch(self):
        """P + 4C + 4N + 16 numbers, which is 50 for the chain, hold zeros afterwards."""
        job = samples.chain().changed(sides=[A] * 4)
        for length in (50, 51, 500):
            answer = planner.balance(job, [7] * length)
            self.assertEqual((answer.number, answer.moves), (0, 1))
            self.assertEqual(answer.scratch, [0] * 50 + [7] * (length - 50))
        for length in (0, 49):
            self.see_refused(job, [7] * length, (3, 0))

    def test_9(self):
        """Order 2's archive alone is more than A may hold; and too little in B."""
        for side in (A, B):
            job = samples.in_a_row([(10, side)], [(1, 1 - side)] * 3)
            self.assertEqual(planner.balance(job).number, 9)
            told = planner.balance_stored(planner.write_job(job))
            self.assertEqual(told, (b"", "refused 9 0\n"))

    def test_refused_stored_jobs(self):
        for fault in faults.IN_ORDER[:-1]:
            (number, place), _ = fault
            told = planner.balance_stored(faults.stored_chain([fault]))
            self.assertEqual(told, (b"", f"refused {number} {place}\n"))


# ---- Order 5: files that could not be read


def taken_out(job):
    """The job without its unread files, and without the recipes that then have fewer
    than two; what is left is numbered anew. Beside it the old numbers of both."""
    files = [i for i in range(job.files) if job.marks[i] != UNREAD]
    lists = {}
    for j in range(job.recipes):
        pins = job.pins[job.bounds[j] : job.bounds[j + 1]]
        left = [files.index(pin) for pin in pins if pin in files]
        if len(left) > 1:
            lists[j] = left
    rest = samples.job_of_recipes(
        lists.values(),
        sizes=[job.sizes[i] for i in files],
        sides=[job.sides[i] for i in files],
        marks=[job.marks[i] for i in files],
        num=job.num,
        den=job.den,
        cap=job.cap,
        k=job.k,
    )
    return rest, files, list(lists)


def holding_unread(job):
    """How many recipes hold an unread file, pin by pin."""
    unread = {k for k, pin in enumerate(job.pins) if job.marks[pin] == UNREAD}
    spans = zip(job.bounds, job.bounds[1:])
    return sum(not unread.isdisjoint(range(start, end)) for start, end in spans)


FIGURES = ("cut_before", "cut_after", "size_a", "tried", "kept", "scans")


def see_same_moves(whole, part, files, recipes):
    """The moves, their gains and cuts and their scans, in the old numbers."""
    moves = [files[file] for file in moves_of(part)]
    assert moves_of(whole) == moves, "other moves"
    for name in ("move_gains", "move_cuts", "move_scans"):
        listed = getattr(whole, name)[: whole.tried]
        assert listed == getattr(part, name)[: part.tried], f"another {name}"
    scanned = [recipes[j] for j in part.scan_recipes[: part.scans]]
    assert whole.scan_recipes[: whole.scans] == scanned, "other recipes scanned"
    kinds = whole.scan_kinds[: whole.scans]
    assert kinds == part.scan_kinds[: part.scans], "other kinds of scan"


def see_taken_out(job, start):
    """A pass with unread files is one without them, but for its visits."""
    job = job.changed(sides=start)
    rest, files, recipes = taken_out(job)
    whole, part = planner.one_pass(job, start), planner.one_pass(rest, rest.sides)
    for name in FIGURES:
        assert getattr(whole, name) == getattr(part, name), f"another {name}"
    see_same_moves(whole, part, files, recipes)
    for file in range(job.files):
        if file in files:
            at = files.index(file)
            expected = part.sides[at], part.gains[at]
        else:
            expected = start[file], 0
        assert (whole.sides[file], whole.gains[file]) == expected, "not as without"
    scanned = whole.scan_recipes[: whole.scans]
    lengths = [job.bounds[j + 1] - job.bounds[j] for j in scanned]
    assert whole.visits == sum(lengths), "the visits do not count whole recipes"
    counted = job.files - len(files), holding_unread(job)
    assert whole.unread == counted, "other unread numbers"


def see_start_taken_out(job, start):
    """A balancing with unread files is one without them."""
    job = job.changed(sides=start)
    rest, files, _ = taken_out(job)
    whole, part = planner.balance(job), planner.balance(rest)
    for name in ("number", "place", "moves", "cut_after", "size_a"):
        assert getattr(whole, name) == getattr(part, name), f"another {name}"
    assert [whole.sides[i] for i in files] == part.sides, "other sides"
    counted = job.files - len(files), holding_unread(job)
    assert whole.unread == (counted if whole.number == 0 else (0, 0)), "other numbers"


@functools.cache
def any_unread_starts():
    """Few files, most not balanced, some unread; a recipe of two others is left."""
    rng = random.Random(5)
    jobs = []
    while len(jobs) < RANDOM_JOBS:
        side = (A, B, None)[len(jobs) % 3]
        job = samples.unbalanced_job(rng, rng.randint(3, 10), rng.randint(1, 12), side)
        unread = [i for i in range(job.files) if rng.random() < 0.3]
        job = samples.with_unread(job, *unread)
        if FREE in job.marks and taken_out(job)[2]:
            jobs.append(job)
    return jobs


@functools.cache
def unread_starts():
    """The same past 10."""
    return list(map(opened, any_unread_starts()))


class Unread(unittest.TestCase):
    """Order 5: "files that could not be read"."""

    def test_facts_of_every_pass(self):
        for job in unread_jobs():
            for see in ALL_SEEN:
                see(job, job.sides)

    def test_passes_without_them(self):
        """Also those in which no file is unread, where nothing is taken out."""
        partial = [job for job in unread_jobs() if UNREAD in job.marks]
        self.assertGreater(len(partial), 200)
        for job in (*unread_jobs(), *small_jobs()):
            see_taken_out(job, job.sides)

    def test_runs_without_them(self):
        for job in unread_jobs():
            rest, files, _ = taken_out(job)
            whole, parts = planner.run(job), planner.all_passes(rest)
            self.assertEqual(whole.passes, len(parts))
            last = parts[-1]
            self.assertEqual(whole.settled, last.cut_after == last.cut_before)
            for name in ("tried", "kept", "scans"):
                total = sum(getattr(part, name) for part in parts)
                self.assertEqual(getattr(whole, name), total)
            figures = whole.cut_before, whole.cut_after, whole.size_a
            expected = parts[0].cut_before, last.cut_after, last.size_a
            self.assertEqual(figures, expected)
            self.assertEqual([whole.last.sides[i] for i in files], last.sides)

    def test_checks_without_them(self):
        """1 to 10 of a job is that of the job without them, where a recipe is left."""
        numbers = []
        for job in (*any_unread_starts(), *unread_starts()):
            rest, _, _ = taken_out(job)
            self.assertEqual(planner.check(job), planner.check(rest))
            numbers.append(planner.check(job)[0])
        for number in (0, 9, 10):
            self.assertGreater(numbers.count(number), 50)

    def test_starts_without_them(self):
        for job in unread_starts():
            see_start_taken_out(job, job.sides)
            see_9(job, job.sides)
            if planner.balance(job).number == 0:
                see_balance(job, job.sides)

    def test_unread_jobs(self):
        for name, (number, files, recipes, job) in samples.unread_jobs().items():
            self.assertEqual(planner.check(job), (number, 0), name)
            self.assertEqual(planner.measure(job)[4:], (files, recipes), name)
            told = (files, recipes) if number == 0 else (0, 0)
            self.assertEqual(planner.run(job).unread, told, name)
            if number == 0:
                self.assertEqual(planner.one_pass(job, job.sides).unread, told, name)
                see_taken_out(job, job.sides)

    def test_unread_starts(self):
        for name, (number, moves, job) in samples.unread_starts().items():
            answer = planner.balance(job)
            self.assertEqual((answer.number, answer.moves), (number, moves), name)
            told = planner.measure(job)[4:] if number == 0 else (0, 0)
            self.assertEqual(answer.unread, told, name)
            if number == 0:
                after = job.changed(sides=answer.sides)
                self.assertEqual(planner.check(after), (0, 0), name)

    def test_it_keeps_its_side_and_holds_0(self):
        for job in unread_jobs():
            answer = planner.run(job)
            for file in range(job.files):
                if job.marks[file] == UNREAD:
                    self.assertEqual(answer.last.sides[file], job.sides[file])
                    self.assertEqual(answer.last.gains[file], 0)
                    self.assertNotIn(file, moves_of(answer.last))

    def test_its_side_and_its_size_change_nothing(self):
        rng = random.Random(6)
        for job in unread_jobs():
            unread = [i for i in range(job.files) if job.marks[i] == UNREAD]
            sides, sizes = list(job.sides), list(job.sizes)
            for file in unread:
                sides[file], sizes[file] = rng.randint(A, B), rng.randint(1, 65535)
            other = job.changed(sides=sides, sizes=sizes)
            self.assertEqual(planner.measure(other), planner.measure(job))
            one, two = vars(planner.run(job)), vars(planner.run(other))
            ends = vars(one.pop("last")), vars(two.pop("last"))
            one_left, two_left = (end.pop("sides") for end in ends)
            self.assertEqual((one, ends[0]), (two, ends[1]))
            for file in range(job.files):
                if file in unread:
                    self.assertEqual(two_left[file], sides[file])
                else:
                    self.assertEqual(two_left[file], one_left[file])

    def test_recipe_with_fewer_than_two(self):
        """Of five files one is readable: never cut, no gain, no scan."""
        _, _, _, job = samples.unread_jobs()["recipe_with_1"]
        # File 4 in A, and 7 in B, share a recipe; 6 in A has one with 5 and one with 7.
        self.assertEqual(planner.measure(job)[2:], (3, 2, 4, 2))
        gains = planner.all_gains(job, job.sides)
        self.assertEqual(gains, [0, 0, 0, 0, 1, 1, 2, 2])
        self.assertNotIn("scan 0 ", planner.trace(planner.write_job(job)))

    def test_visits_count_the_whole_recipe(self):
        """m5 with an unread file in its recipe, past 10: six scans of three files."""
        job = samples.with_unread(samples.three_files(), 1)
        self.assertEqual((job.sides[0], job.sides[2]), (A, B))
        self.assertEqual(planner.check(job), (10, 0))
        answer = planner.run(samples.past_10(job))
        self.assertEqual((answer.cut_after, answer.passes), (0, 2))
        self.assertEqual((answer.scans, answer.visits), (6, 18))

    def test_never_summed(self):
        more = [job for job in unread_jobs() if planner.run(job).passes > 1]
        self.assertGreater(len(more), 50)
        for job in more:
            counted = job.marks.count(UNREAD), holding_unread(job)
            self.assertEqual(planner.run(job).unread, counted)

    def test_zeros_when_refused(self):
        """Measure gives them where only 7 to 10 refuse."""
        for number, fields in (*JOB_FAULTS.items(), (10, dict(den=4))):
            if number in (3, 8):
                continue
            job = samples.partial_chain(**fields)
            self.assertEqual(planner.check(job)[0], number)
            self.assertEqual(planner.run(job).unread, (0, 0))
            told = (1, 1) if number > 6 else (0, 0)
            self.assertEqual(planner.measure(job)[4:], told)
            if number != 9:
                self.assertEqual(planner.balance(job).unread, (0, 0))

    def test_recipes_that_hold_one(self):
        """With two or more readable files left, with one, and with none."""
        job = samples.one_of_five()
        for unread in ([1], [1, 2, 3], [1, 2, 3, 0, 4]):
            # Files 0 and 4 are in one more recipe each.
            recipes = 1 + (0 in unread) + (4 in unread)
            found = planner.measure(samples.with_unread(job, *unread))
            self.assertEqual(found[4:], (len(unread), recipes))

    def test_report(self):
        report = planner.run_stored(planner.write_job(samples.partial_chain()))
        self.assertEqual(
            report,
            "partial\nunread 1 1\ncut 2 1\nsize 1 2\npasses 2\nsettled yes\n"
            "kept 1\nvisits 24\nsides BBA?\n",
        )

    def test_trace(self):
        told = planner.trace(planner.write_job(samples.partial_chain()))
        self.assertEqual(
            told.splitlines(),
            ["partial", "unread 1 1"]
            + ["move 0 1 1", "scan 0 2", "scan 0 3"]
            + ["move 1 0 1", "scan 0 1", "scan 2 2", "scan 2 3"]
            + ["move 2 -1 2", "scan 2 1"]
            + ["gains 1 0 -1 0", "cut 2 1", "size 1 2", "tried 3", "kept 1"]
            + ["scans 6", "visits 12", "sides BBA?"],
        )

    def test_balance_tells_it(self):
        """|A| may be 1 or 2: file 0 has a gain of -1, and so has 2, but not 1."""
        job = samples.partial_chain(sides=[A] * 4)
        data, said = planner.balance_stored(planner.write_job(job))
        self.assertEqual(said, "partial\nunread 1 1\nmoves 1\ncut 1\nsize 2 1\n")
        sides = (B, A, A, A)
        self.assertEqual(planner.read_job(data)[3], job.changed(sides=sides))

    def test_resettle_writes_the_marks(self):
        for job in unread_jobs():
            data, said = planner.resettle(planner.write_job(job))
            self.assertEqual(said, "")
            sides = planner.run(job).last.sides
            self.assertEqual(planner.read_job(data)[3], job.changed(sides=sides))

    def test_sizes_add_up(self):
        """ "So A and B add up to W", which is that of the readable files."""
        for job in unread_jobs():
            lines = planner.run_stored(planner.write_job(job)).splitlines()
            (sizes,) = [line for line in lines if line.startswith("size ")]
            in_a, in_b = map(int, sizes.split()[1:])
            rest, _, _ = taken_out(job)
            self.assertEqual(in_a + in_b, sum(rest.sizes))

    def test_stored_as_side_plus_4(self):
        job = samples.chain().changed(marks=[2, 2, 1, 0])
        data = planner.write_job(job)
        self.assertEqual(planner.block_values(data[512:], 8)[1::2], [4, 5, 2, 1])
        self.assertEqual(planner.read_job(data)[3], job)

    def test_round_trips(self):
        for job in unread_jobs():
            length = planner.stored_length(job)
            number, place, data = planner.write(job, bytes(length))
            self.assertEqual((number, place), (0, 0))
            number, _, _, read = planner.read_job(data)
            self.assertEqual((number, read), (0, job))
            self.assertEqual(planner.write(read, bytes(length)), (0, 0, data))

    def test_the_old_reader(self):
        """ "The old reader answers 22 on such a job": it took values up to 3."""
        with mock.patch.object(planner, "MOST_SECOND", 3):
            for job in unread_jobs():
                told = planner.read_job(planner.write_job(job))[:2]
                self.assertEqual(told, (22, 1) if UNREAD in job.marks else (0, 0))


# ---- Order 6: a wider window

ALL_K = (1, *samples.WIDER)


def of_header(*header):
    """The chain's bytes under another header."""
    job = samples.chain()
    return planner.write_values(header, planner.file_values(job), job.bounds, job.pins)


# The chain's own header.
SIX = planner.header_values(samples.chain())


def writable(job):
    """Number and place of the writer's call, and what it leaves in the output list."""
    return planner.write(job, bytes([165]) * planner.stored_length(job))


def see_round_trip(job, start):
    """Written and read, the job is the same; read and written, the bytes are."""
    job = job.changed(sides=start)
    number, place, data = writable(job)
    assert (number, place) == (0, 0), "not written"
    assert data[3] == (6 if job.k == 1 else 7), "another count of values"
    number, place, header, read = planner.read_job(data)
    assert (number, place, read) == (0, 0, job), "another job"
    assert header[3:] == (job.num, job.den, job.cap, job.k), "other figures"
    assert writable(read) == (0, 0, data), "other bytes"


@functools.cache
def bad_starts_at(k):
    """Jobs of few files, most of them not balanced, at this k and past 10."""
    jobs = [opened(job.changed(k=k)) for job in (*any_starts(), *any_unread_starts())]
    # Of large files and a ratio near an end, some would need over 1,024 files for it.
    return [job for job in jobs if job.files < 200]


class Wider(unittest.TestCase):
    """Order 6: "a wider window when asked"."""

    def test_the_window_of_the_archive(self):
        """Of 13 a half is 6.5, and smax is 1: "A may be 6 or 7" at k = 1."""
        for k, low, high in ((1, 6, 7), (2, 5, 8), (3, 4, 9), (4, 3, 10)):
            job = samples.archive().changed(k=k)
            found = [size_a for size_a in range(14) if planner.balanced(job, size_a)]
            self.assertEqual(found, list(range(low, high + 1)))

    def test_m4_at_every_k(self):
        for k, sizes in ((1, [1, 2, 3]), *((k, [0, 1, 2, 3, 4]) for k in (2, 3, 4))):
            job = samples.chain().changed(k=k)
            found = [size_a for size_a in range(5) if planner.balanced(job, size_a)]
            self.assertEqual(found, sizes)

    def test_edges(self):
        """What is met at k is missed at k - 1, and what is missed is met at k + 1."""
        for k in ALL_K:
            found = {**samples.edges(k), **samples.fine_edges(k)}
            self.assertEqual(len(found), 8)
            for name, (number, job) in found.items():
                self.assertEqual(planner.check(job), (number, 0), (name, k))
                if number == 0 and k > 1:
                    self.assertEqual(planner.check(job.changed(k=k - 1)), (9, 0))
                if number and k < 4:
                    self.assertEqual(planner.check(job.changed(k=k + 1)), (0, 0))

    def test_edges_at_1_are_those_of_order_2(self):
        older = samples.window_jobs()
        for name, (number, job) in samples.fine_edges(1).items():
            self.assertEqual(older[name], (number, job))

    def test_wider_jobs(self):
        for name, (number, job) in samples.wider_jobs().items():
            self.assertEqual(planner.check(job), (number, 0), name)

    def test_the_chain_in_one_vault(self):
        """After file 1 file 3 may go to A too: both are kept, and B would be empty. The
        run is refused, and is made with a pinned file in each vault."""
        job = samples.chain().changed(k=2)
        first = planner.one_pass(job, job.sides)
        self.assertEqual(first.move_files, [1, 3, 0, 2])
        self.assertEqual(first.move_gains, [2, 1, -1, -2])
        self.assertEqual(first.move_cuts, [1, 0, 1, 3])
        self.assertEqual((first.kept, first.scans, first.visits), (2, 9, 18))
        second = planner.one_pass(job, first.sides)
        self.assertEqual(second.move_files, [0, 1, 2, 3])
        self.assertEqual((second.move_cuts, second.kept), ([1, 1, 1, 0], 0))
        self.assertEqual(planner.run_stored(planner.write_job(job)), "refused 10 0\n")
        self.assertEqual(
            planner.run_stored(planner.write_job(samples.past_10(job))),
            "done\ncut 3 0\nsize 5 1\npasses 2\nsettled yes\n"
            "kept 2\nvisits 36\nsides AAAAAB\n",
        )

    def test_facts_of_every_pass(self):
        at_1 = [planner.check(job.changed(k=1))[0] for job in wider_jobs()]
        self.assertGreater(at_1.count(9), 150)
        for job in wider_jobs():
            for see in (*ALL_SEEN, see_taken_out, see_round_trip):
                see(job, job.sides)

    def test_every_window_holds_the_one_before(self):
        for job in (*small_jobs(), *unread_jobs()):
            for wider in map(opened, samples.at_each(samples.WIDER, job)):
                self.assertEqual(planner.check(wider), (0, 0))
                see_moves(wider, wider.sides)

    def test_any_other_k_is_7(self):
        """Also where the ratio is wrong, where no file is free and where 9 or 10 would
        be."""
        late = *(JOB_FAULTS[number] for number in (7, 8, 9)), dict(den=4)
        for fields in ({}, *late):
            faulty = samples.chain().changed(**fields)
            for job in samples.at_each(samples.WRONG_K, faulty):
                self.assertEqual(planner.check(job), (7, 0))
                self.assertEqual(planner.run(job), planner.RunAnswer(7, 0))
                answer = planner.balance(job)
                self.assertEqual((answer.number, answer.place, answer.moves), (7, 0, 0))
        for job in samples.at_each(ALL_K, samples.held_chain()):
            self.assertEqual(planner.check(job), (0, 0))
            self.assertEqual(planner.check(job.changed(num=2)), (7, 0))
            self.assertEqual(planner.check(job.changed(marks=[PINNED] * 6)), (8, 0))

    def test_7_stands_after_6(self):
        for number in range(1, 7):
            job = samples.chain().changed(**JOB_FAULTS[number])
            for wrong in samples.at_each(samples.WRONG_K, job):
                self.assertEqual(planner.check(wrong), planner.check(job))
                self.assertEqual(planner.balance(wrong).number, number)
                self.assertEqual(writable(wrong)[:2], planner.check(job))

    def test_measure_does_not_look_at_it(self):
        for job in (samples.chain(), samples.archive(), samples.partial_chain()):
            for other in samples.at_each(samples.ANY_K, job):
                self.assertEqual(planner.measure(other), planner.measure(job))

    def test_the_bytes_themselves(self):
        """Seven values, k low byte first, and all other blocks as at k = 1."""
        six, data = (planner.write_job(samples.chain().changed(k=k)) for k in (1, 3))
        head = bytes([0, 0, 1, 7, 4, 0, 3, 0, 6, 0, 1, 0, 2, 0, 0, 0, 3, 0])
        self.assertEqual(data[:510], head.ljust(510, b"\0"))
        total = 21845 + sum((i + 1) * byte for i, byte in enumerate(head))
        self.assertEqual(data[510:512], bytes([total % 256, total // 256 % 256]))
        self.assertEqual((data[512:], six[3]), (six[512:], 6))

    def test_the_seventh_value(self):
        """ "2, 3 or 4, else 22"; whatever the high byte."""
        for k in (*range(256), *range(256, 65536, 253), 65535):
            data = planner.make_block(0, 1, (*SIX, k))
            # A header by itself is too short.
            told = (20, 0) if k in samples.WIDER else (22, 0)
            self.assertEqual(planner.read_job(data)[:2], told)

    def test_the_count_of_values(self):
        """Every count over a seventh value of 2, and over none."""
        for seventh, count in itertools.product((2, 0), range(256)):
            blocks = faults.Blocks(samples.chain())
            blocks.set_value(0, 6, seventh)
            blocks.set_byte(0, 3, count)
            right = (count, seventh) in ((6, 0), (7, 2))
            told = planner.read_job(blocks.stored())[:2]
            self.assertEqual(told, (0, 0) if right else (22, 0))

    def test_headers_of_five_to_eight(self):
        for header, told in (
            (SIX[:5], (22, 0)),
            (SIX, (0, 0)),
            ((*SIX, 2), (0, 0)),
            ((*SIX, 2, 0), (22, 0)),
            ((*SIX, 2, 2), (22, 0)),
            ((*SIX, 0), (22, 0)),
            ((*SIX, 1), (22, 0)),
        ):
            self.assertEqual(planner.read_job(of_header(*header))[:2], told, header)

    def test_unused_values(self):
        """Both bytes of each value behind the last one."""
        for k, used in ((1, 6), (2, 7)):
            for at in range(4 + 2 * used, planner.CHECKED):
                blocks = faults.Blocks(samples.chain().changed(k=k))
                blocks.set_byte(0, at, 2)
                self.assertEqual(planner.read_job(blocks.stored())[:2], (22, 0))

    def test_the_seventh_figure(self):
        """1 for six values, and zeros when refused."""
        for job in samples.at_each(ALL_K, samples.chain()):
            number, _, header, read = planner.read_job(planner.write_job(job))
            self.assertEqual((number, header, read), (0, (*SIX, job.k), job))
        for k in (0, 1, 5):
            told = planner.read_job(of_header(*SIX, k))
            self.assertEqual(told, (22, 0, (0,) * 7, None))

    def test_22_stands_in_block_0(self):
        """After its check, and before all that follows it."""
        for fault in faults.IN_ORDER:
            wrong = faults.stored_chain([fault, faults.WRONG_SEVENTH], k=2)
            number = 21 if fault[0] == (21, 0) else 22
            self.assertEqual(planner.run_stored(wrong), f"refused {number} 0\n")
        short = of_header(*SIX, 5)
        self.assertEqual(planner.read_job(short[:511])[:2], (20, 0))
        self.assertEqual(planner.read_job(short, (0,) * 5)[:2], (22, 0))

    def test_faults_of_a_seven_value_job(self):
        """Each as in one of six; but all in A is balanced, and so is an empty vault."""
        *before_9, _ = faults.IN_ORDER
        for k, fault in itertools.product(samples.WIDER, before_9):
            (number, place), _ = fault
            data = faults.stored_chain([fault], k)
            refused = f"refused {number} {place}\n"
            self.assertEqual(planner.run_stored(data), refused)
            self.assertEqual(planner.trace(data), refused)
            self.assertEqual(planner.resettle(data), (b"", refused))
            self.assertEqual(planner.balance_stored(data), (b"", refused))
        data = faults.stored_chain(faults.IN_ORDER[-1:], 2)
        self.assertEqual(planner.run_stored(data), "refused 10 0\n")
        _, _, _, job = planner.read_job(data)
        past = planner.write_job(samples.past_10(job))
        self.assertTrue(planner.run_stored(past).startswith("done\n"))

    def test_no_stored_job_gives_7_for_k(self):
        for k in samples.ANY_K:
            told = planner.run_stored(of_header(*SIX, k))
            first = "refused 10 0" if k in samples.WIDER else "refused 22 0"
            self.assertEqual(told.splitlines()[0], first)
        for job in samples.at_each(samples.WIDER, samples.held_chain()):
            told = planner.run_stored(planner.write_job(job))
            self.assertEqual(told.splitlines()[0], "done")

    def test_the_writer(self):
        """7 "last", and "it still carries any ratio"."""
        for job in samples.at_each(samples.ANY_K, samples.chain()):
            for fields in ({}, dict(num=0, den=0), JOB_FAULTS[8], JOB_FAULTS[9]):
                changed = job.changed(**fields)
                if job.k in samples.WRONG_K:
                    kept = bytes([165]) * 2048
                    self.assertEqual(writable(changed), (7, 0, kept))
                else:
                    see_round_trip(changed, changed.sides)
            for length in (0, 2047, 2049, 2560):
                self.assertEqual(planner.write(job, bytes(length))[:2], (3, 0))

    def test_what_is_accepted_is_written_back(self):
        """And no two files mean one job."""
        seen = {}
        mixed = samples.chain().changed(marks=[0, 1, 2, 0])
        for one in samples.at_each(ALL_K, mixed):
            for data in stored_variants(one):
                number, _, _, job = planner.read_job(data)
                if number == 0:
                    self.assertEqual(planner.write(job, bytes(len(data))), (0, 0, data))
                    self.assertEqual(seen.setdefault(job, data), data)
        self.assertEqual({job.k for job in seen}, set(ALL_K))
        self.assertGreater(len(seen), 200)

    def test_round_trips(self):
        for job in (*small_jobs(), *unread_jobs(), *bad_starts()):
            for other in samples.at_each(ALL_K, job):
                see_round_trip(other, other.sides)

    def test_the_old_reader(self):
        """It took six values, and so it answers 22 on seven."""
        jobs = [*small_jobs(), *wider_jobs()]
        with mock.patch.object(planner, "HEADER_COUNTS", (6,)):
            for job in jobs:
                told = planner.read_job(planner.write_job(job))[:2]
                self.assertEqual(told, (0, 0) if job.k == 1 else (22, 0))

    def test_9_exactly_if_no_assignment_is_balanced(self):
        for k in ALL_K:
            refused = 0
            for job in bad_starts_at(k):
                see_9(job, job.sides)
                refused += planner.balance(job).number == 9
            self.assertGreater(refused, 10)

    def test_starts(self):
        for k in ALL_K:
            for name, (number, moves, job) in samples.starts(k).items():
                self.see_start(name, number, moves, job)
        for name, (number, moves, job) in samples.wider_starts().items():
            self.see_start(name, number, moves, job)

    def see_start(self, name, number, moves, job):
        answer = planner.balance(job)
        self.assertEqual((answer.number, answer.moves), (number, moves), (name, job.k))
        if number == 0:
            see_balance(job, job.sides)
            self.assertEqual(planner.check(job.changed(sides=answer.sides)), (0, 0))
        elif job.k < 4:
            # Impossible by one: not so at the next k.
            self.assertEqual(planner.balance(job.changed(k=job.k + 1)).number, 0)

    def test_moves_of_the_balancing(self):
        for k in samples.WIDER:
            moved = 0
            for job in bad_starts_at(k):
                answer = planner.balance(job)
                if answer.number == 0:
                    see_balance(job, job.sides)
                    moved += answer.moves > 1
            self.assertGreater(moved, 20)

    def test_balance_and_resettle_write_k_back(self):
        for job in wider_jobs():
            data, said = planner.resettle(planner.write_job(job))
            after = job.changed(sides=planner.run(job).last.sides)
            self.assertEqual((planner.read_job(data)[3], said), (after, ""))
            one_side = job.changed(sides=[A] * job.files)
            data, _ = planner.balance_stored(planner.write_job(one_side))
            sides = planner.balance(one_side).sides
            if data:
                self.assertEqual(planner.read_job(data)[3], job.changed(sides=sides))

    def test_a_start_that_is_9_at_1(self):
        """One move at k = 1, none at 2: of 12 |A| may be 8."""
        job = samples.held_chain(sides=[A] * 5 + [B])
        self.assertEqual((planner.check(job), planner.balance(job).moves), ((9, 0), 1))
        data = planner.write_job(job.changed(k=2))
        told = "done\nmoves 0\ncut 0\nsize 8 4\n"
        self.assertEqual(planner.balance_stored(data), (data, told))


# ---- Order 7: two stored jobs compared

# What each entry of a lent list is before the call; no record is so.
FILLED = (165, 166, 167, 168)


def lent(length):
    return [FILLED] * length


def figures_of(job):
    """All that is compared of a job, by what it is and its number; a recipe's pins."""
    counts = len(job.sizes), len(job.bounds) - 1, len(job.pins)
    header = (*counts, job.num, job.den, job.cap, job.k)
    figures = {(what, 0): figure for what, figure in enumerate(header, start=1)}
    for what, entries in ((8, job.sizes), (9, job.sides), (10, job.marks)):
        figures |= {(what, file): entry for file, entry in enumerate(entries)}
    for recipe, ends in enumerate(zip(job.bounds, job.bounds[1:])):
        figures[11, recipe] = job.pins[slice(*ends)]
    return figures


def place_in_order(key):
    """The header, then file by file, then recipe by recipe."""
    what, number = key
    return (what > 7) + (what > 10), number, what


def expected_records(old, new):
    """Worked out from the names of all that either job has."""
    olds, news = figures_of(old), figures_of(new)
    records = []
    for key in sorted({*olds, *news}, key=place_in_order):
        empty = () if key[0] == 11 else 0
        both = olds.get(key, empty), news.get(key, empty)
        if both[0] != both[1]:
            records.append((*key, *(map(len, both) if key[0] == 11 else both)))
    return records


# What a comparison has to meet; each raises AssertionError where it does not.


def see_records(old, new):
    """Each figure in which two jobs differ has its record, in order; no other has."""
    assert planner.differences(old, new) == expected_records(old, new), "other records"


def see_equal_bytes(old, new):
    """ "No differences exactly if the stored jobs are byte for byte equal." """
    none = planner.differences(old, new) == []
    assert none == (planner.write_job(old) == planner.write_job(new)), "not exactly"


def see_room(old, new):
    """Lists of just as many records as are needed, of fewer, and of more."""
    stored = planner.write_job(old), planner.write_job(new)
    records = expected_records(old, new)
    needed = len(records)
    for length in {0, needed // 2, max(needed - 1, 0), needed, needed + 1, needed + 9}:
        room = lent(length)
        told = planner.compare(*stored, room)
        assert room == lent(length), "the caller's own list"
        if length < needed:
            assert told == (0, 30, 0, needed, room), "not as too short a list"
        else:
            after = records + lent(length - needed)
            assert told == (0, 0, 0, needed, after), "not as a list that serves"


def see_refused(readings):
    """Two stored jobs, each with its refusal, or 0 and 0: job 1's goes first."""
    (first, old), (second, new) = readings
    job, (number, place) = (1, first) if first[0] else (2, second)
    assert number, "none is refused"
    for length in (0, 1, 40):
        told = planner.compare(old, new, lent(length))
        assert told == (job, number, place, 0, lent(length)), "another refusal"
    printed = f"refused {job} {number} {place}\n".encode()
    assert planner.compare_program(old, new) == printed, "another line"


def bad_readings():
    """Stored chains that the reader refuses, each with its number and place."""
    chain = planner.write_job(samples.chain())
    found = [
        (told, faults.stored_chain([(told, plant)]))
        for told, plant in faults.IN_ORDER
        if told[0] not in (7, 8, 9)
    ]
    found.append(((22, 0), faults.stored_chain([faults.WRONG_SEVENTH], k=2)))
    found += [((20, 0), chain[:length]) for length in (0, 1, 511, 512, 2047)]
    found.append(((20, 0), chain + b"\0"))
    found.append(((21, 0), bytes(512)))
    return found


def good_readings():
    return [
        ((0, 0), planner.write_job(job))
        for job in (samples.chain(), samples.all_kinds()[1], samples.archive())
    ]


def some_jobs():
    """A part of all that are sound, of each sort."""
    return [*small_jobs()[:60], *unread_jobs()[:60], *wider_jobs()[:60]]


@functools.cache
def compared_pairs():
    """Pairs of jobs: those worked out by hand, both ways; random ones with few changes
    and with many, with themselves, and with others."""
    pairs = []
    for old, new, _ in samples.compared_jobs().values():
        pairs += [(old, new), (new, old)]
    rng = random.Random(7)
    jobs = [*small_jobs(), *unread_jobs(), *wider_jobs()]
    for job in rng.sample(jobs, 300):
        pairs.append((job, samples.changed_once(rng, job)))
        pairs.append((samples.changed_often(rng, job, rng.randint(2, 20)), job))
        pairs.append((job, job.changed()))
        pairs.append((job, rng.choice(jobs)))
    return pairs


class Compared(unittest.TestCase):
    """Order 7: "compare last night with tonight"."""

    def stored(self, *jobs):
        return [planner.write_job(job) for job in jobs]

    def test_worked_out_by_hand(self):
        for name, (old, new, records) in samples.compared_jobs().items():
            for job in (old, new):
                self.assertEqual(planner.refusal(job, True, 6), (0, 0), name)
            self.assertEqual(planner.differences(old, new), records, name)
            count = len(records)
            told = planner.compare(*self.stored(old, new), lent(count + 2))
            self.assertEqual(told, (0, 0, 0, count, records + lent(2)), name)

    def test_the_other_way_round(self):
        """The same records with both figures changed for each other."""
        for name, (old, new, records) in samples.compared_jobs().items():
            turned = [(what, number, b, a) for what, number, a, b in records]
            self.assertEqual(planner.differences(new, old), turned, name)

    def test_each_kind_by_itself(self):
        """4 to 11 stand alone; 1 has an 8 with it, 2 and 3 have an 11."""
        alone = set()
        for _, _, records in samples.compared_jobs().values():
            kinds = {what for what, _, _, _ in records}
            if len(records) == 1:
                alone |= kinds
        self.assertEqual(alone, set(range(4, 12)))
        for old, new in compared_pairs():
            kinds = {what for what, _, _, _ in planner.differences(old, new)}
            for count, beside in ((1, 8), (2, 11), (3, 11)):
                self.assertTrue(count not in kinds or beside in kinds)

    def test_all_kinds_at_once(self):
        records = planner.differences(*samples.all_kinds()[:2])
        self.assertEqual({what for what, _, _, _ in records}, set(range(1, 12)))
        # File by file: 8, 9 and 10 of file 0 stand before those of file 4.
        self.assertEqual(
            [what for what, _, _, _ in records],
            [1, 2, 3, 4, 5, 6, 7, 8, 9, 10, 8, 9, 10, 11, 11],
        )

    def test_every_figure_of_the_chain_alone(self):
        """Each of its files and recipes in turn, one figure at a time."""
        job = samples.chain()
        for file in range(4):
            sizes = samples.put(job.sizes, file, 256)
            sides = samples.put(job.sides, file, 1 - job.sides[file])
            marks = samples.put(job.marks, file, 2)
            for fields, record in (
                (dict(sizes=sizes), (8, file, 1, 256)),
                (dict(sides=sides), (9, file, job.sides[file], sides[file])),
                (dict(marks=marks), (10, file, 0, 2)),
            ):
                new = job.changed(**fields)
                self.assertEqual(planner.differences(job, new), [record])
        for recipe, (first, second) in enumerate(samples.CHAIN_RECIPES):
            recipes = samples.put(samples.CHAIN_RECIPES, recipe, [second, first])
            new = samples.with_recipes(job, *recipes)
            self.assertEqual(planner.differences(job, new), [(11, recipe, 2, 2)])

    def test_k_of_six_values_and_of_seven(self):
        for old, new in itertools.product(ALL_K, repeat=2):
            data = self.stored(*samples.at_each((old, new), samples.chain()))
            for k, one in zip((old, new), data):
                self.assertEqual(one[3], 6 if k == 1 else 7)
            printed = b"" if old == new else f"7 0 {old} {new}\n".encode()
            self.assertEqual(planner.compare_program(*data), printed)

    def test_random_pairs(self):
        kinds = set()
        for old, new in compared_pairs():
            see_records(old, new)
            kinds |= {what for what, _, _, _ in planner.differences(old, new)}
        self.assertEqual(kinds, set(range(1, 12)))

    def test_lent_lists(self):
        for old, new in compared_pairs()[:400]:
            see_room(old, new)

    def test_no_room_at_all(self):
        """A list of no records serves where there is no difference, and only there."""
        chain, other = self.stored(samples.chain(), samples.chain(cap=1))
        self.assertEqual(planner.compare(chain, chain, []), (0, 0, 0, 0, []))
        self.assertEqual(planner.compare(chain, other, []), (0, 30, 0, 1, []))

    def test_a_job_with_itself(self):
        for job in (*some_jobs(), mill()):
            data = planner.write_job(job)
            for length in (0, 3):
                told = planner.compare(data, data, lent(length))
                self.assertEqual(told, (0, 0, 0, 0, lent(length)))
            self.assertEqual(planner.compare_program(data, data), b"")

    def test_equal_bytes_of_random_pairs(self):
        equal = 0
        for old, new in compared_pairs():
            see_equal_bytes(old, new)
            equal += planner.differences(old, new) == []
        self.assertGreater(equal, 300)

    def test_equal_bytes_of_all_that_reads(self):
        """Of stored jobs with one byte put anew those that read, each with each."""
        mixed = samples.chain().changed(marks=[0, 1, 2, 0])
        read = {}
        for one in samples.at_each((1, 2), mixed):
            for data in stored_variants(one):
                number, _, _, job = planner.read_job(data)
                if number == 0:
                    read[data] = job
        self.assertGreater(len(read), 200)
        for (old_bytes, old), (new_bytes, new) in itertools.product(
            read.items(), repeat=2
        ):
            none = planner.differences(old, new) == []
            self.assertEqual(none, old_bytes == new_bytes)

    def test_one_byte_is_one_difference(self):
        """Of all bytes of the stored chain put anew, those that still read: one record,
        or two where a file's second value has another side and another mark."""
        chain = planner.write_job(samples.chain())
        counts = set()
        for data in stored_variants(samples.chain()):
            job, number, place, count, records = planner.compare(chain, data, lent(9))
            if number == 0:
                counts.add(count)
                self.assertEqual(count == 0, data == chain)
                if count > 1:
                    self.assertEqual([what for what, *_ in records[:2]], [9, 10])
            else:
                self.assertEqual((job, count, records), (2, 0, lent(9)))
                self.assertEqual((number, place), planner.read_job(data)[:2])
        self.assertEqual(counts, {0, 1, 2})

    def test_damaged_bytes_never_read(self):
        """A byte that is changed and not checked anew is 21, in either job."""
        chain = planner.write_job(samples.chain())
        for at in range(0, len(chain), 23):
            wrong = bytearray(chain)
            wrong[at] ^= 1 << at % 8
            told = 21, at // 512, 0, lent(4)
            self.assertEqual(planner.compare(wrong, chain, lent(4)), (1, *told))
            self.assertEqual(planner.compare(chain, wrong, lent(4)), (2, *told))

    def test_refusals(self):
        """Job 1 bad, job 2 bad, and both."""
        numbers = {number for (number, _), _ in bad_readings()}
        self.assertEqual(numbers, {1, 2, 4, 5, 6, 20, 21, 22})
        for bad, good in itertools.product(bad_readings(), good_readings()):
            see_refused((bad, good))
            see_refused((good, bad))
        for both in itertools.product(bad_readings(), repeat=2):
            see_refused(both)

    def test_equal_bytes_that_are_refused(self):
        """They are no stored jobs: job 1 is refused."""
        for (number, place), data in bad_readings():
            told = planner.compare(data, data, [])
            self.assertEqual(told, (1, number, place, 0, []))

    def test_read_up_to_6(self):
        """What only a run refuses is compared: 7 to 10 of the chain."""
        chain = faults.stored_chain([])
        expected = {
            7: [(4, 0, 1, 2)],
            8: [(10, file, 0, 1) for file in range(4)],
            9: [(9, 1, 1, 0), (9, 3, 1, 0)],
            10: [(5, 0, 2, 4)],
        }
        for fault in (*faults.IN_ORDER[-3:], faults.EMPTY_VAULT):
            (number, _), _ = fault
            data, records = faults.stored_chain([fault]), expected[number]
            self.assertTrue(planner.run_stored(data).startswith(f"refused {number} "))
            told = planner.compare(chain, data, lent(len(records)))
            self.assertEqual(told, (0, 0, 0, len(records), records))
            self.assertEqual(planner.compare(data, data, []), (0, 0, 0, 0, []))

    def test_3_is_never_given(self):
        """The largest jobs have room, whatever list of records is lent."""
        data = self.stored(*samples.most_different())
        for length in (0, 1, 4102):
            self.assertEqual(planner.compare(*data, lent(length))[:3], (0, 30, 0))

    def test_30_comes_after_both(self):
        """A list that is too short, and a job that is refused."""
        chain, other = self.stored(samples.chain(), samples.all_kinds()[1])
        self.assertEqual(planner.compare(chain, other, lent(14))[:4], (0, 30, 0, 15))
        short = planner.compare(chain, other[:-1], lent(14))
        self.assertEqual(short, (2, 20, 0, 0, lent(14)))
        short = planner.compare(chain[:-1], other, lent(14))
        self.assertEqual(short, (1, 20, 0, 0, lent(14)))

    def test_the_most_differences(self):
        """7 + 3·1,024 + 1,024, which is 4,103: all are met at once."""
        old, new = samples.most_different()
        data = self.stored(old, new)
        self.assertEqual(planner.MOST_DIFFERENCES, 4103)
        see_records(old, new)
        for length in (0, 4102):
            told = planner.compare(*data, lent(length))
            self.assertEqual(told, (0, 30, 0, 4103, lent(length)))
        for length in (4103, 4104):
            job, number, place, count, after = planner.compare(*data, lent(length))
            self.assertEqual((job, number, place, count), (0, 0, 0, 4103))
            self.assertEqual(after[4103:], lent(length - 4103))
        records = after[:4103]
        self.assertEqual([what for what, *_ in records[:7]], [1, 2, 3, 4, 5, 6, 7])
        files = [(what, file) for file in range(1024) for what in (8, 9, 10)]
        self.assertEqual([(what, n) for what, n, _, _ in records[7:3079]], files)
        # Of the last file and the last recipe the second job has none.
        last_file = [(8, 1023, 64512, 0), (9, 1023, 1, 0), (10, 1023, 2, 0)]
        self.assertEqual(records[3076:3079], last_file)
        self.assertEqual(records[3079:-1], [(11, j, 4, 4) for j in range(1023)])
        self.assertEqual(records[-1], (11, 1023, 4, 0))
        self.assertEqual(len(planner.compare_program(*data).splitlines()), 4103)

    def test_the_bound(self):
        """7, three of each file that either job has, and one of each recipe."""
        for old, new in compared_pairs():
            files, recipes = max(old.files, new.files), max(old.recipes, new.recipes)
            count = len(planner.differences(old, new))
            self.assertLessEqual(count, 7 + 3 * files + recipes)
        # Met by a job of two files beside the largest.
        small = samples.two_files().changed(sides=[A, A])
        count = len(planner.differences(samples.most_different()[0], small))
        self.assertEqual(count, 4103)

    def test_blocks_of_a_kind(self):
        """The last figure of a block and the first of the next, in the largest job."""
        job = samples.random_job(random.Random(1), 1024, 1024, longest=4, reach=64)
        for file in (0, 125, 126, 251, 252, 1023):
            new = job.changed(sizes=samples.put(job.sizes, file, 999))
            record = (8, file, job.sizes[file], 999)
            self.assertEqual(planner.differences(job, new), [record])
        for recipe in (0, 251, 252, 253, 1023):
            recipes = [*job.whole_recipes]
            recipes[recipe] = recipes[recipe][::-1]
            length = len(recipes[recipe])
            new = samples.with_recipes(job, *recipes)
            self.assertEqual(
                planner.differences(job, new), [(11, recipe, length, length)]
            )

    def test_the_program(self):
        """ "Each record's four numbers on a line, one space between", and no more."""
        for name, (old, new, records) in samples.compared_jobs().items():
            lines = [f"{a} {b} {c} {d}\n" for a, b, c, d in records]
            printed = planner.compare_program(*self.stored(old, new))
            self.assertEqual(printed, "".join(lines).encode(), name)
        self.assertEqual(
            planner.compare_program(*self.stored(*samples.all_kinds()[:2])),
            b"1 0 4 5\n2 0 3 2\n3 0 6 5\n4 0 1 2\n5 0 2 5\n6 0 0 1\n7 0 1 4\n"
            b"8 0 1 2\n9 0 0 1\n10 0 0 1\n8 4 0 3\n9 4 0 1\n10 4 0 2\n"
            b"11 1 2 3\n11 2 2 0\n",
        )

    def test_files_that_cannot_be_opened(self):
        """They count as empty, and so does one that is not named."""
        with tempfile.TemporaryDirectory() as folder:
            there, gone = (pathlib.Path(folder, name) for name in ("there", "gone"))
            there.write_bytes(planner.write_job(samples.chain()))
            for names, printed in (
                ([there, there], b""),
                ([there, gone], b"refused 2 20 0\n"),
                ([there, folder], b"refused 2 20 0\n"),
                ([there], b"refused 2 20 0\n"),
                ([gone, there], b"refused 1 20 0\n"),
                ([gone, gone], b"refused 1 20 0\n"),
                ([], b"refused 1 20 0\n"),
            ):
                self.assertEqual(planner.compare_files(names), printed)

    def test_the_chain_and_its_night(self):
        """File 1 goes from B to A: "AAAB"."""
        old = planner.write_job(samples.chain())
        new, _ = planner.resettle(old)
        self.assertEqual(planner.compare_program(old, new), b"9 1 1 0\n")
        self.assertEqual(planner.compare_program(new, old), b"9 1 0 1\n")

    def test_a_night_changes_sides_alone(self):
        """The records of a job and the job resettled are 9 of the files whose side
        differs, and none where the run keeps the sides."""
        for job in some_jobs():
            old = planner.write_job(job)
            new, _ = planner.resettle(old)
            sides = enumerate(zip(job.sides, planner.run(job).last.sides))
            records = [(9, file, a, b) for file, (a, b) in sides if a != b]
            told = planner.compare(old, new, lent(job.files))
            rest = lent(job.files - len(records))
            self.assertEqual(told, (0, 0, 0, len(records), records + rest))

    def test_the_mill(self):
        """As it came: with a balanced start, and under another ratio."""
        old = planner.write_job(mill())
        balanced, _ = planner.balance_stored(old)
        self.assertEqual(planner.compare_program(old, balanced), b"9 32 1 0\n")
        other = planner.write_job(mill().changed(num=53, den=100, k=2))
        printed = b"4 0 11 53\n5 0 20 100\n7 0 1 2\n"
        self.assertEqual(planner.compare_program(old, other), printed)


# ---- Order 8: no vault may be emptied


def see_10(job, start):
    """10 exactly if all readable files may lie in one vault, as far as the window goes;
    from the check, the run and the balancing alike."""
    job = job.changed(sides=start)
    empty = any(in_window(job, [side] * job.files) for side in (A, B))
    assert (planner.check(job) == (10, 0)) == empty, "10 is wrong"
    assert (planner.run(job) == planner.RunAnswer(10, 0)) == empty, "the run's is"
    assert (planner.balance(job).number == 10) == empty, "the balancing's is"


def see_no_empty_vault(job, start):
    """Of a job past 10: no balanced sides leave a vault empty, and no answer does."""
    job = job.changed(sides=start)
    for sides in assignments(job):
        if in_window(job, sides):
            assert 0 < planner.size_of_a(job, sides) < job.total, "an empty vault"
    for answer in (planner.run(job), planner.balance(job)):
        if answer.number == 0:
            assert 0 < answer.size_a < job.total, "an answer with an empty vault"


def see_past_10(job, start):
    """A job and what samples.past_10 makes of it have the same balanced sides, passes
    and balancings, but for the sizes."""
    job = job.changed(sides=start)
    past = samples.past_10(job)
    assert planner.check(past) in ((0, 0), (9, 0)), "not past 10"
    rest = past.sides[job.files :]
    for sides in assignments(job):
        assert in_window(job, sides) == in_window(past, [*sides, *rest]), "the window"
    if in_window(job, start):
        for one, two in zip(planner.all_passes(job), planner.all_passes(past)):
            assert one.sides == two.sides[: job.files], "other sides"
            for name in ("scan_recipes", "scan_kinds", "visits", "kept", "cut_after"):
                assert getattr(one, name) == getattr(two, name), f"another {name}"
            for name in ("move_files", "move_gains", "move_cuts", "move_scans"):
                part = getattr(two, name)[: job.files]
                assert getattr(one, name) == part, f"another {name}"
    if not planner.no_start_is_balanced(job):
        sides, moves = planner.balancing_moves(job)
        answer = planner.balance(past)
        told = answer.number, answer.moves, answer.sides
        assert told == (0, moves, [*sides, *rest]), "another balancing"


@functools.cache
def any_windows():
    """Jobs of few files at each k, and those that are worked out by hand."""
    found = [*any_starts(), *any_unread_starts()]
    jobs = [job.changed(k=k) for k, job in zip(itertools.cycle(ALL_K), found)]
    for kind in (samples.vault_edges, samples.vault_starts):
        jobs += [job for *_, job in samples.at_each_k(kind).values()]
    return [job for job in jobs if FREE in job.marks]


class NoEmptyVault(unittest.TestCase):
    """Order 8: "no vault may be emptied"."""

    def test_m5(self):
        """Two files of size 1, A and B, ratio 1/2: the worked case of this order."""
        job = samples.two_files()
        self.assertEqual((job.total, job.largest), (2, 1))
        self.assertEqual(planner.check(job), (10, 0))
        self.assertEqual(planner.run(job), planner.RunAnswer(10, 0))
        answer = planner.balance(job, [7] * 50)
        self.assertEqual((answer.number, answer.place, answer.moves), (10, 0, 0))
        # "No lent list changes."
        self.assertEqual((answer.sides, answer.scratch), ([A, B], [7] * 50))
        data = planner.write_job(job)
        self.assertEqual(planner.run_stored(data), "refused 10 0\n")
        self.assertEqual(planner.trace(data), "refused 10 0\n")
        self.assertEqual(planner.resettle(data), (b"", "refused 10 0\n"))
        self.assertEqual(planner.balance_stored(data), (b"", "refused 10 0\n"))

    def test_what_m5_showed(self):
        """With a pinned file of 1 in each vault file 0 moves: cut 0, two passes, 12
        visits."""
        job = samples.past_10(samples.two_files())
        self.assertEqual((job.sizes, job.sides), ((1, 1, 1, 1), (A, B, A, B)))
        first = planner.one_pass(job, job.sides)
        self.assertEqual((first.move_files[0], first.move_cuts[0]), (0, 0))
        answer = planner.run(job)
        self.assertEqual((answer.cut_after, answer.passes, answer.visits), (0, 2, 12))
        self.assertTrue(answer.settled)
        self.assertEqual((answer.size_a, job.total), (1, 4))

    def test_measure_reader_writer_and_compare_never_give_it(self):
        found = {**samples.vault_jobs(), **samples.at_each_k(samples.vault_edges)}
        chain = planner.write_job(samples.chain())
        for name, (number, job) in found.items():
            self.assertEqual(planner.measure(job)[:2], (0, 0), name)
            see_round_trip(job, job.sides)
            data = planner.write_job(job)
            for pair in ((data, data), (chain, data), (data, chain)):
                told = planner.compare(*pair, [(0, 0, 0, 0)] * 1000)
                self.assertEqual(told[:3], (0, 0, 0), name)

    def test_vault_jobs(self):
        for name, (number, job) in samples.vault_jobs().items():
            self.assertEqual(planner.check(job), (number, 0), name)
            self.assertEqual(planner.run(job).number, number, name)
            # A 9 that the balancing does not mend, and all others.
            self.assertEqual(planner.balance(job).number, number, name)

    def test_both_halves_at_each_k(self):
        """Each less by 1, equal and more by 1, in num·W and in what B is to hold."""
        off = {"within_by_1": -1, "hit": 0, "missed_by_1": 1}
        for k in ALL_K:
            seen = []
            for name, (number, job) in samples.vault_edges(k).items():
                self.assertEqual(planner.check(job), (number, 0), (name, k))
                slack = job.den * k * job.largest
                shares = job.num * job.total, (job.den - job.num) * job.total
                for end, by in off.items():
                    if name.endswith(end):
                        half = shares[name.startswith("b_")]
                        self.assertEqual(half - slack, by, (name, k))
                        self.assertEqual(number, 0 if by == 1 else 10)
                        seen.append((name[:2], by))
            for half, by in itertools.product(("a_", "b_"), off.values()):
                self.assertGreaterEqual(seen.count((half, by)), 2)
            self.assertEqual({by for half, by in seen if half == "bo"}, {0, 1})

    def test_what_is_missed_at_k_is_met_at_the_next(self):
        for k in (1, 2, 3):
            for name, (number, job) in samples.vault_edges(k).items():
                wider = planner.check(job.changed(k=k + 1))
                self.assertEqual(wider, (10, 0), name)

    def test_10_by_the_window(self):
        for job in any_windows():
            see_10(job, job.sides)
        numbers = [planner.check(job)[0] for job in any_windows()]
        for number in (0, 9, 10):
            self.assertGreater(numbers.count(number), 40)

    def test_no_vault_is_emptied(self):
        past = [job for job in any_windows() if planner.check(job) != (10, 0)]
        for job in (*past, *bad_starts(), *unread_starts(), *bad_starts_at(3)):
            see_no_empty_vault(job, job.sides)
        for job in (*small_jobs(), *unread_jobs(), *wider_jobs()):
            for one in planner.all_passes(job):
                self.assertTrue(0 < one.size_a < job.total)

    def test_jobs_made_past_10(self):
        refused = [job for job in any_windows() if planner.check(job) == (10, 0)]
        self.assertGreater(len(refused), 200)
        for job in refused:
            see_past_10(job, job.sides)

    def test_it_stands_after_8(self):
        """Also where W is 0, which no test of the window passes."""
        for marks in ([PINNED] * 2, [UNREAD] * 2, [PINNED, UNREAD]):
            for job in samples.at_each(ALL_K, samples.two_files().changed(marks=marks)):
                self.assertEqual(planner.check(job), (8, 0))
                self.assertEqual(planner.balance(job).number, 8)

    def test_it_stands_before_9(self):
        """Starts off the window, from above and from below, and past all mending."""
        were_9 = 0
        for k in ALL_K:
            for name, (number, job) in samples.vault_edges(k).items():
                if number == 10 and not in_window(job, job.sides):
                    were_9 += 1
                    self.assertEqual(planner.balance(job).number, 10)
                    mended = not planner.no_start_is_balanced(job)
                    self.assertEqual(mended, name[2:] == "all_there", name)
        self.assertEqual(were_9, 16)

    def test_stored_order(self):
        """The fault beside each other one, planted before it and after it."""
        for fault in (*faults.BEFORE_10, *faults.AFTER_10):
            first = faults.EMPTY_VAULT if fault in faults.AFTER_10 else fault
            (number, place), _ = first
            refused = f"refused {number} {place}\n"
            for pair in ((fault, faults.EMPTY_VAULT), (faults.EMPTY_VAULT, fault)):
                data = faults.stored_chain(pair)
                self.assertEqual(planner.run_stored(data), refused)
                self.assertEqual(planner.trace(data), refused)
                self.assertEqual(planner.resettle(data), (b"", refused))
                self.assertEqual(planner.balance_stored(data), (b"", refused))

    def test_starts(self):
        for k in ALL_K:
            for name, (number, moves, job) in samples.vault_starts(k).items():
                answer = planner.balance(job)
                told = answer.number, answer.moves
                self.assertEqual(told, (number, moves), (name, k))
                if number == 0:
                    see_balance(job, job.sides)
                    self.assertEqual(planner.check(job), (9, 0))
                    after = job.changed(sides=answer.sides)
                    self.assertEqual(planner.check(after), (0, 0))

    def test_pinned_files_in_w_and_not_in_smax(self):
        m5 = samples.two_files()
        for side, size in itertools.product((A, B), (1, 60000)):
            pinned = samples.with_files(m5, (size, side, PINNED))
            unread = samples.with_files(m5, (size, side, UNREAD))
            free = samples.with_files(m5, (size, side, FREE))
            self.assertEqual((pinned.total, pinned.largest), (2 + size, 1))
            self.assertEqual(planner.check(pinned)[0], 0 if size == 1 else 9)
            self.assertEqual(planner.check(unread), (10, 0))
            self.assertEqual(planner.check(free)[0], 0 if size == 1 else 10)

    def test_the_examples_are_planned(self):
        for job in (samples.chain(), mill().changed(num=53, den=100)):
            self.assertEqual(planner.check(job), (0, 0))
        self.assertEqual(planner.check(mill()), (9, 0))
        self.assertEqual(planner.balance(mill()).number, 0)


# ---- Order 9: the paper's own choice


class Latest:
    """The choice of edition 2 in a second way: one list of the free files, the latest
    entered first. A bucket is what of it has that vault and that gain, in its order."""

    def __init__(self, job, start):
        self.job, self.sides = job, list(start)
        self.gains = planner.all_gains(job, start)
        self.free = [i for i in reversed(range(job.files)) if job.marks[i] == FREE]

    def bucket(self, vault, gain):
        free = [i for i in self.free if self.sides[i] == vault]
        return [i for i in free if self.gains[i] == gain]

    def buckets(self):
        """Those that have a file, of each vault, the highest gain first."""
        gains = sorted({self.gains[i] for i in self.free}, reverse=True)
        return tuple(
            {gain: self.bucket(vault, gain) for gain in gains if self.bucket(vault, gain)}
            for vault in (A, B)
        )

    def offers(self):
        """The front of the highest bucket of each vault that has one, if it is legal,
        with its rank."""
        found = {}
        for vault, buckets in enumerate(self.buckets()):
            for file in list(buckets.values())[:1]:
                after = planner.sides_after(self.sides, file[:1])
                if in_window(self.job, after):
                    off = abs(off_goal(self.job, after)[0])
                    found[file[0]] = (-self.gains[file[0]], off, vault)
        return found

    def move(self, file, scans):
        self.free.remove(file)
        for recipe, kind in scans:
            for other in scanned_files(self.job, self.sides, file, recipe, kind):
                if other in self.free:
                    self.gains[other] += STEPS[kind]
                    self.free.remove(other)
                    self.free.insert(0, other)
        self.sides[file] = 1 - self.sides[file]


def see_fronts(job, start):
    """Each move by edition 2 is that of the better legal front, and the pass stops where
    there is none; the gains by which files stand in their buckets are those counted."""
    answer = planner.one_pass(job, start, 2)
    latest = Latest(job, start)
    for k, (file, scans) in enumerate(zip(moves_of(answer), scans_by_move(answer))):
        offers = latest.offers()
        assert file in offers, "a move that is not of a legal front"
        assert file == min(offers, key=offers.get), "the other front was better"
        assert answer.move_gains[k] == latest.gains[file], "a gain is wrong"
        latest.move(file, scans)
        counted = planner.all_gains(job, latest.sides)
        for other in latest.free:
            assert latest.gains[other] == counted[other], "in a wrong bucket"
        gained = sum(answer.move_gains[: k + 1])
        assert answer.move_cuts[k] == planner.cut(job, latest.sides), "a cut is wrong"
        assert answer.cut_before - gained == answer.move_cuts[k], "no sum"
    assert not latest.offers(), "a legal front was left"


def by_edition(edition):
    """What every pass has to meet, asked of a pass by this edition."""

    def asked(see):
        def seen(job, start):
            by_it = functools.partial(planner.one_pass, edition=edition)
            with mock.patch.object(planner, "one_pass", by_it):
                see(job, start)

        return seen

    return asked


SEEN_BY_2 = (
    see_fronts,
    *map(by_edition(2), (see_replay, see_four_scans, see_best_prefix, see_lists)),
)


def bucket_rows(job, start):
    """The buckets at the start and after each move of the pass by edition 2, by the lists
    of planner.py and in the second way."""
    answer = planner.one_pass(job, start, 2)
    sides, locked = list(start), [mark != FREE for mark in job.marks]
    buckets, latest = planner.full_buckets(job, sides, locked), Latest(job, start)
    rows = []
    for file, scans in zip([None, *moves_of(answer)], [[], *scans_by_move(answer)]):
        if file is not None:
            locked[file] = True
            planner.leave(buckets, sides, file)
            planner.follow_scans(job, sides, locked, buckets, file, scans)
            sides[file] = 1 - sides[file]
            latest.move(file, scans)
        shown = tuple({g: list(of) for g, of in own.items() if of} for own in buckets)
        assert shown == latest.buckets(), "the two ways differ"
        rows.append(shown)
    return rows


class Fronts(unittest.TestCase):
    """Edition 2, worked out by hand."""

    def see(self, name, moves, gains, cuts, ends, scans, buckets, job=None):
        """A pass: its moves with gain, cut and where its scans end, its scans as (recipe,
        kind), and the buckets of A and of B at the start and after every move."""
        job = job or samples.fronts()[name]
        self.assertEqual(planner.check(job), (0, 0))
        answer = planner.one_pass(job, job.sides, 2)
        self.assertEqual(moves_of(answer), moves)
        self.assertEqual(answer.move_gains[: len(moves)], gains)
        self.assertEqual(answer.move_cuts[: len(moves)], cuts)
        self.assertEqual(answer.move_scans[: len(moves)], ends)
        pairs = list(zip(answer.scan_recipes, answer.scan_kinds))
        self.assertEqual(pairs[: answer.scans], scans)
        self.assertEqual(bucket_rows(job, job.sides), buckets)
        see_fronts(job, job.sides)
        return answer

    def test_the_worked_pass(self):
        answer = self.see(
            "worked",
            moves=[7, 1, 3, 5, 2],
            gains=[1, 1, 1, -1, -1],
            cuts=[3, 2, 1, 2, 3],
            ends=[2, 3, 6, 7, 8],
            scans=[(0, 2), (0, 3), (1, 3), (0, 1), (2, 3), (3, 3), (1, 1), (3, 1)],
            buckets=[
                ({3: [3], 0: [5]}, {1: [7, 1], 0: [6, 4, 2]}),
                # 3 is not legal; 7 moves, and 3 is changed twice.
                ({1: [3], 0: [5]}, {1: [1], 0: [6, 4, 2]}),
                # 3 and 1 have one gain; 1 gives the better balance.
                ({1: [3], -1: [5]}, {0: [6, 4, 2]}),
                # 6 is not legal; 3 moves, and 6 is changed twice.
                ({-1: [5]}, {-1: [2, 4], -2: [6]}),
                # 5 and 2 have one gain and one distance; 5 is from A.
                ({}, {-1: [2, 4], -2: [6]}),
                # 2 moves; then 6 stands before 4 and is not legal, and the pass stops.
                ({}, {-1: [6, 4]}),
            ],
        )
        self.assertEqual((answer.cut_before, answer.cut_after), (4, 1))
        self.assertEqual((answer.kept, answer.size_a), (3, 6))
        self.assertEqual((answer.scans, answer.visits), (8, 21))
        self.assertEqual(answer.sides, [A, A, B, B, B, A, B, A])
        self.assertEqual(answer.gains, [0, 1, -1, 1, -1, -1, -1, 1])
        # File 4 could still move.
        job = samples.worked()
        sides = planner.sides_after(job.sides, moves_of(answer))
        locked = [i in (0, *moves_of(answer)) for i in range(8)]
        self.assertEqual(list(legal_moves(job, sides, locked)), [4])

    def test_the_worked_pass_by_edition_1(self):
        """Another first move: of gain 1 too, and nearer."""
        job = samples.worked()
        self.assertEqual(planner.one_pass(job, job.sides).move_files[0], 1)

    def test_the_highest_number_stands_first(self):
        self.see(
            "four",
            moves=[1, 3, 0, 2],
            gains=[0] * 4,
            cuts=[1] * 4,
            ends=[1, 2, 2, 2],
            scans=[(0, 4), (0, 2)],
            buckets=[
                ({0: [1, 0]}, {0: [3, 2]}),
                ({1: [0]}, {0: [3, 2]}),
                ({0: [0]}, {0: [2]}),
                ({}, {0: [2]}),
                ({}, {}),
            ],
        )
        job = samples.fronts()["four"]
        self.assertEqual(planner.one_pass(job, job.sides).move_files[0], 0)

    def test_back_to_its_old_gain(self):
        """File 0 comes back to the front of the bucket in which 1 stood before it."""
        self.see(
            "back",
            moves=[2, 5, 0, 4, 1, 3],
            gains=[0] * 6,
            cuts=[1] * 6,
            ends=[1, 2, 2, 2, 2, 2],
            scans=[(0, 4), (0, 2)],
            buckets=[
                ({0: [2, 1, 0]}, {0: [5, 4, 3]}),
                ({1: [0], 0: [1]}, {0: [5, 4, 3]}),
                ({0: [0, 1]}, {0: [4, 3]}),
                ({0: [1]}, {0: [4, 3]}),
                ({0: [1]}, {0: [3]}),
                ({}, {0: [3]}),
                ({}, {}),
            ],
        )

    def test_better_balance(self):
        """From B; and from A where the vaults are changed for one another."""
        job = samples.fronts()["balance"]
        rows = [
            ({0: [3, 2]}, {0: [1, 0]}),
            ({0: [3, 2]}, {1: [0]}),
            ({0: [2]}, {0: [0]}),
            ({}, {0: [0]}),
            ({}, {}),
        ]
        told = dict(
            moves=[1, 3, 2, 0],
            gains=[0] * 4,
            cuts=[1] * 4,
            ends=[1, 2, 2, 2],
            scans=[(0, 4), (0, 2)],
        )
        self.see("balance", **told, buckets=rows)
        turned = [(in_b, in_a) for in_a, in_b in rows]
        self.see("balance", **told, buckets=turned, job=samples.turned(job))

    def test_pins_in_order(self):
        told = dict(gains=[-1, 0], cuts=[1, 1], ends=[1, 1], scans=[(0, 1)])
        rows = [({-1: [3, 2, 1, 0]}, {}), ({0: [0, 2, 1]}, {}), ({0: [2, 1]}, {})]
        self.see("pins", moves=[3, 0], **told, buckets=rows)
        # The same recipe with its pins rising.
        job = samples.fronts()["pins"].changed(pins=[0, 1, 2, 3])
        rows = [({-1: [3, 2, 1, 0]}, {}), ({0: [2, 1, 0]}, {}), ({0: [1, 0]}, {})]
        self.see("pins", moves=[3, 2], **told, buckets=rows, job=job)

    def test_stops_though_a_legal_move_is_left(self):
        none = dict(moves=[], gains=[], cuts=[], ends=[], scans=[])
        self.see("stops", **none, buckets=[({}, {-1: [2, 1]})])
        job = samples.fronts()["stops"]
        self.assertEqual(moves_of(planner.one_pass(job, job.sides)), [1])
        self.see("none", **none, buckets=[({}, {-1: [2]})])

    def test_every_pass(self):
        for jobs in (small_jobs(), unread_jobs(), wider_jobs()):
            for job in jobs:
                for see in SEEN_BY_2:
                    see(job, job.sides)

    def test_the_two_ways_have_the_same_buckets(self):
        for job in small_jobs()[:100] + unread_jobs()[:50] + wider_jobs()[:50]:
            bucket_rows(job, job.sides)

    def test_one_way_in_a_move(self):
        """In one move a file of the vault it leaves only gains, and one of the other only
        loses: none comes back to its old gain before the next move."""
        for job in small_jobs() + unread_jobs():
            answer = planner.one_pass(job, job.sides, 2)
            sides, locked = list(job.sides), [mark != FREE for mark in job.marks]
            for file, scans in zip(moves_of(answer), scans_by_move(answer)):
                locked[file] = True
                for scan in scans:
                    changed, step = planner.changed_by(job, sides, locked, file, *scan)
                    for other in changed:
                        self.assertEqual(step == 1, sides[other] == sides[file])
                sides[file] = 1 - sides[file]

    def test_one_front_at_most_is_not_legal(self):
        """Where both vaults have a free file, one of the fronts can move: a pass stops only
        once a vault has none. At the ratio 1/2 a legal move is left then only where a file
        is pinned."""
        for job in small_jobs() + unread_jobs() + wider_jobs():
            latest = Latest(job, job.sides)
            answer = planner.one_pass(job, job.sides, 2)
            for file, scans in zip(moves_of(answer), scans_by_move(answer)):
                latest.move(file, scans)
            self.assertFalse(all(latest.buckets()))
            locked = [i not in latest.free for i in range(job.files)]
            if 2 * job.num == job.den and legal_moves(job, latest.sides, locked):
                self.assertIn(PINNED, job.marks)

    def test_without_unread_files(self):
        """The same moves as of the job without them."""
        for job in unread_jobs():
            rest, files, _ = taken_out(job)
            whole = planner.one_pass(job, job.sides, 2)
            part = planner.one_pass(rest, rest.sides, 2)
            self.assertEqual(moves_of(whole), [files[i] for i in moves_of(part)])


# The first that there is not.
NEXT_EDITION = planner.EDITIONS[-1] + 1


class Editions(unittest.TestCase):
    """What is handed to a pass and a run, and what is not."""

    def lent(self, job, edition, step=0):
        def filled(length):
            return [7] * length

        return planner.Lent(
            gains=filled(job.files),
            moves=[filled(job.files + step) for _ in range(4)],
            scans=[filled(4 * job.recipes + step) for _ in range(2)],
            scratch=filled(planner.scratch_numbers(job, edition) + step),
        )

    def calls(self, job, edition, lent):
        for called in (planner.pass_call, planner.run_call):
            yield called(job, edition, lent)

    def test_scratch(self):
        """P is 11, C 8 and N 4."""
        job = samples.worked()
        self.assertEqual(planner.scratch_numbers(job, 1), 11 + 32 + 16 + 16)
        self.assertEqual(planner.scratch_numbers(job, 2), 11 + 32 + 32 + 16)
        for edition in planner.EDITIONS:
            for step in (0, 1, 5):
                lent = self.lent(job, edition, step)
                for number, _, _, _, after in self.calls(job, edition, lent):
                    self.assertEqual(number, 0)
                    named = planner.scratch_numbers(job, edition)
                    self.assertEqual(after.scratch, [0] * named + [7] * step)
                    for one in (*after.moves, *after.scans):
                        self.assertEqual(one[len(one) - step :], [7] * step)
            lent = self.lent(job, edition)
            lent.scratch.pop()
            for number, place, figures, sides, after in self.calls(job, edition, lent):
                self.assertEqual((number, place, any(figures)), (3, 0, False))
                self.assertEqual((sides, after), (list(job.sides), lent))
        # What serves 1 is too short for 2, and the other way round it is not.
        for lent_by, edition, number in ((1, 2, 3), (2, 1, 0)):
            for told in self.calls(job, edition, self.lent(job, lent_by)):
                self.assertEqual(told[0], number)

    def test_32_stands_before_all_other_checks(self):
        for edition in (0, NEXT_EDITION, 4, 255, 256, 257, 258, 259, 65535):
            for fields in ({}, *JOB_FAULTS.values(), {"den": 4}):
                job = samples.chain().changed(**fields)
                self.assertEqual(
                    planner.run(job, False, edition), planner.RunAnswer(32, 0)
                )
                lent = self.lent(samples.chain(), 1)
                for number, place, figures, sides, after in self.calls(job, edition, lent):
                    self.assertEqual((number, place, any(figures)), (32, 0, False))
                    self.assertEqual((sides, after), (list(job.sides), lent))

    def test_editions_are_refused_alike_behind_32(self):
        for job in any_starts():
            told = {planner.edition_refusal(e, job, True) for e in planner.EDITIONS}
            self.assertEqual(told, {planner.check(job)})

    def test_run_is_its_passes(self):
        for job in small_jobs() + wider_jobs():
            answer = planner.run(job, edition=2)
            sides, cuts = job.sides, [planner.cut(job, job.sides)]
            for _ in range(answer.passes):
                one = planner.one_pass(job, sides, 2)
                sides = one.sides
                cuts.append(one.cut_after)
            self.assertEqual((answer.last, answer.cut_after), (one, cuts[-1]))
            self.assertTrue(all(b > a for b, a in zip(cuts, cuts[1:-1])))
            self.assertEqual(answer.settled, cuts[-1] == cuts[-2])
            self.assertLessEqual(answer.passes, cuts[0] + 1)

    def test_the_programs(self):
        job = samples.worked()
        data = planner.write_job(job)
        one, two = planner.run_stored(data), planner.run_stored(data, 2)
        self.assertEqual(planner.edition_program(["1"], data), one)
        self.assertEqual(planner.edition_program(["2"], data), two)
        self.assertNotEqual(one, two)
        self.assertEqual(planner.trace_program([], data), planner.trace(data))
        self.assertEqual(planner.trace_program(["1"], data), planner.trace(data))
        self.assertEqual(planner.trace_program(["2"], data), planner.trace(data, 2))
        self.assertEqual(planner.resettle_program([], data), planner.resettle(data))
        new, said = planner.resettle_program(["2"], data)
        sides = planner.run(job, edition=2).last.sides
        self.assertEqual((new, said), (planner.write_job(job.changed(sides=sides)), ""))
        others = (["0"], [""], ["01"], ["+1"], ["2 "], ["two"], ["1", "2"])
        others = (*others, [str(NEXT_EDITION)])
        for words in others:
            for given in (data, b""):
                refused = "refused 32 0\n"
                self.assertEqual(planner.edition_program(words, given), refused)
                self.assertEqual(planner.trace_program(words, given), refused)
                self.assertEqual(planner.resettle_program(words, given), (b"", refused))
        self.assertEqual(planner.edition_program([], data), "refused 32 0\n")
        for words in (["1"], ["2"]):
            self.assertEqual(planner.edition_program(words, b""), "refused 20 0\n")

    def test_the_trace_of_the_worked_pass(self):
        lines = planner.trace(planner.write_job(samples.worked()), 2).splitlines()
        self.assertEqual(
            lines[:4] + lines[-8:],
            ["done", "move 7 1 3", "scan 0 2", "scan 0 3"]
            + ["gains 0 1 -1 1 -1 -1 -1 1", "cut 4 1", "size 6 7", "tried 5"]
            + ["kept 3", "scans 8", "visits 21", "sides AABBBABA"],
        )
        self.assertEqual(len(lines), 1 + 5 + 8 + 8)


# ---- Order 10: what settled means


def see_settled(job, edition):
    """Of a run that answers settled yes, what is promised of both editions; whether it is
    one."""
    first = planner.run(job, edition=edition)
    if not first.settled:
        return False
    again = planner.run(job.changed(sides=first.last.sides), edition=edition)
    assert again.passes == 1, "a second run makes more than one pass"
    assert again.kept == 0, "a second run keeps a move"
    assert again.last.sides == first.last.sides, "a second run returns other sides"
    assert first.passes <= first.cut_before + 1, "passes over the starting cut plus one"
    return True


def lessening(job, sides):
    """The single legal moves that lessen the cut; every file with mark 0 is free again."""
    now = planner.cut(job, sides)
    singly = {
        file: planner.sides_after(sides, [file])
        for file in range(job.files)
        if job.marks[file] == FREE
    }
    return [
        file
        for file, after in singly.items()
        if in_window(job, after) and planner.cut(job, after) < now
    ]


def see_no_move_lessens(job):
    """Of a run by edition 1 that answers settled yes, what is promised of it alone; whether
    it is one."""
    first = planner.run(job)
    left = first.settled and lessening(job, first.last.sides)
    assert not left, "a single legal move lessens the cut"
    return first.settled


class SettledYes(unittest.TestCase):
    """ "A run that answers settled yes." """

    def jobs(self):
        return small_jobs() + unread_jobs() + wider_jobs()

    def test_a_second_run(self):
        for edition in planner.EDITIONS:
            settled = [see_settled(job, edition) for job in self.jobs()]
            # Some are ended by their cap.
            self.assertGreater(settled.count(True), 500)
            self.assertGreater(settled.count(False), 10)

    def test_no_single_move_lessens_the_cut(self):
        settled = [see_no_move_lessens(job) for job in self.jobs()]
        self.assertGreater(settled.count(True), 500)

    def test_why_not_of_edition_2(self):
        """A's front is file 0, of gain 2, whose move is not legal, so edition 2 stops with
        cut 3; the move of file 3 is legal and leaves 2."""
        job = samples.early()
        self.assertEqual(planner.check(job), (0, 0))
        self.assertEqual(planner.all_gains(job, job.sides), [2, 2, 1, 1])
        answer = planner.run(job, edition=2)
        self.assertEqual((answer.settled, answer.passes, answer.tried), (True, 1, 0))
        self.assertEqual((answer.cut_after, answer.last.sides), (3, list(job.sides)))
        self.assertFalse(in_window(job, planner.sides_after(job.sides, [0])))
        self.assertEqual(lessening(job, job.sides), [3])
        self.assertEqual(planner.cut(job, planner.sides_after(job.sides, [3])), 2)
        self.assertEqual(planner.run(job).cut_after, 2)

    def test_the_next_night(self):
        """ "A night on what `resettle` wrote": the cut twice, one pass, no move kept, and
        the same letters; and `resettle` writes the same again."""
        for edition, job in itertools.product(planner.EDITIONS, self.jobs()):
            data = planner.write_job(job)
            before = planner.run_stored(data, edition).splitlines()
            if "settled yes" not in before:
                continue
            new = planner.resettle(data, edition)[0]
            after = planner.run_stored(new, edition).splitlines()
            cut = before[-7].split()[2]
            self.assertEqual(after[:-7], before[:-7])
            self.assertEqual(after[-7:-5], [f"cut {cut} {cut}", before[-6]])
            self.assertEqual(after[-5:-2], ["passes 1", "settled yes", "kept 0"])
            self.assertEqual(after[-1], before[-1])
            self.assertEqual(planner.resettle(new, edition)[0], new)


# ---- Order 12: foresight in ties


# What a recipe adds to the three levels of a free file, worked out by hand, by its own-side
# number and then its other-side number; MANY is 4 and more, or unlimited, and 3 on the
# other side, which no level asks for.
MANY = "many"
ADDED = {
    1: {0: (-1, 0, 0), 1: (1, -1, 0), 2: (1, 0, -1), MANY: (1, 0, 0)},
    2: {0: (-1, 0, 0), 1: (0, 0, 0), 2: (0, 1, -1), MANY: (0, 1, 0)},
    3: {0: (-1, 0, 0), 1: (0, -1, 1), 2: (0, 0, 0), MANY: (0, 0, 1)},
    MANY: {0: (-1, 0, 0), 1: (0, -1, 0), 2: (0, 0, -1), MANY: (0, 0, 0)},
}


class Segments:
    """Edition 3 in a second way, by source 004's four sets: the free and the locked files
    of each vault. All is counted anew from them at each question, pin by pin, and vectors
    are added up from the table above."""

    def __init__(self, job, start):
        self.job, self.sides = job, list(start)
        self.free = {i for i in range(job.files) if job.marks[i] == FREE}
        self.locked = {i for i in range(job.files) if job.marks[i] == PINNED}

    def pins(self, recipe):
        return self.job.pins[self.job.bounds[recipe] : self.job.bounds[recipe + 1]]

    def incidence(self, recipe, files, side):
        """How many of the recipe's files are of this set and on this side."""
        return sum(pin in files and self.sides[pin] == side for pin in self.pins(recipe))

    def binding(self, recipe, side):
        """None is unlimited."""
        if self.incidence(recipe, self.locked, side):
            return None
        return self.incidence(recipe, self.free, side)

    def counts(self, recipe, file):
        """Whether the recipe is one of the file's that counts."""
        readable = [pin for pin in self.pins(recipe) if pin in self.free | self.locked]
        return file in readable and len(readable) >= 2

    def vector(self, file):
        side, total = self.sides[file], [0, 0, 0]
        for recipe in range(self.job.recipes):
            if self.counts(recipe, file):
                own, other = self.binding(recipe, side), self.binding(recipe, 1 - side)
                own = own if own in (1, 2, 3) else MANY
                other = other if other in (0, 1, 2) else MANY
                total = [a + b for a, b in zip(total, ADDED[own][other])]
        return tuple(total)

    def vectors(self):
        return {file: self.vector(file) for file in sorted(self.free)}

    def bindings(self):
        sides = itertools.product(range(self.job.recipes), (A, B))
        return [self.binding(recipe, side) for recipe, side in sides]

    def offers(self):
        """Every legal file with its rank."""
        found = {}
        for file in sorted(self.free):
            after = planner.sides_after(self.sides, [file])
            if in_window(self.job, after):
                first, second, third = self.vector(file)
                off = abs(off_goal(self.job, after)[0])
                found[file] = (-first, -second, -third, off, file)
        return found

    def move(self, file):
        self.free.remove(file)
        self.locked.add(file)
        self.sides[file] = 1 - self.sides[file]


def see_vectors(job, start):
    """Each move by edition 3 has the greatest vector of all legal moves, then the least
    distance, then the lowest number; the pass stops where there is none; what is listed of
    it is level 1, and no scan is."""
    answer = planner.one_pass(job, start, 3)
    segments = Segments(job, start)
    for k, file in enumerate(moves_of(answer)):
        offers = segments.offers()
        assert file in offers, "a move that is not legal"
        assert file == min(offers, key=offers.get), "a better move was there"
        assert answer.move_gains[k] == -offers[file][0], "a gain is not level 1"
        segments.move(file)
        gained = sum(answer.move_gains[: k + 1])
        assert answer.move_cuts[k] == planner.cut(job, segments.sides), "a cut is wrong"
        assert answer.cut_before - gained == answer.move_cuts[k], "no sum"
    assert not segments.offers(), "a legal move was left"
    for file, vector in segments.vectors().items():
        assert answer.gains[file] == vector[0], "the gain list is not level 1"
    zeros = (answer.move_scans, answer.scan_recipes, answer.scan_kinds)
    assert not any(map(any, zeros)), "a scan is listed"
    assert (answer.scans, answer.visits) == (0, 0), "a scan is counted"


SEEN_BY_3 = (see_vectors, *map(by_edition(3), (see_best_prefix, see_lists)))


def foreseen(job, start):
    """What planner.py looks at before the first move of the pass by edition 3 and after
    each: the sides, the locks, the binding numbers and the vectors."""
    answer = planner.one_pass(job, start, 3)
    sides, locked = list(start), [mark != FREE for mark in job.marks]
    foresight = planner.full_foresight(job, sides, locked)
    yield sides, locked, foresight
    for file in moves_of(answer):
        locked[file] = True
        sides[file] = 1 - sides[file]
        planner.look_anew(job, sides, locked, foresight, file)
        yield sides, locked, foresight


def vector_rows(job, start):
    """The vectors of the free files, in both ways, before the first move and after each."""
    moves = moves_of(planner.one_pass(job, start, 3))
    segments, rows = Segments(job, start), []
    for k, (_, locked, foresight) in enumerate(foreseen(job, start)):
        if k:
            segments.move(moves[k - 1])
        free = [file for file in range(job.files) if not locked[file]]
        rows.append({file: foresight.vectors[file] for file in free})
        assert rows[-1] == segments.vectors(), "the two ways differ"
    return rows


def knowing_3():
    """Order 12 has landed: edition 3 is one that there is."""
    return mock.patch.object(planner, "EDITIONS", (1, 2, 3))


class Foresight(unittest.TestCase):
    """Edition 3, worked out by hand."""

    def see(self, name, moves, gains, cuts, vectors, job=None):
        """A pass: its moves with gain and cut, and the vectors of the free files at the
        start and after every move; and the same with the vaults changed for one another."""
        job = job or samples.foresights()[name]
        for one in (job, samples.turned(job)):
            self.assertEqual(planner.check(one), (0, 0))
            answer = planner.one_pass(one, one.sides, 3)
            self.assertEqual(moves_of(answer), moves)
            self.assertEqual(answer.move_gains[: len(moves)], gains)
            self.assertEqual(answer.move_cuts[: len(moves)], cuts)
            self.assertEqual(vector_rows(one, one.sides), vectors)
            for see in SEEN_BY_3:
                see(one, one.sides)
        return planner.one_pass(job, job.sides, 3)

    def first_by_1(self, name):
        job = samples.foresights()[name]
        return planner.one_pass(job, job.sides).move_files[0]

    def added(self, own_free, own_locked, other_free, other_locked, side=A):
        """What one recipe with so many files adds to the levels of its first."""
        counts = (own_free, own_locked, other_free, other_locked)
        sides = [side] * (own_free + own_locked) + [1 - side] * (other_free + other_locked)
        marks = [mark for mark, n in zip([FREE, PINNED] * 2, counts) for _ in range(n)]
        job = samples.all_free([range(len(sides))], sides).changed(marks=marks)
        locked = [mark != FREE for mark in marks]
        found = planner.full_foresight(job, job.sides, locked).vectors[0]
        self.assertEqual(Segments(job, job.sides).vector(0), found)
        return found

    def test_one_recipe(self):
        """Every row and column of the table, with files enough for it; and a locked file
        beside any number of free ones."""
        numbers = {1: (1, 0), 2: (2, 0), 3: (3, 0), MANY: (4, 0), "far": (9, 0)}
        numbers |= {"a lock": (1, 1), "two": (1, 2), "more": (3, 1), "most": (5, 2)}
        others = {0: (0, 0), 1: (1, 0), 2: (2, 0), MANY: (3, 0), "far": (8, 0)}
        others |= {"a lock": (0, 1), "two": (0, 2), "beside 1": (1, 1), "beside 2": (2, 1)}
        for (own, of_own), (other, of_other) in itertools.product(
            numbers.items(), others.items()
        ):
            if of_own + of_other == (1, 0, 0, 0):
                continue
            told = ADDED[own if own in ADDED else MANY][other if other in (0, 1, 2) else MANY]
            for side in (A, B):
                self.assertEqual(self.added(*of_own, *of_other, side), told)

    def test_source_004_on_one_net(self):
        """Section II: numbers 1 and above 0, "above 0" and 0, 2 and above 0, "above 0" and
        1. Each other number is one that adds nothing else."""
        many = 5
        self.assertEqual(self.added(1, 0, many, 0), (1, 0, 0))
        self.assertEqual(self.added(many, 0, 0, 0), (-1, 0, 0))
        self.assertEqual(self.added(2, 0, many, 0), (0, 1, 0))
        self.assertEqual(self.added(many, 0, 1, 0), (0, -1, 0))
        # By the same words at the third level.
        self.assertEqual(self.added(3, 0, many, 0), (0, 0, 1))
        self.assertEqual(self.added(many, 0, 2, 0), (0, 0, -1))
        # "N is said to be locked with respect to a partition": it is cut for good.
        self.assertEqual(self.added(1, 1, 1, 1), (0, 0, 0))

    def test_one_readable_file(self):
        """In no level, whatever its unread files are; and one that is on no recipe."""
        for sides in itertools.product((A, B), repeat=3):
            job = samples.all_free([[0, 1], [2, 0, 1]], sides)
            job = job.changed(marks=[FREE, UNREAD, UNREAD])
            foresight = planner.full_foresight(job, sides, [False, True, True])
            self.assertEqual(foresight.vectors[0], (0, 0, 0))
            self.assertEqual(foresight.numbers, [[0, 0], [0, 0]])
            self.assertEqual(Segments(job, sides).vector(0), (0, 0, 0))

    def test_a_tie_broken_at_level_2(self):
        answer = self.see(
            "second",
            moves=[1, 0, 4, 2, 3],
            gains=[1, 1, 1, 0, 1],
            cuts=[3, 2, 1, 1, 0],
            vectors=[
                {0: (1, 0, 1), 1: (1, 1, 0), 2: (0, 0, 1), 3: (0, 0, 1), 4: (0, 1, 0)},
                # File 4 is alone now. Of 0 and 4 level 3 decides.
                {0: (1, 0, 1), 2: (0, 0, 1), 3: (0, 0, 1), 4: (1, 0, 0)},
                {2: (0, 1, 0), 3: (0, 1, 0), 4: (1, 0, 0)},
                {2: (0, 1, 0), 3: (0, 1, 0)},
                {3: (1, 0, 0)},
                {},
            ],
        )
        self.assertEqual((answer.cut_before, answer.cut_after, answer.kept), (4, 0, 5))
        self.assertEqual((answer.size_a, answer.gains), (5, [1, 1, 0, 1, 1, 0, 0]))
        self.assertEqual(self.first_by_1("second"), 0)

    def test_a_tie_broken_at_level_3(self):
        self.see(
            "third",
            moves=[1, 0, 2, 3],
            gains=[1, 1, 0, 1],
            cuts=[2, 1, 1, 0],
            vectors=[
                {0: (1, 0, 0), 1: (1, 0, 1), 2: (0, 0, 1), 3: (0, 0, 1)},
                {0: (1, 0, 0), 2: (0, 1, 0), 3: (0, 1, 0)},
                {2: (0, 1, 0), 3: (0, 1, 0)},
                {3: (1, 0, 0)},
                {},
            ],
        )
        self.assertEqual(self.first_by_1("third"), 0)

    def test_a_tie_broken_at_none(self):
        """2·|A| is 5 above 15: without file 1, or 2, it is 1 below, and without 0 it is 3
        above. Then file 2 would take it to 7 below, and last to 9."""
        answer = self.see(
            "alike",
            moves=[1, 0],
            gains=[0, 0],
            cuts=[1, 1],
            vectors=[
                {0: (0, 0, 1), 1: (0, 0, 1), 2: (0, 0, 1)},
                {0: (0, 1, 0), 2: (0, 1, 0)},
                {2: (1, 0, 0)},
            ],
        )
        self.assertEqual((answer.kept, answer.gains), (0, [0, 0, 1, 0, 0]))

    def test_a_bird_in_the_hand(self):
        """Source 004, section VII: 1, 0 is "ordered" above 0, 2."""
        self.see(
            "two_in_the_bush",
            moves=[3, 0, 1, 2],
            gains=[1, 0, 1, 1],
            cuts=[2, 2, 1, 0],
            vectors=[
                {0: (0, 2, 0), 1: (0, 1, 0), 2: (0, 1, 0), 3: (1, 0, 0)},
                {0: (0, 2, 0), 1: (0, 1, 0), 2: (0, 1, 0)},
                {1: (1, 0, 0), 2: (1, 0, 0)},
                {2: (1, 0, 0)},
                {},
            ],
        )

    LOCKS = dict(
        moves=[2, 3, 4, 1, 0],
        gains=[0, 1, 1, 0, -1],
        cuts=[3, 2, 1, 1, 2],
        vectors=[
            # File 4 is not legal.
            {0: (0, -1, 0), 1: (0, 0, 0), 2: (0, 1, 0), 3: (0, 1, 0), 4: (1, 0, 0)},
            # Of 3 and 4 the distance decides.
            {0: (0, -1, 0), 1: (0, 0, 0), 3: (1, 0, 0), 4: (1, 0, 0)},
            {0: (0, -1, 0), 1: (0, 0, 0), 4: (1, 0, 0)},
            {0: (-1, 0, 0), 1: (0, 0, 0)},
            {0: (-1, 0, 0)},
            {},
        ],
    )

    def test_locked_files_on_one_side_and_on_both(self):
        answer = self.see("locks", **self.LOCKS)
        self.assertEqual((answer.kept, answer.size_a), (3, 7))
        self.assertEqual(answer.sides, [A, A, B, B, A, A, B])
        self.assertEqual(answer.gains, [-1, 0, 0, 1, 1, 0, 0])

    def test_unread_files(self):
        answer = self.see("locks_unread", **self.LOCKS)
        self.assertEqual((answer.unread, answer.size_a), ((2, 5), 7))
        self.assertEqual(answer.sides, [A, A, B, B, A, A, B, A, B])
        self.assertEqual(answer.gains, [-1, 0, 0, 1, 1, 0, 0, 0, 0])

    def test_a_file_on_no_recipe(self):
        """It goes before one that loses at level 2; so 2 can follow it, and the cut is 0.
        By edition 1 file 0 goes, and nothing is gained."""
        answer = self.see(
            "lost_at_2",
            moves=[1, 2, 0],
            gains=[0, 1, -1],
            cuts=[1, 0, 1],
            vectors=[
                {0: (0, -1, 0), 1: (0, 0, 0), 2: (1, 0, 0)},
                {0: (0, -1, 0), 2: (1, 0, 0)},
                {0: (-1, 0, 0)},
                {},
            ],
        )
        self.assertEqual((answer.cut_before, answer.cut_after), (1, 0))
        self.assertEqual(self.first_by_1("lost_at_2"), 0)
        self.assertEqual(planner.run(samples.foresights()["lost_at_2"]).cut_after, 1)

    def test_a_loss_at_level_3(self):
        answer = self.see(
            "lost_at_3",
            moves=[1, 2, 0, 3],
            gains=[0] * 4,
            cuts=[1] * 4,
            vectors=[
                {0: (0, 0, -1), 1: (0, 0, 0), 2: (0, 1, 0), 3: (0, 1, 0)},
                {0: (0, 0, -1), 2: (0, 1, 0), 3: (0, 1, 0)},
                # File 2 has moved, and locks the recipe to A.
                {0: (0, -1, 0), 3: (1, 0, 0)},
                # File 0 has moved, and locks it to both.
                {3: (0, 0, 0)},
                {},
            ],
        )
        self.assertEqual((answer.kept, self.first_by_1("lost_at_3")), (0, 0))

    def test_the_chain(self):
        """Both ends of a recipe are free: what is gained at level 1 is lost at level 2."""
        job = samples.chain()
        self.see(
            "chain",
            moves=[1, 2, 0, 3],
            gains=[2, 0, -1, -1],
            cuts=[1, 1, 2, 3],
            vectors=[
                {0: (1, -1, 0), 1: (2, -2, 0), 2: (2, -2, 0), 3: (1, -1, 0)},
                {0: (-1, 0, 0), 2: (0, -1, 0), 3: (1, -1, 0)},
                {0: (-1, 0, 0), 3: (-1, 0, 0)},
                {3: (-1, 0, 0)},
                {},
            ],
            job=job,
        )
        self.see(
            "chain",
            moves=[2, 1, 3, 0],
            gains=[0, 0, -1, 1],
            cuts=[1, 1, 2, 1],
            vectors=[
                {0: (-1, 0, 0), 1: (-2, 0, 0), 2: (0, -1, 0), 3: (1, -1, 0)},
                {0: (-1, 0, 0), 1: (0, 0, 0), 3: (-1, 0, 0)},
                {0: (1, 0, 0), 3: (-1, 0, 0)},
                {0: (1, 0, 0)},
                {},
            ],
            job=job.changed(sides=[A, A, A, B]),
        )

    def test_every_pass(self):
        for jobs in (small_jobs(), unread_jobs(), wider_jobs()):
            for job in jobs:
                for see in SEEN_BY_3:
                    see(job, job.sides)

    def test_level_1_of_a_free_file_is_its_gain(self):
        """By document 01, and by source 004's theorem 1: what the cut loses. No level is
        further from 0 than the file has recipes."""
        for job in small_jobs() + unread_jobs():
            for sides, locked, foresight in foreseen(job, job.sides):
                gains = planner.all_gains(job, sides)
                now = planner.cut(job, sides)
                for file in range(job.files):
                    if locked[file]:
                        continue
                    vector = foresight.vectors[file]
                    self.assertEqual(vector[0], gains[file])
                    after = planner.sides_after(sides, [file])
                    self.assertEqual(vector[0], now - planner.cut(job, after))
                    most = len(job.file_recipes[file])
                    self.assertTrue(all(-most <= one <= most for one in vector))

    def test_the_two_ways_have_the_same_vectors(self):
        for job in small_jobs()[:100] + unread_jobs()[:100] + wider_jobs()[:50]:
            vector_rows(job, job.sides)

    def test_what_is_kept_is_what_would_be_counted(self):
        """Nothing changes but in the recipes of the moved file."""
        for job in small_jobs()[:100] + unread_jobs()[:100]:
            for sides, locked, foresight in foreseen(job, job.sides):
                self.assertEqual(foresight, planner.full_foresight(job, sides, locked))

    def test_a_binding_number_that_grows_is_unlimited(self):
        """Source 004, lemma 4; and then it stays so."""
        for job in small_jobs()[:100] + unread_jobs()[:50]:
            segments = Segments(job, job.sides)
            before = segments.bindings()
            for file in moves_of(planner.one_pass(job, job.sides, 3)):
                segments.move(file)
                after = segments.bindings()
                for old, new in zip(before, after):
                    self.assertTrue(new is None or (old is not None and new <= old))
                before = after

    def test_the_vaults_changed_for_one_another(self):
        for job in small_jobs() + wider_jobs():
            turned = samples.turned(job)
            one, other = (planner.one_pass(j, j.sides, 3) for j in (job, turned))
            self.assertEqual(moves_of(one), moves_of(other))
            self.assertEqual((one.move_cuts, one.gains), (other.move_cuts, other.gains))

    def test_without_unread_files(self):
        """The same moves, gains and cuts as of the job without them."""
        for job in unread_jobs():
            rest, files, _ = taken_out(job)
            whole = planner.one_pass(job, job.sides, 3)
            part = planner.one_pass(rest, rest.sides, 3)
            self.assertEqual(moves_of(whole), [files[i] for i in moves_of(part)])
            for name in ("move_gains", "move_cuts"):
                listed = getattr(whole, name)[: whole.tried]
                self.assertEqual(listed, getattr(part, name)[: part.tried])

    def test_where_nothing_ties_it_is_edition_1(self):
        """The first move on which the two part is one of a tie in gain."""
        parted = 0
        for job in small_jobs() + wider_jobs():
            one, three = (planner.one_pass(job, job.sides, edition) for edition in (1, 3))
            pairs = zip(moves_of(one), moves_of(three))
            at = next((k for k, (a, b) in enumerate(pairs) if a != b), None)
            if at is None:
                self.assertEqual(one.move_files, three.move_files)
                continue
            parted += 1
            self.assertEqual(one.move_gains[: at + 1], three.move_gains[: at + 1])
        self.assertGreater(parted, 50)


@functools.cache
def runs_by_3():
    """Runs without a cap, of jobs of every kind."""
    jobs = [job.changed(cap=0) for job in small_jobs() + unread_jobs() + wider_jobs()]
    with knowing_3():
        return [(job, planner.run(job, edition=3)) for job in jobs]


class SettledBy3(unittest.TestCase):
    """Order 10's statements, of edition 3."""

    def test_no_legal_move_lessens_the_cut(self):
        for job, answer in runs_by_3():
            self.assertTrue(answer.settled)
            locked = [mark != FREE for mark in job.marks]
            legal = legal_moves(job, answer.last.sides, locked)
            self.assertTrue(all(rank[0] >= 0 for rank in legal.values()))

    def test_a_second_run_makes_one_pass_and_keeps_nothing(self):
        for job, answer in runs_by_3():
            after = job.changed(sides=answer.last.sides)
            with knowing_3():
                again = planner.run(after, edition=3)
            self.assertEqual((again.passes, again.kept, again.settled), (1, 0, True))
            self.assertEqual(again.last.sides, answer.last.sides)
            self.assertEqual(again.cut_before, again.cut_after)

    def test_passes_are_at_most_the_starting_cut_and_one(self):
        for _, answer in runs_by_3():
            self.assertLessEqual(answer.passes, answer.cut_before + 1)

    def test_a_run_is_its_passes(self):
        for job in small_jobs() + wider_jobs():
            with knowing_3():
                answer = planner.run(job, edition=3)
            sides, cuts = job.sides, [planner.cut(job, job.sides)]
            for _ in range(answer.passes):
                one = planner.one_pass(job, sides, 3)
                sides = one.sides
                cuts.append(one.cut_after)
            self.assertEqual((answer.last, answer.cut_after), (one, cuts[-1]))
            self.assertTrue(all(b > a for b, a in zip(cuts, cuts[1:-1])))
            self.assertEqual(answer.settled, cuts[-1] == cuts[-2])
            self.assertEqual((answer.scans, answer.visits), (0, 0))


class CallsBy3(unittest.TestCase):
    """What is handed to a pass and a run by edition 3, once it is one that there is."""

    def lent(self, job, step=0, scratch=0):
        return planner.Lent(
            gains=[7] * job.files,
            moves=[[7] * (job.files + step) for _ in range(4)],
            scans=[[7] * (4 * job.recipes + step) for _ in range(2)],
            scratch=[7] * (planner.scratch_numbers(job, 1) + step + scratch),
        )

    def calls(self, job, edition, lent):
        both = planner.pass_call, planner.run_call
        with knowing_3():
            return [called(job, edition, lent) for called in both]

    def test_scratch_as_in_edition_1(self):
        job = samples.worked()
        for edition in (1, 3):
            self.assertEqual(planner.scratch_numbers(job, edition), 11 + 32 + 16 + 16)
        for number, _, _, _, after in self.calls(job, 3, self.lent(job)):
            self.assertEqual((number, any(after.scratch)), (0, False))
        lent = self.lent(job, scratch=-1)
        for number, place, figures, sides, after in self.calls(job, 3, lent):
            self.assertEqual((number, place, any(figures)), (3, 0, False))
            self.assertEqual((sides, after), (list(job.sides), lent))

    def test_zeros_and_what_stays(self):
        job = samples.worked()
        for number, _, figures, _, after in self.calls(job, 3, self.lent(job, 5)):
            self.assertEqual((number, figures[5:7]), (0, (0, 0)))
            self.assertEqual(after.moves[3], [0] * 8 + [7] * 5)
            for one in after.scans:
                self.assertEqual(one, [0] * 16 + [7] * 5)
            self.assertEqual(after.scratch, [0] * 75 + [7] * 5)

    def test_each_list_too_short(self):
        job, right = samples.worked(), self.lent(samples.worked())
        wrong = [dataclasses.replace(right, gains=[7] * n) for n in (7, 9)]
        for at in range(4):
            moves = [one[at == k :] for k, one in enumerate(right.moves)]
            wrong.append(dataclasses.replace(right, moves=moves))
        for at in range(2):
            scans = [one[at == k :] for k, one in enumerate(right.scans)]
            wrong.append(dataclasses.replace(right, scans=scans))
        for lent in wrong:
            for number, place, figures, sides, after in self.calls(job, 3, lent):
                self.assertEqual((number, place, any(figures)), (3, 0, False))
                self.assertEqual((sides, after), (list(job.sides), lent))

    def test_refusals_behind_32_are_those_of_edition_1(self):
        with knowing_3():
            for job in any_starts():
                self.assertEqual(planner.edition_refusal(3, job, True), planner.check(job))
                self.assertEqual(planner.edition_refusal(4, job, True), (32, 0))

    def test_other_editions(self):
        for edition in (0, 4, 5, 255, 256, 257, 258, 259, 515, 32771, 65535):
            job = samples.chain()
            lent = self.lent(job)
            for number, place, figures, sides, after in self.calls(job, edition, lent):
                self.assertEqual((number, place, any(figures)), (32, 0, False))
                self.assertEqual((sides, after), (list(job.sides), lent))

    def test_the_programs(self):
        data = planner.write_job(samples.foresights()["second"])
        with knowing_3():
            self.assertEqual(
                planner.edition_program(["3"], data),
                "done\ncut 4 0\nsize 5 10\npasses 2\nsettled yes\nkept 5\nvisits 0\n"
                "sides BBBBBAB\n",
            )
            self.assertEqual(
                planner.trace_program(["3"], data),
                "done\nmove 1 1 3\nmove 0 1 2\nmove 4 1 1\nmove 2 0 1\nmove 3 1 0\n"
                "gains 1 1 0 1 1 0 0\ncut 4 0\nsize 5 10\ntried 5\nkept 5\nscans 0\n"
                "visits 0\nsides BBBBBAB\n",
            )
            new, said = planner.resettle_program(["3"], data)
            self.assertEqual(planner.edition_program(["4"], data), "refused 32 0\n")
        sides = [B] * 5 + [A, B]
        job = samples.foresights()["second"].changed(sides=sides)
        self.assertEqual((new, said), (planner.write_job(job), ""))


class Mill(unittest.TestCase):
    def test_it_is_balanced_and_then_runs(self):
        data, said = planner.balance_stored(planner.write_job(mill()))
        self.assertTrue(said.startswith("done\n"))
        self.assertTrue(planner.run_stored(data).startswith("done\n"))

    def test_it_is_refused_as_it_came(self):
        """Its archives are pinned, and give no slack: |A| lacks 221 of 39,804."""
        self.assertEqual(planner.check(mill()), (9, 0))

    def test_it_is_sound_near_its_start_and_gains_much(self):
        job = mill().changed(num=53, den=100)
        self.assertEqual((job.files, job.recipes, len(job.pins)), (306, 300, 857))
        self.assertEqual(planner.check(job), (0, 0))
        answer = planner.run(job)
        self.assertTrue(answer.settled)
        self.assertLess(answer.cut_after * 2, answer.cut_before)

    def test_it_is_sound_as_it_came_where_k_is_2(self):
        """Of 21,892.2 |A| lacks 820.2, and smax is 600."""
        job = mill()
        self.assertEqual((planner.size_of_a(job, job.sides), job.largest), (21072, 600))
        self.assertEqual(planner.check(job.changed(k=2)), (0, 0))


# ---- Errors to catch


def scans_with(kind_2_looks, kind_4_looks, t_counts_moved, else_only):
    """scans_of_move with one of document 01's errors put in."""

    def scans(job, sides, locked, file):
        side_to = 1 - sides[file]
        found = []
        for j in job.file_recipes[file]:
            others = [other for other in job.readable_recipes[j] if other != file]
            files_t = [other for other in others if sides[other] == side_to]
            files_f = [other for other in others if sides[other] != side_to]
            counted = len(files_t) + (1 if t_counts_moved else 0)
            before = []
            if counted == 0:
                before.append((j, 1))
            if counted == 1 and not (kind_2_looks and files_t and locked[files_t[0]]):
                before.append((j, 2))
            after = []
            if len(files_f) == 0:
                after.append((j, 3))
            if len(files_f) == 1 and not (kind_4_looks and locked[files_f[0]]):
                after.append((j, 4))
            found += before if else_only and before else before + after
        return found

    return scans


def latest_best_prefix(cuts):
    return len(cuts) - 1 - cuts[::-1].index(min(cuts))


def last_prefix(cuts):
    return len(cuts) - 1


def fails(see, jobs):
    """Whether a test of what a pass has to meet fails on one of these jobs."""
    for job in jobs:
        try:
            see(job, job.sides)
        except AssertionError:
            return True
    return False


def readable_part(job, files):
    return [file for file in files if job.marks[file] != UNREAD]


RIGHT_ENTER = planner.enter


def front_by(from_a, looks_on):
    """choose_front with the rank of the vaults as it is or turned, and with or without a
    look at those behind a front that is not legal."""

    def chosen(job, sides, buckets, gains):
        ranks = []
        for vault in (A, B):
            full = [gain for gain, files in buckets[vault].items() if files]
            files = buckets[vault][max(full)] if full else []
            for file in files if looks_on else files[:1]:
                after = planner.sides_after(sides, [file])
                if in_window(job, after):
                    off = abs(off_goal(job, after)[0])
                    ranks.append((-gains[file], off, from_a * vault, file))
                    break
        return min(ranks)[3] if ranks else None

    return chosen


class CanFail(unittest.TestCase):
    """Each error that document 01 names, and each that an order makes near, is seen by
    the test that is meant for it."""

    def seen(self, see, name, wrong, jobs=None):
        with mock.patch.object(planner, name, wrong):
            return fails(see, jobs or small_jobs())

    def test_right_scans_pass(self):
        """The copy above, with no error put in, is not seen as wrong."""
        right = scans_with(True, True, False, False)
        for see in ALL_SEEN:
            self.assertFalse(self.seen(see, "scans_of_move", right))

    def test_kind_4_of_a_locked_file(self):
        wrong = scans_with(True, False, False, False)
        self.assertTrue(self.seen(see_four_scans, "scans_of_move", wrong))
        with mock.patch.object(planner, "scans_of_move", wrong):
            self.assertEqual(len(Marked().kinds([0, 2, 1])), 5)

    def test_t_after_the_move(self):
        wrong = scans_with(True, True, True, False)
        self.assertTrue(self.seen(see_replay, "scans_of_move", wrong))

    def test_one_adjustment_of_a_two_file_recipe(self):
        wrong = scans_with(True, True, False, True)
        self.assertTrue(self.seen(see_replay, "scans_of_move", wrong))

    def test_latest_best_prefix(self):
        self.assertTrue(self.seen(see_best_prefix, "best_prefix", latest_best_prefix))

    def test_cut_of_the_last_move(self):
        self.assertTrue(self.seen(see_best_prefix, "best_prefix", last_prefix))

    def test_choice_without_the_distance(self):
        def lowest_of_greatest(job, sides, locked, gains):
            legal = legal_moves(job, sides, locked)
            return min(legal, key=lambda i: (-gains[i], i)) if legal else None

        self.assertTrue(self.seen(see_moves, "choose", lowest_of_greatest))

    def test_choice_without_the_balance(self):
        def any_free(job, sides, locked, gains):
            free = [i for i in range(job.files) if not locked[i]]
            return min(free, key=lambda i: (-gains[i], i)) if free else None

        self.assertTrue(self.seen(see_moves, "choose", any_free))

    def test_window_of_all_files(self):
        self.assertTrue(self.seen(see_moves, "balanced", samples.in_wide_window))
        with mock.patch.object(planner, "balanced", samples.in_wide_window):
            self.assertEqual(planner.check(samples.archive()), (0, 0))

    def test_balance_by_the_highest_number(self):
        def highest(job, sides, side):
            gains = planner.all_gains(job, sides)
            return max(free_on(job, sides, side), key=lambda i: (gains[i], i))

        self.assertTrue(self.seen(see_balance, "choose_from", highest, balanceable()))

    def test_balance_by_the_first_gains(self):
        def by_first(job, sides, side):
            gains = planner.all_gains(job, job.sides)
            return max(free_on(job, sides, side), key=lambda i: (gains[i], -i))

        self.assertTrue(self.seen(see_balance, "choose_from", by_first, balanceable()))

    def test_balance_of_pinned_files(self):
        def any_file(job, sides, side):
            gains = planner.all_gains(job, sides)
            files = [i for i in range(job.files) if sides[i] == side]
            return max(files, key=lambda i: (gains[i], -i))

        self.assertTrue(self.seen(see_balance, "choose_from", any_file, balanceable()))

    def test_balance_by_the_pass_s_own_9(self):
        def start_is_not(job):
            return planner.find_9(job, True) == 0

        wrong = ("no_start_is_balanced", start_is_not)
        self.assertTrue(self.seen(see_9, *wrong, bad_starts()))

    def test_settled_after_a_pass_that_lessened_the_cut(self):
        def said_always(job, lent_ok=True, edition=1):
            answer = right(job, lent_ok, edition)
            answer.settled = answer.number == 0
            return answer

        def second_seen(job, _):
            see_settled(job, 1)

        def move_seen(job, _):
            see_no_move_lessens(job)

        right = planner.run
        for see in (second_seen, move_seen):
            self.assertTrue(self.seen(see, "run", said_always, wider_jobs()))

    def test_settled_by_the_least_gain(self):
        def least(job, sides, locked, gains):
            legal = legal_moves(job, sides, locked)
            return max(legal, key=lambda i: (legal[i][0], -i)) if legal else None

        def move_seen(job, _):
            see_no_move_lessens(job)

        self.assertTrue(self.seen(move_seen, "choose", least))

    def job_seen(self, see, name, wrong, jobs):
        """The same with one of a job's own lists or figures worked out wrongly."""
        # Copies, which have worked out nothing yet.
        copies = [job.changed() for job in jobs]
        with mock.patch.object(planner.Job, name, property(wrong)):
            return fails(see, copies)

    def unread_seen(self, see, name, wrong):
        return self.job_seen(see, name, wrong, unread_jobs())

    def test_right_lists_pass(self):
        def weights(job):
            return [size * (mark != UNREAD) for size, mark in zip(job.sizes, job.marks)]

        self.assertFalse(self.unread_seen(see_taken_out, "weights", weights))

    def test_unread_files_that_weigh(self):
        def weights(job):
            return job.sizes

        self.assertTrue(self.unread_seen(see_taken_out, "weights", weights))

    def test_unread_files_that_count(self):
        def whole(job):
            return job.whole_recipes

        self.assertTrue(self.unread_seen(see_taken_out, "readable_recipes", whole))

    def test_recipe_of_one_readable_file(self):
        def readable(job):
            return [readable_part(job, files) for files in job.whole_recipes]

        self.assertTrue(self.unread_seen(see_taken_out, "readable_recipes", readable))

    def test_visits_of_readable_files(self):
        def readable(job):
            recipes = range(job.recipes)
            views = [planner.view(job.bounds, job.pins, j) for j in recipes]
            return [readable_part(job, files) for files in views]

        self.assertTrue(self.unread_seen(see_four_scans, "whole_recipes", readable))

    def test_unread_recipes_counted_by_pin(self):
        def by_pin(job):
            pins = [pin for pin in job.pins if job.marks[pin] == UNREAD]
            return job.marks.count(UNREAD), len(pins)

        self.assertTrue(self.unread_seen(see_taken_out, "unread", by_pin))

    def test_unread_recipes_that_are_planned(self):
        def planned(job):
            kept = zip(job.whole_recipes, job.readable_recipes)
            return job.marks.count(UNREAD), sum(0 < len(p) < len(w) for w, p in kept)

        self.assertTrue(self.unread_seen(see_taken_out, "unread", planned))

    def wider_seen(self, see, name, wrong):
        return self.seen(see, name, wrong, wider_jobs())

    def test_k_that_is_not_looked_at(self):
        def at_1(job):
            return job.largest

        for see, jobs in ((see_moves, wider_jobs()), (see_9, bad_starts_at(2))):
            self.assertTrue(self.job_seen(see, "tolerance", at_1, jobs))

    def test_k_on_one_side(self):
        for name in ("too_small", "too_large"):
            right = getattr(planner, name)

            def at_1(job, size_a, right=right):
                return right(job.changed(k=1), size_a)

            self.assertTrue(self.wider_seen(see_moves, name, at_1))
            self.assertTrue(self.seen(see_9, name, at_1, bad_starts_at(2)))

    def test_9_of_the_narrow_window(self):
        right = planner.no_start_is_balanced

        def at_1(job):
            return right(job.changed(k=1))

        for k in samples.WIDER:
            wrong = ("no_start_is_balanced", at_1)
            self.assertTrue(self.seen(see_9, *wrong, bad_starts_at(k)))

    def test_k_that_is_not_written(self):
        right = planner.header_values

        def six(job):
            return right(job.changed(k=1))

        self.assertTrue(self.wider_seen(see_round_trip, "header_values", six))

    def test_k_that_is_always_written(self):
        right = planner.header_values

        def seven(job):
            return (*right(job.changed(k=1)), job.k)

        self.assertTrue(self.seen(see_round_trip, "header_values", seven))
        self.assertFalse(self.wider_seen(see_round_trip, "header_values", seven))

    def pair_seen(self, see, name, wrong, pairs=None):
        """Whether a test of what a comparison has to meet sees the error."""
        with mock.patch.object(planner, name, wrong):
            for pair in pairs or compared_pairs()[:400]:
                try:
                    see(*pair)
                except AssertionError:
                    return True
        return False

    def refusal_pairs(self):
        """Each as the one thing that see_refused is given."""
        bad, good = bad_readings(), good_readings()
        both = *itertools.product(bad, bad), *itertools.product(bad, good)
        return [(readings,) for readings in (*both, *itertools.product(good, bad))]

    def test_right_comparing_passes(self):
        for name in ("recipe_difference", "first_refused", "compare", "differences"):
            right = getattr(planner, name)
            for see in (see_records, see_equal_bytes, see_room):
                self.assertFalse(self.pair_seen(see, name, right))
            refused = see_refused, name, right, self.refusal_pairs()
            self.assertFalse(self.pair_seen(*refused))

    def test_pins_of_equal_lengths_not_looked_at(self):
        def by_length(recipe, old, new):
            return [(11, recipe, len(old), len(new))] if len(old) != len(new) else []

        for see in (see_records, see_equal_bytes, see_room):
            self.assertTrue(self.pair_seen(see, "recipe_difference", by_length))

    def test_pins_compared_in_any_order(self):
        def by_files(recipe, old, new):
            differ = sorted(old) != sorted(new)
            return [(11, recipe, len(old), len(new))] if differ else []

        for see in (see_records, see_equal_bytes):
            self.assertTrue(self.pair_seen(see, "recipe_difference", by_files))

    def wrong_differences(self, change):
        """differences with its records changed by a wrong rule, of both jobs."""
        right = planner.differences
        return lambda old, new: change(old, new, right(old, new))

    def test_pins_compared_as_one_list(self):
        """Recipes of other bounds over the same pins are not looked at."""

        def as_one(old, new, records):
            return [r for r in records if r[0] != 11 or old.pins != new.pins]

        wrong = "differences", self.wrong_differences(as_one)
        for see in (see_records, see_equal_bytes):
            self.assertTrue(self.pair_seen(see, *wrong))

    def test_files_that_both_have(self):
        def shared(old, new, records):
            files = min(old.files, new.files)
            return [r for r in records if not 8 <= r[0] <= 10 or r[1] < files]

        wrong = "differences", self.wrong_differences(shared)
        self.assertTrue(self.pair_seen(see_records, *wrong))

    def test_recipes_that_both_have(self):
        def shared(old, new, records):
            recipes = min(old.recipes, new.recipes)
            return [r for r in records if r[0] != 11 or r[1] < recipes]

        wrong = "differences", self.wrong_differences(shared)
        self.assertTrue(self.pair_seen(see_records, *wrong))

    def test_kind_by_kind(self):
        """All sizes, then all sides, then all marks."""

        def by_kind(old, new, records):
            return sorted(records)

        wrong = "differences", self.wrong_differences(by_kind)
        self.assertTrue(self.pair_seen(see_records, *wrong))

    def test_new_figure_before_the_old(self):
        def turned(old, new, records):
            return [(what, number, b, a) for what, number, a, b in records]

        wrong = "differences", self.wrong_differences(turned)
        self.assertTrue(self.pair_seen(see_records, *wrong))

    def test_k_that_is_not_compared(self):
        right = planner.header_figures

        def six(job):
            return right(job)[:6]

        for see in (see_records, see_equal_bytes):
            self.assertTrue(self.pair_seen(see, "header_figures", six))

    def test_header_without_k_as_0(self):
        right = planner.header_figures

        def with_0(job):
            return (*right(job)[:6], job.k if job.k > 1 else 0)

        self.assertTrue(self.pair_seen(see_records, "header_figures", with_0))

    def test_mark_that_is_not_compared(self):
        right = planner.file_figures

        def no_mark(job, file):
            return right(job, file)[:2]

        for see in (see_records, see_equal_bytes):
            self.assertTrue(self.pair_seen(see, "file_figures", no_mark))

    def test_refusal_of_job_2_first(self):
        def last_refused(readings):
            job, found = 0, (0, 0)
            for at, (number, place, _, _) in enumerate(readings, start=1):
                if number:
                    job, found = at, (number, place)
            return job, *found

        wrong = "first_refused", last_refused, self.refusal_pairs()
        self.assertTrue(self.pair_seen(see_refused, *wrong))

    def wrong_compare(self, change):
        """compare with its answer changed by a wrong rule, which is told the list."""
        right = planner.compare

        def compare(old_bytes, new_bytes, room):
            return change(room, *right(old_bytes, new_bytes, room))

        return compare

    def test_records_in_too_short_a_list(self):
        def what_fits(room, job, number, place, count, after):
            if number == 30:
                after = [(1, 0, 0, 0)] * len(room)
            return job, number, place, count, after

        wrong = "compare", self.wrong_compare(what_fits)
        self.assertTrue(self.pair_seen(see_room, *wrong))

    def test_list_that_just_serves_refused(self):
        def refused(room, job, number, place, count, after):
            if number == 0 and 0 < count == len(room):
                number, after = 30, room
            return job, number, place, count, after

        wrong = "compare", self.wrong_compare(refused)
        self.assertTrue(self.pair_seen(see_room, *wrong))

    def test_entries_beyond_in_zeros(self):
        def zeros(room, job, number, place, count, after):
            if number == 0:
                after = after[:count] + [(0, 0, 0, 0)] * (len(room) - count)
            return job, number, place, count, after

        wrong = "compare", self.wrong_compare(zeros)
        self.assertTrue(self.pair_seen(see_room, *wrong))

    def test_30_without_the_number_needed(self):
        def none(room, job, number, place, count, after):
            return job, number, place, 0 if number == 30 else count, after

        wrong = "compare", self.wrong_compare(none)
        self.assertTrue(self.pair_seen(see_room, *wrong))

    def test_refusal_that_changes_the_list(self):
        def cleared(room, job, number, place, count, after):
            if job:
                after = [(0, 0, 0, 0)] * len(room)
            return job, number, place, count, after

        wrong = "compare", self.wrong_compare(cleared), self.refusal_pairs()
        self.assertTrue(self.pair_seen(see_refused, *wrong))

    def finder_seen(self, wrong, see=see_10):
        """Whether a test of 10 sees another finder of it."""
        with mock.patch.dict(planner.FINDERS, {10: wrong}):
            return fails(see, any_windows())

    def find_10_of(self, allowed):
        """A finder by num·W, den·k·smax and den·W."""

        def find(job, lent_ok):
            goal, slack = job.num * job.total, job.den * job.tolerance
            return planner.place_if(allowed(goal, slack, job.den * job.total))

        return find

    def test_halves_of_10(self):
        """The right one, each half alone, and each with an edge that is not in it, or
        with 1 more than the edge."""
        right = self.find_10_of(lambda a, s, w: a <= s or a + s >= w)
        self.assertFalse(self.finder_seen(right))
        for wrong in (
            lambda a, s, w: a <= s,
            lambda a, s, w: a + s >= w,
            lambda a, s, w: a <= s and a + s >= w,
            lambda a, s, w: a < s or a + s >= w,
            lambda a, s, w: a <= s or a + s > w,
            lambda a, s, w: a <= s + 1 or a + s >= w,
            lambda a, s, w: a <= s or a + s + 1 >= w,
        ):
            self.assertTrue(self.finder_seen(self.find_10_of(wrong)))

    def test_10_of_another_job(self):
        """At k = 1; with pinned or unread files in smax; with unread ones in W, and
        without pinned ones."""

        def marked(job, old, new):
            marks = [new if mark == old else mark for mark in job.marks]
            return job.changed(marks=marks)

        for other in (
            lambda job: job.changed(k=1),
            lambda job: marked(job, PINNED, FREE),
            lambda job: marked(job, UNREAD, FREE),
            lambda job: marked(job, UNREAD, PINNED),
            lambda job: marked(job, PINNED, UNREAD),
        ):
            right = planner.find_10
            self.assertTrue(self.finder_seen(lambda job, ok: right(other(job), ok)))

    def test_10_at_its_wrong_place(self):
        """After 9, and not at all."""
        late = dict(sorted(planner.FINDERS.items()))
        none = {number: find for number, find in late.items() if number != 10}
        for finders in (late, none):
            with mock.patch.object(planner, "FINDERS", finders):
                self.assertTrue(fails(see_10, any_windows()))
        with mock.patch.object(planner, "FINDERS", none):
            self.assertTrue(fails(see_no_empty_vault, any_windows()))

    def fronts_seen(self, name, wrong):
        return self.seen(see_fronts, name, wrong)

    def test_a_changed_file_that_enters_the_back(self):
        right = planner.full_buckets

        def back(buckets, sides, file, gain):
            buckets[sides[file]].setdefault(gain, []).append(file)

        def filled(job, sides, locked):
            with mock.patch.object(planner, "enter", RIGHT_ENTER):
                return right(job, sides, locked)

        with mock.patch.object(planner, "full_buckets", filled):
            self.assertTrue(self.fronts_seen("enter", back))
            self.assertFalse(self.fronts_seen("enter", RIGHT_ENTER))

    def test_files_that_enter_in_falling_number(self):
        def falling(job, sides, locked):
            buckets, gains = ({}, {}), planner.all_gains(job, sides)
            for file in reversed(range(job.files)):
                if not locked[file]:
                    planner.enter(buckets, sides, file, gains[file])
            return buckets

        self.assertTrue(self.fronts_seen("full_buckets", falling))

    def test_the_front_of_b_of_two_equal_ones(self):
        self.assertFalse(self.fronts_seen("choose_front", front_by(1, False)))
        self.assertTrue(self.fronts_seen("choose_front", front_by(-1, False)))

    def test_a_look_at_the_next_of_the_bucket(self):
        self.assertTrue(self.fronts_seen("choose_front", front_by(1, True)))

    def test_pins_from_the_last(self):
        right = planner.changed_by

        def reversed_pins(*scan):
            files, step = right(*scan)
            return files[::-1], step

        self.assertTrue(self.fronts_seen("changed_by", reversed_pins))

    def test_a_file_that_stays_where_it_is(self):
        """Changed twice, it enters once; that is seen where it passes another file."""

        def once(job, sides, locked, buckets, file, scans):
            total = {}
            for scan in scans:
                changed, step = planner.changed_by(job, sides, locked, file, *scan)
                for other in changed:
                    total[other] = total.get(other, 0) + step
            for other, step in total.items():
                planner.enter(buckets, sides, other, planner.leave(buckets, sides, other) + step)

        self.assertTrue(self.fronts_seen("follow_scans", once))

    def vectors_seen(self, name, wrong, jobs=None):
        return self.seen(see_vectors, name, wrong, jobs)

    def numbers_with(self, counted):
        """binding_number by another count of the files there, free and locked ones."""

        def number(job, sides, locked, recipe, side):
            there = [i for i in job.readable_recipes[recipe] if sides[i] == side]
            free = [i for i in there if not locked[i]]
            pinned = [i for i in there if job.marks[i] == PINNED]
            return counted(len(free), len(there) - len(free), len(pinned))

        return number

    def test_binding_numbers(self):
        """The right one; a locked file counted as free, or not at all; unlimited taken for
        0, or for one file; pinned files alone that lock, and moved ones alone."""
        unlimited = planner.UNLIMITED
        right = self.numbers_with(lambda f, l, p: unlimited if l else f)
        self.assertFalse(self.vectors_seen("binding_number", right))
        for wrong in (
            lambda f, l, p: f + l,
            lambda f, l, p: f,
            lambda f, l, p: 0 if l else f,
            lambda f, l, p: 1 if l else f,
            lambda f, l, p: unlimited if p else f + l,
            lambda f, l, p: unlimited if p else f,
            lambda f, l, p: unlimited if l > p else f + p,
        ):
            self.assertTrue(self.vectors_seen("binding_number", self.numbers_with(wrong)))

    def levels_with(self, more, less):
        """counts_for by other tests of the own-side and the other-side number."""
        return lambda i, own, other: more(i, own, other) - less(i, own, other)

    def test_levels(self):
        """The right ones; nothing added, or nothing taken off; other-side number i, or i - 1
        or less; own-side number i - 1, or up to i; no look at whether the recipe is cut."""

        def more(i, own, other):
            return own == i and other > 0

        def less(i, own, other):
            return own > 0 and other == i - 1

        right = self.levels_with(more, less)
        self.assertFalse(self.vectors_seen("counts_for", right))
        for wrong in (
            (lambda i, own, other: i == 1 and more(i, own, other), less),
            (more, lambda i, own, other: i == 1 and less(i, own, other)),
            (more, lambda i, own, other: other == (0, 2, 3)[i - 1]),
            (more, lambda i, own, other: other <= i - 1),
            (lambda i, own, other: own == (1, 1, 2)[i - 1] and other > 0, less),
            (lambda i, own, other: own <= i and other > 0, less),
            (lambda i, own, other: own == i, less),
        ):
            self.assertTrue(self.vectors_seen("counts_for", self.levels_with(*wrong)))

    def chosen_with(self, rank):
        """choose_by_vector by another rank of the vector, the distance and the number."""

        def chosen(job, sides, locked, vectors):
            ranks = {}
            for file in range(job.files):
                after = planner.sides_after(sides, [file])
                if not locked[file] and in_window(job, after):
                    least = tuple(-one for one in vectors[file])
                    off = abs(off_goal(job, after)[0])
                    ranks[file] = rank(least, off, file)
            return min(ranks, key=ranks.get) if ranks else None

        return chosen

    def test_choices_by_vector(self):
        """The right one; compared from the last level; without the third, and without the
        second; the distance before level 2, and before level 3; no distance; the highest
        number; and the sum of the levels."""
        right = self.chosen_with(lambda v, off, i: (v, off, i))
        self.assertFalse(self.vectors_seen("choose_by_vector", right))
        for wrong in (
            lambda v, off, i: (v[::-1], off, i),
            lambda v, off, i: (v[:2], off, i),
            lambda v, off, i: (v[0], v[2], off, i),
            lambda v, off, i: (v[0], off, v[1:], i),
            lambda v, off, i: (v[:2], off, v[2], i),
            lambda v, off, i: (v, i),
            lambda v, off, i: (v, off, -i),
            lambda v, off, i: (sum(v), off, i),
        ):
            self.assertTrue(self.vectors_seen("choose_by_vector", self.chosen_with(wrong)))

    def test_vectors_that_are_not_looked_at_anew(self):
        """Not at all; the numbers alone; and as if the moved file were free still."""

        def none(job, sides, locked, foresight, moved):
            pass

        def numbers_alone(job, sides, locked, foresight, moved):
            for j in job.file_recipes[moved]:
                numbers = planner.binding_numbers(job, sides, locked, j)
                foresight.numbers[j] = numbers
                foresight.counted[j] = planner.counts_for_all(*numbers)

        def before_the_lock(job, sides, locked, foresight, moved):
            still = [lock and i != moved for i, lock in enumerate(locked)]
            right(job, sides, still, foresight, moved)

        right = planner.look_anew
        for wrong in (none, numbers_alone, before_the_lock):
            self.assertTrue(self.vectors_seen("look_anew", wrong))

    def test_unread_files_in_a_level(self):
        """Counted as locked files; a recipe of one readable file; counted as free files."""

        def whole(job):
            return job.whole_recipes

        def readable(job):
            return [readable_part(job, files) for files in job.whole_recipes]

        self.assertTrue(self.unread_seen(see_vectors, "readable_recipes", whole))
        self.assertTrue(self.unread_seen(see_vectors, "readable_recipes", readable))

        def as_free(job, sides, locked, recipe, side):
            files = job.whole_recipes[recipe] if job.readable_recipes[recipe] else []
            there = [i for i in files if sides[i] == side]
            if any(locked[i] and job.marks[i] != UNREAD for i in there):
                return planner.UNLIMITED
            return len(there)

        self.assertTrue(self.vectors_seen("binding_number", as_free, unread_jobs()))

    def test_gains_that_are_not_level_1(self):
        right = planner.listed_gains

        def not_kept(job, stood, move_files, move_gains):
            return list(stood)

        def of_the_end(job, stood, move_files, move_gains):
            return right(job, stood, [], [])

        asked = by_edition(3)(see_lists)
        for wrong in (not_kept, of_the_end):
            self.assertTrue(self.seen(asked, "listed_gains", wrong))

    def test_gain_list_of_the_end(self):
        def not_kept(job, sides, move_files, move_gains):
            return planner.all_gains(job, sides)

        self.assertTrue(self.seen(see_lists, "end_gains", not_kept))

    def test_gain_without_pinned_files(self):
        def only_free(job, sides):
            free = [mark == FREE for mark in job.marks]
            gains = [0] * job.files
            for files in job.whole_recipes:
                seen = [sides[f] for f in files if free[f]]
                for f in files:
                    alone = seen.count(sides[f]) == 1
                    none_there = seen.count(1 - sides[f]) == 0
                    gains[f] += alone - none_there
            return gains

        self.assertTrue(self.seen(see_moves, "all_gains", only_free))


if __name__ == "__main__":
    unittest.main()
