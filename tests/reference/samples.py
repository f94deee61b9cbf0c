"""Jobs for tests: those that the documents give, those at the edges of the window,
those with unread files, those with a wider window, those to be compared, those whose
window reaches an empty vault or just not, those whose fronts or vectors are worked out by
hand, and random ones."""

from math import gcd

from planner import A, B, FREE, PINNED, UNREAD, Job
from planner import balancing_moves, no_start_is_balanced, refusal, size_of_a


def chain(cap=0):
    """The chain case, whole."""
    return Job(
        sizes=[1, 1, 1, 1],
        sides=[A, B, A, B],
        marks=[FREE] * 4,
        bounds=[0, 2, 4, 6],
        pins=[0, 1, 2, 3, 1, 2],
        num=1,
        den=2,
        cap=cap,
    )


def two_files():
    """m5: two files of size 1, one recipe {0,1}, sides A, B, ratio 1/2."""
    return Job([1, 1], [A, B], [FREE] * 2, [0, 2], [0, 1], 1, 2, 0)


def three_files():
    """m6: recipe {0,1,2}, files 0 and 1 in A, 2 in B, all free."""
    return Job([1] * 3, [A, A, B], [FREE] * 3, [0, 3], [0, 1, 2], 1, 2, 0)


def bounds_and_pins(recipes):
    """The two lists of recipes that are given as lists of files."""
    bounds, pins = [0], []
    for files in recipes:
        pins += files
        bounds.append(len(pins))
    return {"bounds": bounds, "pins": pins}


def job_of_recipes(recipes, **fields):
    """A job whose recipes are given as lists of files."""
    return Job(**bounds_and_pins(recipes), **fields)


# ---- Order 2: the window of the free files


def in_a_row(pinned, free, num=1, den=2):
    """Pinned files and then free ones, as (size, side), each in a recipe with the next."""
    files = [*pinned, *free]
    return job_of_recipes(
        [[i, i + 1] for i in range(len(files) - 1)],
        sizes=[size for size, _ in files],
        sides=[side for _, side in files],
        marks=[PINNED] * len(pinned) + [FREE] * len(free),
        num=num,
        den=den,
        cap=0,
    )


def in_turn(size, files):
    """So many files of one size, A and B in turn."""
    return [(size, i % 2) for i in range(files)]


def archive():
    """Order 2's: "sizes 10 (pinned in A), 1, 1, 1 with ratio 1/2 and the others in B"."""
    return in_a_row([(10, A)], [(1, B)] * 3)


def window_jobs():
    """By name, with the number that each is refused as, or 0."""
    huge_in_a, huge_in_b = [(60000, A)], [(60000, B)]
    light = in_turn(100, 10)
    lone = [(8, B), (7, B), (7, A)]
    return {
        "archive": (9, archive()),
        # Under the ratio of its start, and where everything else should go to B.
        "archive_in_a": (0, in_a_row(huge_in_a, light, 992, 1000)),
        "archive_in_a_halved": (9, in_a_row(huge_in_a, light)),
        "archive_in_a_free_in_b": (0, in_a_row(huge_in_a, [(100, B)] * 10, 984, 1000)),
        "archive_in_b": (0, in_a_row(huge_in_b, light, 8, 1000)),
        "archive_in_b_halved": (9, in_a_row(huge_in_b, light)),
        "archive_in_b_free_in_a": (0, in_a_row(huge_in_b, [(100, A)] * 10, 16, 1000)),
        "archives_on_both_sides": (0, in_a_row(huge_in_a + huge_in_b, light)),
        "archives_uneven": (9, in_a_row(huge_in_a + [(59000, B)], light)),
        "archives_evened": (0, in_a_row(huge_in_a + [(59000, B)], [(100, B)] * 10)),
        "free_of_one_size": (
            0,
            in_a_row([(3, A), (9, B), (27, A), (2, B)], in_turn(5, 12), 3, 5),
        ),
        # smax is 50: the largest of all files, and the largest but a pinned one.
        "second_largest_pinned": (0, in_a_row([(49, B)], [(50, A)] + in_turn(3, 5))),
        "largest_pinned_by_one": (0, in_a_row([(51, B)], [(50, A)] + in_turn(3, 5))),
        # One free file, the smallest: it can move, it cannot, and no start is balanced.
        "smallest_free_alone": (0, in_a_row([(9, A)] + lone, [(1, B)])),
        "smallest_free_alone_held": (0, in_a_row([(11, A)] + lone, [(1, B)])),
        "smallest_free_alone_missed": (9, in_a_row([(12, A)] + lone, [(1, B)])),
        # W is 14 and smax 1: |A| from 6 up to 8.
        "low_edge_hit": (0, in_a_row([(6, A)], [(1, B)] * 8)),
        "low_edge_hit_by_free": (0, in_a_row([(6, B)], [(1, A)] * 6 + [(1, B)] * 2)),
        "low_edge_missed": (9, in_a_row([(6, B)], [(1, A)] * 5 + [(1, B)] * 3)),
        "high_edge_hit": (0, in_a_row([(6, B)], [(1, A)] * 8)),
        "high_edge_hit_by_free": (0, in_a_row([(6, A)], [(1, A)] * 2 + [(1, B)] * 6)),
        "high_edge_missed": (9, in_a_row([(6, A)], [(1, A)] * 3 + [(1, B)] * 5)),
        # W is 1,501 and smax 100. Of 501·W, 752,001, a |A| of 652 lacks 1; of
        # 499·W, 748,999, one of 849 is 1 too much.
        "low_edge_missed_by_1": (
            9,
            in_a_row([(652, A)], [(100, B)] * 8 + [(49, B)], 501, 1000),
        ),
        "low_edge_kept": (
            0,
            in_a_row([(653, A)], [(100, B)] * 8 + [(48, B)], 501, 1000),
        ),
        "high_edge_missed_by_1": (
            9,
            in_a_row([(652, B)], [(100, A)] * 8 + [(49, A)], 499, 1000),
        ),
        "high_edge_kept": (
            0,
            in_a_row([(653, B)], [(100, A)] * 8 + [(48, A)], 499, 1000),
        ),
    }


# ---- Order 3: starts to be balanced


def all_on(side, sizes):
    """Files of these sizes, all on one side."""
    return [(size, side) for size in sizes]


def flipped(files):
    """The same files, each on the other side."""
    return [(size, 1 - side) for size, side in files]


def ring_and_row(side):
    """Files 0 to 3 in a ring, 4 to 7 in a row: the ends of the row have the greatest
    gain, and once one has moved its neighbour has."""
    return job_of_recipes(
        [[0, 1], [1, 2], [2, 3], [3, 0], [4, 5], [5, 6], [6, 7]],
        sizes=[1] * 8,
        sides=[side] * 8,
        marks=[FREE] * 8,
        num=1,
        den=2,
        cap=0,
    )


def few_in_recipes():
    """Eight files in A, and one recipe of the first two."""
    return ring_and_row(A).changed(bounds=[0, 2], pins=[0, 1])


def unbalanced_jobs():
    """By name, with the number that balancing refuses each as, or 0, and its moves."""
    ones, by_hundreds = [1] * 14, [100] * 6
    over, under = [(1, A)] * 9 + [(1, B)] * 5, [(1, A)] * 5 + [(1, B)] * 9
    lone, heavy = [(4, A), (2, B)], [(6, A), (2, B)]
    return {
        # W is 14 and smax 1: |A| from 6 up to 8.
        "too_large_by_one": (0, 1, in_a_row([], over)),
        "too_small_by_one": (0, 1, in_a_row([], under)),
        "all_in_a": (0, 6, in_a_row([], all_on(A, ones))),
        "all_in_b": (0, 6, in_a_row([], all_on(B, ones))),
        # |A| at most 1, and at least 13: 10 since order 8.
        "too_large_by_much": (10, 0, in_a_row([], all_on(A, ones), 1, 1000)),
        "too_small_by_much": (10, 0, in_a_row([], all_on(B, ones), 999, 1000)),
        # The pinned file leaves |A| at 9 and more, or at 5 and less.
        "impossible_from_above": (9, 0, in_a_row([(9, A)], all_on(B, [1] * 5))),
        "impossible_from_below": (9, 0, in_a_row([(9, B)], all_on(A, [1] * 5))),
        # At 8 and more, or at 6 and less: each free file has to move.
        "just_possible_from_above": (0, 6, in_a_row([(8, A)], all_on(A, [1] * 6))),
        "just_possible_from_below": (0, 6, in_a_row([(8, B)], all_on(B, [1] * 6))),
        # W is 1,501 and smax 100. Of 499·W, 748,999, a |A| of 849 is 1 too much, and of
        # 501·W, 752,001, one of 652 lacks 1.
        "impossible_from_above_by_1": (
            9,
            0,
            in_a_row([(849, A)], all_on(B, by_hundreds + [52]), 499, 1000),
        ),
        "impossible_from_below_by_1": (
            9,
            0,
            in_a_row([(849, B)], all_on(A, by_hundreds + [52]), 501, 1000),
        ),
        "just_possible_from_above_by_1": (
            0,
            7,
            in_a_row([(848, A)], all_on(A, by_hundreds + [53]), 499, 1000),
        ),
        "just_possible_from_below_by_1": (
            0,
            7,
            in_a_row([(848, B)], all_on(B, by_hundreds + [53]), 501, 1000),
        ),
        # One free file of size 1: W is 7, |A| from 2.5 up to 4.5; then W is 9.
        "one_free_in_a": (0, 1, in_a_row(lone, [(1, A)])),
        "one_free_in_b": (0, 1, in_a_row(flipped(lone), [(1, B)])),
        "one_free_held": (0, 0, in_a_row(lone, [(1, B)])),
        "one_free_missed": (9, 0, in_a_row(heavy, [(1, A)])),
        # |A| from 3 up to 5: 4, 5, 6 move; by the gains at the start 4, 7, 0 would.
        "gains_that_change_in_a": (0, 3, ring_and_row(A)),
        "gains_that_change_in_b": (0, 3, ring_and_row(B)),
        # The same: 2, 3 and 4 move, whose gain is 0.
        "files_on_no_recipe": (0, 3, few_in_recipes()),
        # |A| at most 11 of 21, and 0 is in the window too: 10 since order 8.
        "small_file_first": (10, 0, in_a_row([], all_on(A, [1, 9, 1, 1, 9]), 1, 10)),
        # File 0, pinned, has a gain as great as any: those from the last on move.
        "pinned_file_first": (0, 6, in_a_row([(1, A)], all_on(A, [1] * 13))),
        # |A| at most 60,124.
        "beside_an_archive": (
            0,
            9,
            in_a_row([(60000, A)], all_on(A, [100] * 10), 984, 1000),
        ),
        "balanced_already": (0, 0, chain()),
        "all_pinned": (8, 0, chain().changed(sides=[A] * 4, marks=[PINNED] * 4)),
    }


def with_archives(rng, job):
    """The job with its pinned files made heavy, under the ratio of its sides."""
    sizes = [
        min(size * rng.randint(20, 200), 65535) if mark == PINNED else size
        for size, mark in zip(job.sizes, job.marks)
    ]
    heavy = job.changed(sizes=sizes, den=1000)
    part = round(1000 * size_of_a(heavy, job.sides) / heavy.total)
    return heavy.changed(num=min(max(part, 1), 999))


# ---- Order 5: files that could not be read


def with_unread(job, *files):
    """The job with these files unread."""
    marks = [UNREAD if i in files else mark for i, mark in enumerate(job.marks)]
    return job.changed(marks=marks)


def partial_chain(**fields):
    """The chain with file 3 unread: W is 3, and of |A| 1 and 2 are balanced."""
    return with_unread(chain(), 3).changed(**fields)


def all_free(recipes, sides, num=1, den=2):
    """Files of size 1 on these sides, all of them free."""
    return job_of_recipes(
        recipes,
        sizes=[1] * len(sides),
        sides=sides,
        marks=[FREE] * len(sides),
        num=num,
        den=den,
        cap=0,
    )


def one_of_five():
    """Eight files, A and B in turn: a recipe of the first five, and four of two."""
    return all_free([[0, 1, 2, 3, 4], [5, 6], [6, 7], [0, 5], [4, 7]], [A, B] * 4)


def every_mark(*marks):
    """Six files with these marks. File 1 is in three of the five recipes."""
    return Job(
        sizes=[2, 50, 3, 3, 2, 2],
        sides=[A, B, B, A, B, A],
        marks=marks,
        bounds=[0, 3, 6, 9, 11, 14],
        pins=[0, 1, 2, 1, 2, 3, 3, 4, 5, 0, 5, 2, 4, 1],
        num=1,
        den=2,
        cap=0,
    )


def unread_jobs():
    """By name: the number that a run refuses each as, or 0; how many files are unread
    and how many recipes hold one; and the job."""
    row = in_a_row([], in_turn(1, 12))
    in_pairs = row.changed(sides=[A, A, B, B] * 3)
    five, chained = one_of_five(), chain()
    mixed = every_mark(PINNED, UNREAD, FREE, FREE, PINNED, FREE)
    one_free = every_mark(PINNED, UNREAD, PINNED, PINNED, PINNED, FREE)
    around = [[0, 1, 2], [2, 3], [3, 4]]
    star = [[0, i] for i in range(1, 7)]
    wide_star = [[0, i, i + 1] for i in range(1, 6)]
    light = in_turn(100, 10)
    archive_in_a = with_unread(in_a_row([], [(60000, A)] + light), 0)
    archive_in_b = with_unread(in_a_row([], [(60000, B)] + light), 0)
    beside_b = with_unread(in_a_row([], [(60000, A)] + [(100, B)] * 10), 0)
    archives = in_a_row([(60000, A), (60000, B)], light)
    heavy = row.changed(sizes=[1] * 6 + [65535] + [1] * 5)
    return {
        "none": (0, 0, 0, row),
        "first": (0, 1, 1, with_unread(row, 0)),
        "middle": (0, 1, 2, with_unread(row, 5)),
        "last": (0, 1, 1, with_unread(row, 11)),
        "first_half": (0, 6, 6, with_unread(row, *range(6))),
        # No recipe has two readable files; in the second all of these lie in B.
        "every_other": (0, 6, 11, with_unread(in_pairs, *range(0, 12, 2))),
        "every_other_in_a": (9, 6, 11, with_unread(row, *range(0, 12, 2))),
        # W is smax: 10 since order 8.
        "all_but_the_first": (10, 11, 11, with_unread(row, *range(1, 12))),
        "all_but_the_last": (10, 11, 11, with_unread(row, *range(11))),
        # The recipe of five: how many of its files can be read, and where they lie.
        "recipe_whole": (0, 0, 0, five),
        "recipe_with_3": (0, 2, 2, with_unread(five, 0, 3)),
        "recipe_with_2_apart": (0, 3, 2, with_unread(five, 0, 1, 2)),
        "recipe_with_2_together": (0, 3, 2, with_unread(five, 0, 1, 3)),
        "recipe_with_1": (0, 4, 2, with_unread(five, 0, 1, 2, 3)),
        "recipe_with_none": (0, 5, 3, with_unread(five, 0, 1, 2, 3, 4)),
        # Alone on its side of a recipe, which is not cut then; and alone in its vault,
        # which may be empty of readable ones by its ratio: 10 since order 8.
        "alone_in_a": (0, 1, 1, with_unread(all_free(around, [A, B, B, A, A]), 0)),
        "alone_in_b": (0, 1, 1, with_unread(all_free(around, [B, A, A, B, B]), 0)),
        "alone_in_vault_a": (
            10,
            1,
            1,
            with_unread(in_a_row([], [(7, A)] + [(1, B)] * 4, 1, 10), 0),
        ),
        "alone_in_vault_b": (
            10,
            1,
            1,
            with_unread(in_a_row([], [(7, B)] + [(1, A)] * 4, 9, 10), 0),
        ),
        # W is 1,000 without the archive and smax 100: |A| from 400 up to 600.
        "archive_in_a": (0, 1, 1, archive_in_a),
        "archive_in_b": (0, 1, 1, archive_in_b),
        "archive_beside_b": (9, 1, 1, beside_b),
        # The ratio that would suit if the archive counted: 9, and 10 since order 8.
        "archive_at_its_ratio": (10, 1, 1, archive_in_a.changed(num=992, den=1000)),
        "archives_both": (0, 2, 2, with_unread(archives, 0, 1)),
        "archives_one": (9, 1, 2, with_unread(archives, 1)),
        "archive_of_65535": (0, 1, 2, with_unread(heavy, 6)),
        "beside_pinned": (0, 1, 3, mixed),
        "beside_pinned_one_free": (0, 1, 3, one_free),
        "beside_pinned_capped": (0, 1, 3, mixed.changed(cap=1)),
        "on_no_recipe": (0, 1, 0, with_unread(all_free([[0, 1]], [A, B] * 4), 7)),
        "in_every_recipe": (0, 1, 6, with_unread(all_free(star, [A, B] * 3 + [A]), 0)),
        "in_every_wide_recipe": (
            0,
            1,
            5,
            with_unread(all_free(wide_star, [A, B] * 3 + [A]), 0),
        ),
        "all": (8, 4, 3, chained.changed(marks=[UNREAD] * 4)),
        "all_or_pinned": (8, 2, 3, chained.changed(marks=[1, 2, 1, 2])),
        # W is 2 and smax 1: 10 since order 8.
        "all_or_pinned_but_one": (10, 2, 3, chained.changed(marks=[1, 2, 2, 0])),
    }


def unread_starts():
    """Starts to be balanced, by name: the number that balancing refuses each as, or 0,
    its moves, and the job."""
    ones = [1] * 14
    in_a, in_b = in_a_row([], all_on(A, ones)), in_a_row([], all_on(B, ones))
    pinned_in_a = in_a_row([(9, A)], all_on(B, [1] * 5))
    return {
        # W is 8 and smax 1: |A| from 3 up to 5.
        "all_in_a": (0, 3, with_unread(in_a, *range(6))),
        "all_in_b": (0, 3, with_unread(in_b, *range(6))),
        # W is 13, |A| from 5.5 up to 7.5; file 0 would have been the first to move.
        "first_in_a": (0, 6, with_unread(in_a, 0)),
        # W is 1,000 without the archive: |A| from 400 up to 600.
        "beside_an_archive": (
            0,
            4,
            with_unread(in_a_row([], [(60000, A)] + all_on(A, [100] * 10)), 0),
        ),
        # 9 of 13 are pinned in A; without that file W is 5.
        "heavy_pinned": (9, 0, with_unread(pinned_in_a, 5)),
        "heavy_unread": (0, 2, with_unread(pinned_in_a, 0)),
        # 10 since order 8.
        "one_free": (10, 0, with_unread(in_a, *range(13))),
        "none_free": (8, 0, with_unread(in_a, *range(14))),
    }


# ---- Order 6: a wider window

# What a seventh value carries.
WIDER = (2, 3, 4)
# "Each k from 0 to 6 and 65,535", and one whose low byte alone would be allowed.
ANY_K = (*range(7), 258, 65535)
WRONG_K = tuple(k for k in ANY_K if not 1 <= k <= 4)


def at_each(ks, job):
    """The job with each of these k."""
    return [job.changed(k=k) for k in ks]


def all_at(k, found):
    """The same at k, where the last that stands behind each name is a job."""
    return {name: (*told, job.changed(k=k)) for name, (*told, job) in found.items()}


def at_each_wider(*kinds):
    """What each of these makes of each k over 1."""
    return {
        f"{name}_at_{k}": told
        for k in WIDER
        for kind in kinds
        for name, told in kind(k).items()
    }


def of_20(side, in_a):
    """A pinned file of size 4 on this side and sixteen free ones of 1: so much in A."""
    free = in_a - 4 if side == A else in_a
    return in_a_row([(4, side)], [(1, A)] * free + [(1, B)] * (16 - free))


def of_1501(pinned, side):
    """A pinned file of this size on a side, and on the other free ones of 100 and a
    rest: 1,501 in all. A's share is a thousandth off a half, to the free ones' side."""
    hundreds, rest = divmod(1501 - pinned, 100)
    free = all_on(1 - side, [100] * hundreds + [rest])
    return in_a_row([(pinned, side)], free, 501 if side == A else 499, 1000)


def edges(k):
    """The edges of the window at k, by name, each with the number of its refusal, or 0.

    W is 20 and smax 1: |A| from 10 - k up to 10 + k, and both are met exactly.
    """
    found = {
        "low_edge_hit": (0, of_20(B, 10 - k)),
        "low_edge_missed": (9, of_20(B, 9 - k)),
        "high_edge_hit": (0, of_20(A, 10 + k)),
        "high_edge_missed": (9, of_20(A, 11 + k)),
    }
    return all_at(k, found)


def fine_edges(k):
    """The same by 1 of den·|A|.

    W is 1,501 and smax 100. Of 501·W, 752,001, a |A| of 752 - 100k lacks 1; of
    499·W, 748,999, one of 749 + 100k is 1 too much.
    """
    off = 752 - 100 * k
    found = {
        "low_edge_missed_by_1": (9, of_1501(off, A)),
        "low_edge_kept": (0, of_1501(off + 1, A)),
        "high_edge_missed_by_1": (9, of_1501(off, B)),
        "high_edge_kept": (0, of_1501(off + 1, B)),
    }
    return all_at(k, found)


def wider_jobs():
    """By name, with the number that a run refuses each as, or 0."""
    in_a, in_b = (chain().changed(sides=[side] * 4) for side in (A, B))
    # Of 1,000 readable ones 700 lie in A, and smax is 100.
    beside = [(60000, A)] + [(100, A)] * 7 + [(100, B)] * 3
    beside_unread = with_unread(in_a_row([], beside), 0)
    # 0.984·W is 60,024, and |A| is 276 more.
    beside_pinned = in_a_row(beside[:1], beside[5:] + [(100, B)] * 4, 984, 1000)
    # W is 18 without the unread file, and smax 3: |A| is 16, and may be 15 at k = 2. At
    # 3 it may be 18.
    mixed = every_mark(PINNED, UNREAD, FREE, FREE, PINNED, FREE)
    mixed = mixed.changed(sizes=[8, 50, 3, 3, 2, 2], sides=[A, B, A, A, B, A])
    return {
        # 0 and 4 are not balanced at k = 1, and are from 2 on: 10 since order 8.
        **{f"chain_at_{job.k}": (10, job) for job in at_each(WIDER, chain())},
        "chain_in_a_at_2": (10, in_a.changed(k=2)),
        "chain_in_b_at_2": (10, in_b.changed(k=2)),
        # Twice 10 is 7 more than 13, and 2k is 4, 6 and 8.
        "archive_at_2": (9, archive().changed(k=2)),
        "archive_at_3": (9, archive().changed(k=3)),
        "archive_at_4": (0, archive().changed(k=4)),
        "beside_unread_at_1": (9, beside_unread),
        "beside_unread_at_2": (0, beside_unread.changed(k=2)),
        "beside_pinned_at_2": (9, beside_pinned.changed(k=2)),
        "beside_pinned_at_3": (0, beside_pinned.changed(k=3)),
        "every_mark_at_2": (9, mixed.changed(k=2)),
        "every_mark_at_3": (10, mixed.changed(k=3)),
        "every_mark_capped_at_3": (10, mixed.changed(k=3, cap=1)),
    }


def starts(k):
    """Starts to be balanced at k, by name: the number that balancing refuses each as,
    or 0, its moves, and the job."""
    # W is 14 and smax 1: |A| from 7 - k up to 7 + k.
    light, heavy = 7 - k, 7 + k
    # As in fine_edges: A may hold 748 + 100k, and so may B under the other ratio.
    most, hundreds = 748 + 100 * k, [100] * light
    found = {}
    for side, end, num in ((A, "above", 499), (B, "below", 501)):
        impossible = [(heavy + 1, side)], all_on(1 - side, [1] * (light - 1))
        possible = [(heavy, side)], all_on(side, [1] * light)
        missed = [(most + 1, side)], all_on(1 - side, hundreds + [52]), num, 1000
        met = [(most, side)], all_on(side, hundreds + [53]), num, 1000
        found |= {
            f"all_{end}": (0, light, in_a_row([], all_on(side, [1] * 14))),
            f"impossible_from_{end}": (9, 0, in_a_row(*impossible)),
            f"just_possible_from_{end}": (0, light, in_a_row(*possible)),
            f"impossible_from_{end}_by_1": (9, 0, in_a_row(*missed)),
            f"just_possible_from_{end}_by_1": (0, light + 1, in_a_row(*met)),
        }
    return all_at(k, found)


def starts_beside_archives():
    """The same beside an archive of 60,000 in A, which is unread or pinned."""
    free = all_on(A, [100] * 10)
    # W is 1,000 without it, so |A| at most 500 + 100k.
    unread = with_unread(in_a_row([], [(60000, A)] + free), 0)
    # |A| at most 60,024 + 100k.
    pinned = in_a_row([(60000, A)], free, 984, 1000)
    return {
        "beside_unread_at_2": (0, 3, unread.changed(k=2)),
        "beside_pinned_at_4": (0, 6, pinned.changed(k=4)),
    }


def wider_starts():
    return {**at_each_wider(starts), **starts_beside_archives()}


# ---- Order 7: jobs to be compared

CHAIN_RECIPES = ([0, 1], [2, 3], [1, 2])


def with_recipes(job, *recipes):
    """The job with these recipes, as lists of files."""
    return job.changed(**bounds_and_pins(recipes))


def with_files(job, *files):
    """The job with these files behind its own, as (size, side, mark)."""
    return job.changed(
        sizes=job.sizes + tuple(size for size, _, _ in files),
        sides=job.sides + tuple(side for _, side, _ in files),
        marks=job.marks + tuple(mark for _, _, mark in files),
    )


def compared_figures():
    """By name: two jobs with other figures of the header, and the records."""
    old = chain()
    return {
        "num": (old, old.changed(num=3), [(4, 0, 1, 3)]),
        "den": (old, old.changed(den=65535), [(5, 0, 2, 65535)]),
        "cap": (old, old.changed(cap=256), [(6, 0, 0, 256)]),
        "k_of_six_and_seven": (old, old.changed(k=2), [(7, 0, 1, 2)]),
        "k_of_seven_and_six": (old.changed(k=4), old, [(7, 0, 4, 1)]),
        "k_of_seven_and_seven": (old.changed(k=2), old.changed(k=3), [(7, 0, 2, 3)]),
        "ratio": (old, old.changed(num=0, den=0), [(4, 0, 1, 0), (5, 0, 2, 0)]),
    }


def compared_files():
    """The same with other files, and with files more."""
    old = chain()
    pinned, unread = old.changed(marks=[1, 0, 0, 0]), old.changed(marks=[2, 0, 0, 0])
    more = (1, 0, 4, 5)
    return {
        "size": (old, old.changed(sizes=[1, 1, 65535, 1]), [(8, 2, 1, 65535)]),
        "side": (old, old.changed(sides=[A, A, A, B]), [(9, 1, 1, 0)]),
        "mark_pinned": (old, pinned, [(10, 0, 0, 1)]),
        "mark_unread": (old, unread, [(10, 0, 0, 2)]),
        "pinned_and_unread": (pinned, unread, [(10, 0, 1, 2)]),
        # The stored second value is 1, and then 4: both of its figures differ.
        "side_and_mark": (
            old,
            old.changed(sides=[A, A, A, B], marks=[0, 2, 0, 0]),
            [(9, 1, 1, 0), (10, 1, 0, 2)],
        ),
        # File by file, and not size by size.
        "first_and_last_file": (
            old,
            old.changed(sizes=[2, 1, 1, 3], sides=[B, B, A, A], marks=[1, 0, 0, 2]),
            [(8, 0, 1, 2), (9, 0, 0, 1), (10, 0, 0, 1)]
            + [(8, 3, 1, 3), (9, 3, 1, 0), (10, 3, 0, 2)],
        ),
        # A file that a job lacks has the size 0, lies in A and is free.
        "file_added_in_a": (old, with_files(old, (7, A, FREE)), [more, (8, 4, 0, 7)]),
        "file_added_in_b": (
            old,
            with_files(old, (7, B, FREE)),
            [more, (8, 4, 0, 7), (9, 4, 0, 1)],
        ),
        "file_added_unread": (
            old,
            with_files(old, (7, A, UNREAD)),
            [more, (8, 4, 0, 7), (10, 4, 0, 2)],
        ),
        "files_added": (
            old,
            with_files(old, (7, B, PINNED), (65535, A, FREE)),
            [(1, 0, 4, 6), (8, 4, 0, 7), (9, 4, 0, 1), (10, 4, 0, 1), (8, 5, 0, 65535)],
        ),
        "files_removed": (
            with_files(old, (7, B, PINNED), (65535, A, FREE)),
            old,
            [(1, 0, 6, 4), (8, 4, 7, 0), (9, 4, 1, 0), (10, 4, 1, 0), (8, 5, 65535, 0)],
        ),
        # All others go up by one number, and their pins with them.
        "file_added_in_front": (
            old,
            all_free([[1, 2], [3, 4], [2, 3]], [A, A, B, A, B]),
            [more, (9, 1, 1, 0), (9, 2, 0, 1), (9, 3, 1, 0), (8, 4, 0, 1), (9, 4, 0, 1)]
            + [(11, 0, 2, 2), (11, 1, 2, 2), (11, 2, 2, 2)],
        ),
    }


def compared_recipes():
    """The same with other recipes, and with recipes more."""
    old = chain()
    one, two, three = CHAIN_RECIPES
    long_first = with_recipes(old, [0, 1, 2], [3, 0], three)
    long_second = with_recipes(old, [0, 1], [2, 3, 0], three)
    return {
        "another_first_pin": (
            old,
            with_recipes(old, [3, 1], two, three),
            [(11, 0, 2, 2)],
        ),
        "another_last_pin": (old, with_recipes(old, one, two, [1, 3]), [(11, 2, 2, 2)]),
        # The same pins: in another order, in another recipe, and cut by other bounds.
        "pins_in_another_order": (
            old,
            with_recipes(old, one, [3, 2], three),
            [(11, 1, 2, 2)],
        ),
        "recipes_in_another_order": (
            old,
            with_recipes(old, two, one, three),
            [(11, 0, 2, 2), (11, 1, 2, 2)],
        ),
        "other_bounds": (long_first, long_second, [(11, 0, 3, 2), (11, 1, 2, 3)]),
        "pin_added": (
            old,
            with_recipes(old, one, two, [1, 2, 0]),
            [(3, 0, 6, 7), (11, 2, 2, 3)],
        ),
        "pin_added_in_front": (
            old,
            with_recipes(old, [2, 0, 1], two, three),
            [(3, 0, 6, 7), (11, 0, 2, 3)],
        ),
        "pin_removed": (long_first, old, [(3, 0, 7, 6), (11, 0, 3, 2), (11, 1, 2, 2)]),
        "recipe_added": (
            old,
            with_recipes(old, one, two, three, [0, 3]),
            [(2, 0, 3, 4), (3, 0, 6, 8), (11, 3, 0, 2)],
        ),
        "recipes_added": (
            old,
            with_recipes(old, one, two, three, [0, 3, 2], [3, 2]),
            [(2, 0, 3, 5), (3, 0, 6, 11), (11, 3, 0, 3), (11, 4, 0, 2)],
        ),
        "recipe_removed": (
            old,
            with_recipes(old, one, two),
            [(2, 0, 3, 2), (3, 0, 6, 4), (11, 2, 2, 0)],
        ),
        "recipes_removed": (
            old,
            with_recipes(old, one),
            [(2, 0, 3, 1), (3, 0, 6, 2), (11, 1, 2, 0), (11, 2, 2, 0)],
        ),
        "recipe_added_in_front": (
            old,
            with_recipes(old, [0, 3], one, two, three),
            [(2, 0, 3, 4), (3, 0, 6, 8)]
            + [(11, 0, 2, 2), (11, 1, 2, 2), (11, 2, 2, 2), (11, 3, 0, 2)],
        ),
        # As many pins, and a recipe less.
        "recipes_joined": (
            old,
            with_recipes(old, [0, 1, 2, 3], three),
            [(2, 0, 3, 2), (11, 0, 2, 4), (11, 1, 2, 2), (11, 2, 2, 0)],
        ),
    }


def all_kinds():
    """Two jobs that differ in each of the eleven, and the records."""
    new = Job(
        sizes=[2, 1, 1, 1, 3],
        sides=[B, B, A, B, B],
        marks=[PINNED, FREE, FREE, FREE, UNREAD],
        bounds=[0, 2, 5],
        pins=[0, 1, 4, 3, 2],
        num=2,
        den=5,
        cap=1,
        k=4,
    )
    return (
        chain(),
        new,
        [(1, 0, 4, 5), (2, 0, 3, 2), (3, 0, 6, 5)]
        + [(4, 0, 1, 2), (5, 0, 2, 5), (6, 0, 0, 1), (7, 0, 1, 4)]
        + [(8, 0, 1, 2), (9, 0, 0, 1), (10, 0, 0, 1)]
        + [(8, 4, 0, 3), (9, 4, 0, 1), (10, 4, 0, 2)]
        + [(11, 1, 2, 3), (11, 2, 2, 0)],
    )


def compared_jobs():
    """By name: two jobs, and the records of them, worked out by hand."""
    return {
        "same": (chain(), chain(), []),
        **compared_figures(),
        **compared_files(),
        **compared_recipes(),
        "all_kinds": all_kinds(),
    }


def most_different():
    """Two jobs of the largest size in which all differs: 7 + 3·1,024 + 1,024 records.

    The first has one file and one recipe more, which the second lacks.
    """
    rows = [[(4 * j + i) % 1024 for i in range(4)] for j in range(1024)]
    old = job_of_recipes(
        rows,
        sizes=[65535 - i for i in range(1024)],
        sides=[B] * 1024,
        marks=[PINNED + i % 2 for i in range(1024)],
        num=65535,
        den=65534,
        cap=65533,
        k=4,
    )
    # Each recipe the other way round, and file 0 in place of file 1,023.
    turned = [[file % 1023 for file in reversed(files)] for files in rows[:1023]]
    new = job_of_recipes(
        turned,
        sizes=[1 + i for i in range(1023)],
        sides=[A] * 1023,
        marks=[FREE] * 1023,
        num=1,
        den=2,
        cap=0,
    )
    return old, new


def put(entries, at, entry):
    """A list with one entry put anew."""
    return (*entries[:at], entry, *entries[at + 1 :])


def changed_recipes(rng, job):
    """The recipes with one thing changed; as they are where that cannot be."""
    recipes = list(job.whole_recipes)
    j = rng.randrange(job.recipes)
    files, others = recipes[j], sorted({*range(job.files)} - {*recipes[j]})
    how = rng.choice(("order", "pin", "longer", "shorter", "more", "fewer"))
    if how == "order":
        recipes[j] = rng.sample(files, len(files))
    elif how == "pin" and others:
        recipes[j] = put(files, rng.randrange(len(files)), rng.choice(others))
    elif how == "longer" and others:
        recipes[j] = [*files, rng.choice(others)]
    elif how == "shorter" and len(files) > 2:
        recipes[j] = files[1:]
    elif how == "more":
        recipes.insert(j, files)
    elif how == "fewer" and job.recipes > 1:
        del recipes[j]
    return recipes


def changed_once(rng, job):
    """The job with one thing changed, at times to what it was; checks 1 to 6 pass."""
    file = rng.randrange(job.files)
    field = rng.choice(
        ("num", "den", "cap", "k", "sizes", "sides", "marks", "files", "", "")
    )
    if field in ("num", "den", "cap"):
        return job.changed(**{field: rng.choice([0, 1, 255, 256, 65535])})
    if field == "k":
        return job.changed(k=rng.randint(1, 4))
    if field == "files":
        return with_files(job, (rng.randint(1, 65535), rng.randint(A, B), FREE))
    if field:
        most = {"sizes": (1, 65535), "sides": (A, B), "marks": (FREE, UNREAD)}[field]
        entries = put(getattr(job, field), file, rng.randint(*most))
        return job.changed(**{field: entries})
    return with_recipes(job, *changed_recipes(rng, job))


def changed_often(rng, job, times):
    for _ in range(times):
        job = changed_once(rng, job)
    return job


# ---- Order 8: no vault may be emptied


def pinned_files(size, side):
    """Pinned files on a side, as (size, side, mark), of so much in all."""
    whole, rest = divmod(size, 65535)
    sizes = [65535] * whole + [rest] * (rest > 0)
    return [(size, side, PINNED) for size in sizes]


def past_10(job):
    """A job that 10 refuses, and beside its files pinned ones on no recipe, as few units
    in its ratio as take it past 10.

    den·|A| less num·W is what it was, and so is smax: the same sides are balanced, and
    every gain, move, scan and cut is as it would be without 10.
    """
    part = gcd(job.num, job.den)
    in_a, in_b = job.num // part, (job.den - job.num) // part
    slack = job.den * job.tolerance
    goal_a, goal_b = job.num * job.total, (job.den - job.num) * job.total
    units = 1 + max(
        (slack - goal_a) // (job.den * in_a), (slack - goal_b) // (job.den * in_b)
    )
    more = pinned_files(units * in_a, A) + pinned_files(units * in_b, B)
    return with_files(job, *more)


def held_chain(**fields):
    """The chain with a pinned file of 4 on no recipe in each vault, past 10 at each k."""
    return with_files(chain(), (4, A, PINNED), (4, B, PINNED)).changed(**fields)


def turned(job):
    """The same with the vaults changed for one another."""
    sides = [1 - side for side in job.sides]
    return job.changed(sides=sides, num=job.den - job.num)


def on_both_sides(found):
    """Jobs about A by name, and beside each the one that says the same of B."""
    both = {}
    for name, (*told, job) in found.items():
        both |= {f"a_{name}": (*told, job), f"b_{name}": (*told, turned(job))}
    return both


def third_in_a(files):
    """So many free files of 1, one of them in A, which is to hold a third."""
    return in_a_row([], [(1, A)] + [(1, B)] * (files - 1), 1, 3)


def seven_of_1000(total, largest):
    """Two free files of this size, one in each vault, and a pinned one in B: so much in
    all, of which A is to hold seven thousandths."""
    rest = total - 2 * largest
    return in_a_row([(rest, B)], [(largest, A), (largest, B)], 7, 1000)


# By k, W and smax such that 7·W is 1,000·k·smax less 1, just that, and 1 more.
FINE_VAULTS = {
    1: ((857, 6), (1000, 7), (143, 1)),
    2: ((857, 3), (2000, 7), (1143, 4)),
    3: ((857, 2), (3000, 7), (2143, 5)),
    4: ((2857, 5), (4000, 7), (1143, 2)),
}


def vault_edges(k):
    """Both halves of the test for 10, met and missed by 1, by name, each with the number
    of its refusal, or 0."""
    within, hit, missed = (seven_of_1000(*sizes) for sizes in FINE_VAULTS[k])
    archive = 60000, A, UNREAD
    halves = {
        # W against 3k.
        "within_by_1": (10, third_in_a(3 * k - 1)),
        "hit": (10, third_in_a(3 * k)),
        "missed_by_1": (0, third_in_a(3 * k + 1)),
        # With pinned files in W; and unread ones, which are neither in W nor in smax.
        "pinned_within_by_1": (10, within),
        "pinned_hit": (10, hit),
        "pinned_missed_by_1": (0, missed),
        "unread_hit": (10, with_files(third_in_a(3 * k), archive)),
        "unread_missed_by_1": (0, with_files(third_in_a(3 * k + 1), archive)),
        # The pinned file is more than A may hold, whatever the free ones do: 9 but for
        # 10, also from the balancing. W is 10k + 4, of which a tenth is at most 2k.
        "pinned_too_large": (10, in_a_row([(10 * k, A)], [(2, B)] * 2, 1, 10)),
        # This 9 the balancing would have mended: W is 4k, and all of it lies in A.
        "all_there": (10, in_a_row([], [(1, A)] * 4 * k, 1, 4)),
    }
    # W is 2k and 2k + 1. Of 1/2 both halves of the test are one; m5 is the first at 1.
    found = {
        "both_hit": (10, in_a_row([], in_turn(1, 2 * k))),
        "both_missed_by_1": (0, in_a_row([], in_turn(1, 2 * k + 1))),
    }
    return all_at(k, {**on_both_sides(halves), **found})


def at_each_k(kind):
    """What this makes of each k."""
    return {
        f"{name}_at_{k}": told for k in (1, *WIDER) for name, told in kind(k).items()
    }


def wide_products(files, last):
    """So many free files of 65,535 and a last one, A and B in turn, under one pass."""
    job = in_a_row([], in_turn(65535, files) + [(last, B)], 500, 1000)
    return job.changed(cap=1)


def vault_jobs():
    """By name, with the number that a run refuses each as, or 0."""
    m5 = two_files()
    pinned_in_a = with_files(m5, (1, A, PINNED))
    archive_in_a = with_files(m5, (60000, A, UNREAD))
    by_ratio = in_a_row([(10, A)], [(1, B)] * 3, 10, 13)
    return {
        "m5": (10, m5),
        **{f"m5_at_{job.k}": (10, job) for job in at_each(WIDER, m5)},
        "m5_in_a": (10, m5.changed(sides=[A, A])),
        "m5_in_b": (10, m5.changed(sides=[B, B])),
        "m5_capped": (10, m5.changed(cap=1)),
        "m5_at_1_of_1000": (10, m5.changed(den=1000)),
        "m5_at_999_of_1000": (10, m5.changed(num=999, den=1000)),
        # W is twice smax, and 1 more.
        "half_in_one_file": (10, in_a_row([], [(2, A), (1, B), (1, B)])),
        "less_than_half": (0, in_a_row([], [(3, A), (2, B), (2, B)])),
        # A pinned file is in W: the two files may lie in one vault, and none is empty.
        "pinned_in_w": (0, pinned_in_a),
        "pinned_in_w_of_b": (0, turned(pinned_in_a)),
        # And not in smax: with 10 for it 130 would be the edge, which is hit.
        "pinned_not_in_smax": (0, by_ratio),
        "pinned_not_in_smax_at_2": (0, by_ratio.changed(k=2)),
        "archive": (9, archive()),
        # It is the window that is asked: here no vault could be emptied.
        "pinned_in_both": (10, in_a_row([(1, A), (1, B)], [(4, A)])),
        # An unread file is not in W, where it would take m5 past 10.
        "unread_not_in_w": (10, archive_in_a),
        "unread_not_in_w_of_b": (10, turned(archive_in_a)),
        # And not in smax, where it would take the chain to 10.
        "unread_not_in_smax": (0, with_files(chain(), (60000, A, UNREAD))),
        "pinned_and_unread": (0, with_files(pinned_in_a, (60000, B, UNREAD))),
        # 8 stands before: also where W is 0, and where all files would be in smax.
        "no_8_pinned": (8, m5.changed(marks=[PINNED] * 2)),
        "no_8_unread": (8, m5.changed(marks=[UNREAD] * 2)),
        "no_8_both": (8, m5.changed(marks=[PINNED, UNREAD], k=4)),
        "no_8_pinned_in_a": (8, m5.changed(marks=[PINNED] * 2, sides=[A, A])),
        # 7 stands before, for the ratio.
        "no_7": (7, m5.changed(num=2)),
        # 500·W is 2 to the 32nd and 204 more, and 1,000·W that and 704 more.
        "num_w_over_32_bits": (0, wide_products(131, 4850)),
        "den_w_over_32_bits": (0, wide_products(65, 35193)),
    }


def vault_starts(k):
    """Starts to be balanced at k, by name: the number that balancing refuses each as,
    or 0, its moves, and the job.

    Of 3k + 1 A may hold from 1 up to 2k, and of 3k from 0 on.
    """
    missed, hit = third_in_a(3 * k + 1), third_in_a(3 * k)
    in_a, in_b = (missed.changed(sides=[side] * missed.files) for side in (A, B))
    found = {
        "all_here": (0, k + 1, in_a),
        "none_here": (0, 1, in_b),
        "none_here_hit": (10, 0, hit.changed(sides=[B] * hit.files)),
    }
    return all_at(k, on_both_sides(found))


# ---- Order 9: passes by edition 2 that are worked out by hand


def worked():
    """The worked pass. W is 13 and smax 3: 2·|A| may be off 13 by 6, so that |A| is from
    4 up to 9. It starts at 4."""
    return job_of_recipes(
        [[7, 3], [1, 0, 5], [6, 4, 3], [3, 2, 6]],
        sizes=[2, 2, 2, 1, 1, 1, 3, 1],
        sides=[A, B, B, A, B, A, B, B],
        marks=[PINNED] + [FREE] * 7,
        num=1,
        den=2,
        cap=0,
    )


def eight():
    """The guide's pass, `eight` of crates/rules/specs/FrontsWorked.antt, and an example. W
    is 14 and smax 2: |A| is from 5 up to 9. It starts at 6."""
    recipes = [[2, 0], [5, 3], [7, 1, 5], [0, 5], [4, 7, 3], [0, 7, 6]]
    free = all_free(recipes, [A, B, B, B, A, B, B, A])
    return free.changed(sizes=[3, 2, 2, 1, 2, 1, 2, 1], marks=[PINNED] + [FREE] * 7)


def fronts():
    """By name; test_planner.py has the moves of each."""
    four = all_free([[0, 1, 2, 3]], [A, A, B, B])
    return {
        "worked": worked(),
        # All gains are 0: the highest number of each vault stands first.
        "four": four,
        # File 0 is changed by two moves, and then stands before file 1.
        "back": all_free([[0, 2, 3, 5]], [A, A, A, B, B, B]),
        # W is 7 and |A| 2: with file 1 it is nearer to its half than without file 3.
        "balance": four.changed(sizes=[2, 3, 1, 1], sides=[B, B, A, A]),
        # W is 8, |A| 4, and from 2 up to 6: the last pin that is changed stands first.
        "pins": all_free([[3, 1, 2, 0]], [A] * 4).changed(
            sizes=[1, 1, 1, 1, 4],
            sides=[A, A, A, A, B],
            marks=[FREE] * 4 + [PINNED],
            k=2,
        ),
        # |A| is 5 of 9 and at most 7: file 1 could move, and stands behind file 2.
        "stops": lone_front([FREE, FREE]),
        # The same with file 1 pinned: no move is legal.
        "none": lone_front([PINNED, FREE]),
        # W is 9 and |A| 3, from 2 up to 5: file 3 could move, and has not the highest gain.
        "early": early(),
    }


def lone_front(marks):
    """A holds a pinned file alone, and B a light one and a heavy one of these marks."""
    return all_free([[1, 2]], [A, B, B]).changed(sizes=[5, 1, 3], marks=[PINNED, *marks])


def early():
    """Order 10's: by edition 2 it settles at once, though a legal move lessens the cut."""
    return all_free([[0, 1], [0, 2], [1, 3]], [A, B, B, A]).changed(
        sizes=[2, 3, 3, 1], marks=[FREE, PINNED, PINNED, FREE], num=3, den=7
    )


# ---- Order 12: passes by edition 3 that are worked out by hand


def beside_two(recipes, sides, weights, k=1):
    """Free files of size 1 on these sides, and behind them two pinned ones of these
    sizes, one in A and one in B."""
    job = all_free(recipes, [*sides, A, B])
    marks = [FREE] * len(sides) + [PINNED] * 2
    return job.changed(sizes=[1] * len(sides) + weights, marks=marks, k=k)


def foresights():
    """By name; test_planner.py has the vectors and the moves of each."""
    locks = beside_two([[0, 5, 4], [1, 5, 6], [2, 3, 6]], [A] * 4 + [B], [4, 4], 2)
    alike = beside_two([[0, 1, 2, 4]], [A] * 3, [3, 5])
    return {
        # Files 0 and 1 have gain 1; behind it 1 leaves one file alone, and 0 two. It is in
        # the manner of source 004's first figure, of which its words do not give all.
        "second": beside_two([[0, 6], [1, 6], [0, 2, 3, 6], [1, 4, 6]], [A] * 5, [5, 5], 3),
        # Gain 1 and level 2 alike; file 1 is in a recipe with two more.
        "third": beside_two([[0, 5], [1, 5], [1, 2, 3, 5]], [A] * 4, [5, 5], 3),
        # Source 004's second figure: file 3 has 1, 0, and file 0 has 0, 2.
        "two_in_the_bush": beside_two([[0, 1, 5], [0, 2, 5], [3, 5]], [A] * 4, [4, 4], 2),
        # All vectors alike: then the distance decides, and then the number.
        "alike": alike.changed(sizes=[1, 3, 3, 3, 5]),
        # A locked file on a file's own side, on both sides, and on the other side.
        "locks": locks,
        # The same beside unread files, with which two recipes have one file to read.
        "locks_unread": with_files(locks, (9, A, UNREAD), (9, B, UNREAD)).changed(
            **bounds_and_pins(
                [[0, 5, 4, 7], [1, 8, 5, 6], [2, 7, 8, 3, 6], [3, 7], [8, 7, 2]]
            )
        ),
        # File 1 is on no recipe: 0, -1, 0 and 0, 0, -1 of file 0 are less than its zeros.
        "lost_at_2": beside_two([[0, 3, 2]], [A, A, B], [4, 4]),
        "lost_at_3": beside_two([[0, 4, 2, 3]], [A, A, B, B], [4, 3]),
    }


# ---- Random jobs


def recipe_lengths(rng, files, recipes, most_pins, longest):
    """Lengths of two and more that stay within the pins allowed."""
    lengths = []
    for j in range(recipes):
        # What is left once each later recipe has its two.
        left = most_pins - sum(lengths) - 2 * (recipes - j - 1)
        top = max(2, min(longest, files, left))
        lengths.append(rng.randint(2, top))
    return lengths


def near_files(rng, files, length, reach):
    """Distinct files close to one another, as recipes of a real shop have them."""
    span = min(files, max(length, reach))
    start = rng.randrange(files - span + 1)
    return rng.sample(range(start, start + span), length)


def in_wide_window(job, size_a):
    """Balanced by document 01 before order 2, when pinned sizes counted in smax too."""
    return abs(job.den * size_a - job.num * job.total) <= job.den * max(job.sizes)


def wide_window_sides(rng, job):
    """Random sides in the wide window: flip one file after the other until they are.

    The random jobs go by it so that they stay what they were. Of those with heavy
    pinned files some are now refused as 9.
    """
    sides = [rng.randint(A, B) for _ in job.sizes]
    order = list(range(job.files))
    rng.shuffle(order)
    goal = job.num * job.total
    for file in order:
        size_a = size_of_a(job, sides)
        if in_wide_window(job, size_a):
            break
        # Only a flip towards the goal; no single flip can pass over the band,
        # since the band is at least as wide as two files.
        if sides[file] == (B if job.den * size_a < goal else A):
            sides[file] = 1 - sides[file]
    return sides


def sides_in_window(job):
    """Balanced sides where there are any, also in a window that allows an empty vault.

    The jobs from before order 8 go by it so that they stay what they were.
    """
    if refusal(job, True, 8) != (0, 0) or no_start_is_balanced(job):
        return list(job.sides)
    sides, _ = balancing_moves(job)
    return sides


def random_job(
    rng,
    files,
    recipes,
    most_pins=4096,
    longest=6,
    reach=0,
    top_size=9,
    pinned=0.1,
    den=None,
    cap=0,
):
    """A job that passes check 8, with sides in the wide window.

    reach 0: recipes over all files; else over near ones only.
    """
    den = den or rng.randint(2, 1000)
    lengths = recipe_lengths(rng, files, recipes, most_pins, longest)
    lists = [near_files(rng, files, n, reach or files) for n in lengths]
    marks = [PINNED if rng.random() < pinned else FREE for _ in range(files)]
    marks[rng.randrange(files)] = FREE
    job = job_of_recipes(
        lists,
        sizes=[rng.randint(1, top_size) for _ in range(files)],
        sides=[A] * files,
        marks=marks,
        num=rng.randint(1, den - 1),
        den=den,
        cap=cap,
    )
    return job.changed(sides=wide_window_sides(rng, job))


def unbalanced_job(rng, files, recipes, side):
    """A job with all files on this side, or, with none, each on any: few start balanced."""
    pinned, top_size = rng.choice([0, 0.1, 0.4, 0.8]), rng.choice([1, 3, 9, 65535])
    job = random_job(rng, files, recipes, pinned=pinned, top_size=top_size)
    sides = [rng.randint(A, B) if side is None else side for _ in range(files)]
    return job.changed(sides=sides, num=rng.randint(1, job.den - 1))


def unread_job(rng, files, recipes, part, **more):
    """A random job with such a part of its files unread, balanced where it can be."""
    job = random_job(rng, files, recipes, **more)
    marks = [UNREAD if rng.random() < part else mark for mark in job.marks]
    marks[rng.randrange(files)] = FREE
    job = job.changed(marks=marks)
    return job.changed(sides=sides_in_window(job))


def wider_job(rng, files, recipes, k, **more):
    """A random job whose sides are just within the window at k, where they can be: few
    are balanced at 1. Some have unread files."""
    job = unread_job(rng, files, recipes, rng.choice([0, 0, 0.2]), **more)
    sides = [rng.choice((A, B)) for _ in range(files)]
    job = job.changed(sides=sides, num=rng.randint(1, job.den - 1), k=k)
    return job.changed(sides=sides_in_window(job))
