"""A plain reference for the two-vault split, written from documents 01 and 02 alone.

It is slow and simple on purpose. The gain of every file of a recipe that a move
touches is counted anew from the split, so no step here rests on the scans that
it lists: the scans are worked out beside the gains and never used to change one.
Only the buckets of edition 2 follow them, since order 9 says by them which file
enters when. Edition 3 lists no scans; its binding numbers and vectors are counted
anew in the same way as the gains.

The documents' words are the names. Sentences of theirs are quoted where a line
follows them.
"""

from dataclasses import dataclass, replace
from functools import cached_property

# "At most 1,024 files, 1,024 recipes, 4,096 pins; den at most 1,000."
MOST_FILES = 1024
MOST_RECIPES = 1024
MOST_PINS = 4096
MOST_DEN = 1000
# "A whole number k, 1 to 4."
MOST_K = 4

A, B = 0, 1
FREE, PINNED, UNREAD = 0, 1, 2

# "Edition 2 of the choice, beside edition 1." Order 12 adds edition 3 and makes this
# (1, 2, 3): until then a call by 3 is refused, and one_pass and all_passes know it.
EDITIONS = (1, 2)
# "An edition other than 1, 2 and those that a later order adds."
NO_EDITION = 32


# ---- A job


@dataclass(frozen=True)
class Job:
    """The lists and figures of a job; nothing here says that it is sound."""

    sizes: tuple
    sides: tuple
    marks: tuple
    bounds: tuple
    pins: tuple
    num: int
    den: int
    cap: int
    k: int = 1

    def __post_init__(self):
        # Tuples, so that no later change of a caller's list reaches a job.
        for name in ("sizes", "sides", "marks", "bounds", "pins"):
            object.__setattr__(self, name, tuple(getattr(self, name)))

    def changed(self, **fields):
        """The same job with some fields put anew."""
        return replace(self, **fields)

    @property
    def files(self):
        """C."""
        return len(self.sizes)

    @property
    def recipes(self):
        """N: "the bounds list has N+1 numbers; with fewer than two, N is 0"."""
        return max(len(self.bounds) - 1, 0)

    @cached_property
    def weights(self):
        """What each file weighs: an unread one "counts neither in W, |A| or smax"."""
        return [
            0 if mark == UNREAD else size for size, mark in zip(self.sizes, self.marks)
        ]

    @cached_property
    def total(self):
        """W, "the sum of all sizes", those of the unread files left out."""
        return sum(self.weights)

    @cached_property
    def largest(self):
        """smax, "over files with mark 0"; "refusal 8 still stands before 9, so there
        is always a smax"."""
        return max(size for size, mark in zip(self.sizes, self.marks) if mark == FREE)

    @property
    def tolerance(self):
        """What "the balance test uses": "k·smax on both sides"."""
        return self.k * self.largest

    @cached_property
    def whole_recipes(self):
        """All files of each recipe, for a job whose bounds are sound."""
        return [view(self.bounds, self.pins, j) for j in range(self.recipes)]

    @cached_property
    def readable_recipes(self):
        """The readable files of each recipe: no other counts in "cut, gains, T or F".

        "A recipe with fewer than two readable files is never cut, adds nothing to
        gains and is never scanned": it keeps its number, and is empty here.
        """
        lists = []
        for files in self.whole_recipes:
            readable = [file for file in files if self.marks[file] != UNREAD]
            lists.append(readable if len(readable) >= 2 else [])
        return lists

    @cached_property
    def file_recipes(self):
        """The recipes in which each file counts, "in rising number"."""
        lists = [[] for _ in range(self.files)]
        for j, files in enumerate(self.readable_recipes):
            for file in files:
                lists[file].append(j)
        return lists

    @cached_property
    def unread(self):
        """ "The number of unread files and of recipes that hold one"."""
        holding = [
            files
            for files in self.whole_recipes
            if any(self.marks[file] == UNREAD for file in files)
        ]
        return self.marks.count(UNREAD), len(holding)


def view(bounds, pins, j):
    """The part of the pins that is recipe j's own.

    Empty "if there is no such recipe, or its two bounds are out of order or
    beyond the pins".
    """
    if j + 1 >= len(bounds):
        return []
    start, end = bounds[j], bounds[j + 1]
    if start > end or end > len(pins):
        return []
    return list(pins[start:end])


# ---- Numbers for no: each finder gives the place of its refusal, or None


def first(places):
    return next(iter(places), None)


def place_if(refused, place=0):
    return place if refused else None


def find_1(job, lent_ok):
    return place_if(job.files == 0 or job.recipes == 0)


def find_2(job, lent_ok):
    return place_if(over_most(job.files, job.recipes, len(job.pins)))


def over_most(files, recipes, pins):
    return files > MOST_FILES or recipes > MOST_RECIPES or pins > MOST_PINS


def find_3(job, lent_ok):
    own = len(job.sides) == job.files and len(job.marks) == job.files
    return place_if(not own or not lent_ok)


def find_4(job, lent_ok):
    """Three tests, each over the whole job before the next."""
    bounds = job.bounds
    if bounds[0] != 0:
        return 0
    short = first(j for j in range(job.recipes) if bounds[j + 1] < 2 + bounds[j])
    if short is not None:
        return short
    return place_if(bounds[job.recipes] != len(job.pins), job.recipes)


def find_5(job, lent_ok):
    """The lowest position over all recipes, which hold the pins in order."""
    for j in range(job.recipes):
        for position in range(job.bounds[j], job.bounds[j + 1]):
            earlier = job.pins[job.bounds[j] : position]
            pin = job.pins[position]
            if pin >= job.files or pin in earlier:
                return position
    return None


def find_6(job, lent_ok):
    return first(
        i
        for i in range(job.files)
        if job.sizes[i] == 0 or job.sides[i] > 1 or job.marks[i] > UNREAD
    )


def find_7(job, lent_ok):
    """The ratio, and "after the ratio" k."""
    ratio = job.num == 0 or job.num >= job.den or job.den > MOST_DEN
    return place_if(ratio or wrong_k(job))


def wrong_k(job):
    """ "Any other k" than "1 to 4"."""
    return not 1 <= job.k <= MOST_K


def find_8(job, lent_ok):
    return place_if(FREE not in job.marks)


def find_9(job, lent_ok):
    return place_if(not balanced(job, size_of_a(job, job.sides)))


def find_10(job, lent_ok):
    """ "A job whose window would allow a vault of size 0", A or B."""
    goal, slack = job.num * job.total, job.den * job.tolerance
    return place_if(goal <= slack or goal + slack >= job.den * job.total)


# By number, in the order in which they run: 10 "stands after 8 and before 9".
FINDERS = {
    1: find_1,
    2: find_2,
    3: find_3,
    4: find_4,
    5: find_5,
    6: find_6,
    7: find_7,
    8: find_8,
    10: find_10,
    9: find_9,
}


def refusal(job, lent_ok, last):
    """Checks run in this order, up to the one numbered last, "and the first that
    applies is the answer"."""
    for number, find in FINDERS.items():
        place = find(job, lent_ok)
        if place is not None:
            return number, place
        if number == last:
            break
    return 0, 0


def check(job, lent_ok=True):
    """The number 0 to 10 and its place. lent_ok: the lists lent have their lengths."""
    return refusal(job, lent_ok, 9)


def measure(job):
    """Number, place, cut, |A| and the two unread numbers: "gives 1 to 6", with nothing
    moved."""
    number, place = refusal(job, True, 6)
    if number:
        return number, place, 0, 0, 0, 0
    return 0, 0, cut(job, job.sides), size_of_a(job, job.sides), *job.unread


def scratch_numbers(job, edition=1):
    """ "Scratch of at least P + 4C + 4N + 16 numbers", and "for edition 2 P + 4C + 8N +
    16"; for edition 3 it "is as in edition 1"."""
    for_recipes = 8 if edition == 2 else 4
    return len(job.pins) + 4 * job.files + for_recipes * job.recipes + 16


def lent_fits(job, gains, moves, scans, scratch, edition=1):
    """Whether lent lists of these lengths serve: one, four, two and one of them."""
    return (
        gains == job.files
        and all(length >= job.files for length in moves)
        and all(length >= 4 * job.recipes for length in scans)
        and scratch >= scratch_numbers(job, edition)
    )


def edition_refusal(edition, job, lent_ok):
    """Number and place of a pass or run: 32, "place 0, before all other checks"."""
    if edition not in EDITIONS:
        return NO_EDITION, 0
    return check(job, lent_ok)


# ---- Gain, cut, balance


def side_count(files, sides):
    """How many of these files are in A and in B."""
    in_b = sum(sides[file] for file in files)
    return len(files) - in_b, in_b


def side_counts(job, sides):
    """For each recipe, its number of readable files in A and in B."""
    return [side_count(files, sides) for files in job.readable_recipes]


def cut_of(counts):
    """ "The cut is the number of cut recipes", those with files in both vaults."""
    return sum(1 for in_a, in_b in counts if in_a and in_b)


def cut(job, sides):
    return cut_of(side_counts(job, sides))


def gain_of(job, sides, counts, file):
    """ "The count of its recipes where it is alone on its side, less the count of those
    with no file on the other side." """
    own_side = sides[file]
    own_counts = [counts[j] for j in job.file_recipes[file]]
    alone = sum(1 for count in own_counts if count[own_side] == 1)
    return alone - sum(1 for count in own_counts if count[1 - own_side] == 0)


def all_gains(job, sides):
    """The gain of every file, counted from the split alone."""
    counts = side_counts(job, sides)
    return [gain_of(job, sides, counts, file) for file in range(job.files)]


def count_anew(job, sides, counts, gains, moved):
    """Counts and gains once a file has moved: its recipes, and every file of them, are
    counted from the split. In all others nothing has changed."""
    for j in job.file_recipes[moved]:
        counts[j] = side_count(job.readable_recipes[j], sides)
    touched = {i for j in job.file_recipes[moved] for i in job.readable_recipes[j]}
    for file in touched:
        gains[file] = gain_of(job, sides, counts, file)


def size_of_a(job, sides):
    return sum(weight for weight, side in zip(job.weights, sides) if side == A)


def too_small(job, size_a):
    return job.den * size_a + job.den * job.tolerance < job.num * job.total


def too_large(job, size_a):
    return job.den * size_a > job.num * job.total + job.den * job.tolerance


def balanced(job, size_a):
    """Both tests in whole numbers, as document 01 writes them, but for k."""
    return not too_small(job, size_a) and not too_large(job, size_a)


# ---- One pass


def size_after(job, sides, size_a, file):
    """|A| once the file has changed its side."""
    weight = job.weights[file]
    return size_a - weight if sides[file] == A else size_a + weight


def choose(job, sides, locked, gains):
    """The file to move, or None when no legal move exists.

    "Choose the legal move of greatest gain; of equals the least distance
    between den·|A| after it and num·W; of equals the lowest file number."
    """
    size_a = size_of_a(job, sides)
    best = None
    for file in range(job.files):
        # One of less gain than another legal one is not chosen.
        if locked[file] or (best and -gains[file] > best[0]):
            continue
        after = size_after(job, sides, size_a, file)
        if not balanced(job, after):
            continue
        distance = abs(job.den * after - job.num * job.total)
        rank = (-gains[file], distance, file)
        if best is None or rank < best:
            best = rank
    return None if best is None else best[2]


def scans_of_move(job, sides, locked, file):
    """The scans of a move, as (recipe, kind). sides: the split before the move.

    Of a recipe of the moved file, T counts "its files on the side moved to,
    before the move, and F those left on the other side, after it". The moved
    file is in neither count.
    """
    side_to = 1 - sides[file]
    scans = []
    for j in job.file_recipes[file]:
        others = [other for other in job.readable_recipes[j] if other != file]
        files_t = [other for other in others if sides[other] == side_to]
        files_f = [other for other in others if sides[other] != side_to]
        if len(files_t) == 0:
            scans.append((j, 1))
        if len(files_t) == 1 and not locked[files_t[0]]:
            scans.append((j, 2))
        if len(files_f) == 0:
            scans.append((j, 3))
        if len(files_f) == 1 and not locked[files_f[0]]:
            scans.append((j, 4))
    return scans


# ---- The choice of edition 2


def enter(buckets, sides, file, gain):
    """A file "enters the front" of the bucket of its vault and this gain."""
    buckets[sides[file]].setdefault(gain, []).insert(0, file)


def leave(buckets, sides, file):
    """A file leaves its bucket; the gain by which it stood there."""
    own_buckets = buckets[sides[file]]
    gain = next(gain for gain, files in own_buckets.items() if file in files)
    own_buckets[gain].remove(file)
    return gain


def full_buckets(job, sides, locked):
    """ "Each vault has buckets by gain. Free files enter at the front in rising
    number." Of each vault a dictionary: gain, and its files from the front on."""
    buckets = ({}, {})
    gains = all_gains(job, sides)
    for file in range(job.files):
        if not locked[file]:
            enter(buckets, sides, file, gains[file])
    return buckets


def changed_by(job, sides, locked, file, recipe, kind):
    """The free files that a scan of this move changes, "pins in order", and by what.
    sides: the split before the move."""
    files = [other for other in job.readable_recipes[recipe] if not locked[other]]
    if kind == 2:
        files = [other for other in files if sides[other] != sides[file]]
    if kind == 4:
        files = [other for other in files if sides[other] == sides[file]]
    return files, 1 if kind in (1, 4) else -1


def follow_scans(job, sides, locked, buckets, file, scans):
    """ "A file changed by a scan enters the front of its new one", scan by scan."""
    for recipe, kind in scans:
        changed, step = changed_by(job, sides, locked, file, recipe, kind)
        for other in changed:
            enter(buckets, sides, other, leave(buckets, sides, other) + step)


def front(own_buckets):
    """ "The front file of each vault's highest nonempty bucket", or None."""
    gains = [gain for gain, files in own_buckets.items() if files]
    return own_buckets[max(gains)][0] if gains else None


def choose_front(job, sides, buckets, gains):
    """The file to move, or None: "if neither qualifies the pass stops".

    A front file is "rejected if its move is not legal; of two take the greater
    gain, then the better balance, then the one from A".
    """
    size_a = size_of_a(job, sides)
    ranks = []
    for vault in (A, B):
        file = front(buckets[vault])
        if file is None:
            continue
        after = size_after(job, sides, size_a, file)
        if balanced(job, after):
            distance = abs(job.den * after - job.num * job.total)
            ranks.append((-gains[file], distance, vault, file))
    return min(ranks)[3] if ranks else None


# ---- The choice of edition 3

# "Three levels."
LEVELS = (1, 2, 3)
# Above every count, and equal to none.
UNLIMITED = float("inf")


def binding_number(job, sides, locked, recipe, side):
    """ "The count of its free files there, or unlimited if a locked file of it is
    there."

    Locked is pinned, or moved in this pass. "Unread files, and recipes with fewer
    than two readable ones, count in no level": the first are in no list of readable
    files, and of the second that list is empty.
    """
    there = [file for file in job.readable_recipes[recipe] if sides[file] == side]
    if any(locked[file] for file in there):
        return UNLIMITED
    return len(there)


def binding_numbers(job, sides, locked, recipe):
    """Those of A and of B."""
    return [binding_number(job, sides, locked, recipe, side) for side in (A, B)]


def counts_for(i, own, other):
    """What a recipe of these two binding numbers is for level i of a free file: 1, -1 or 0.

    The level "counts its recipes whose own-side number is i and other-side number
    above 0, less those whose own-side number is above 0 and other-side number is
    i - 1".
    """
    more = own == i and other > 0
    less = own > 0 and other == i - 1
    return int(more) - int(less)


def counts_for_all(in_a, in_b):
    """The same for each level, of a file in A and of one in B."""
    return [
        tuple(counts_for(i, *numbers) for i in LEVELS)
        for numbers in ((in_a, in_b), (in_b, in_a))
    ]


def vector_of(job, sides, counted, file):
    """ "The gain vector is three signed numbers." A file on no recipe has three zeros."""
    own = [counted[j][sides[file]] for j in job.file_recipes[file]]
    return tuple(map(sum, zip(*own))) if own else (0,) * len(LEVELS)


@dataclass
class Foresight:
    """What edition 3 looks at: the two binding numbers of each recipe, what it counts for
    by them, and the vector of each file, of which only those of free files are used."""

    numbers: list
    counted: list
    vectors: list


def full_foresight(job, sides, locked):
    """All of it, counted from the split and the locks alone."""
    numbers = [binding_numbers(job, sides, locked, j) for j in range(job.recipes)]
    counted = [counts_for_all(*pair) for pair in numbers]
    vectors = [vector_of(job, sides, counted, file) for file in range(job.files)]
    return Foresight(numbers, counted, vectors)


def look_anew(job, sides, locked, foresight, moved):
    """The same once a file is locked and has moved: its recipes, and every file of them,
    are counted anew. In all others nothing has changed."""
    for j in job.file_recipes[moved]:
        foresight.numbers[j] = binding_numbers(job, sides, locked, j)
        foresight.counted[j] = counts_for_all(*foresight.numbers[j])
    touched = {i for j in job.file_recipes[moved] for i in job.readable_recipes[j]}
    for file in touched:
        foresight.vectors[file] = vector_of(job, sides, foresight.counted, file)


def choose_by_vector(job, sides, locked, vectors):
    """The file to move, or None when no legal move exists.

    Vectors are "compared from level 1 on; of all legal moves take the greatest,
    then balance, then the lowest number". Balance is the least distance, as in
    edition 1.
    """
    size_a = size_of_a(job, sides)
    best = best_vector = best_distance = None
    for file in range(job.files):
        # One of a lesser vector than another legal one is not chosen.
        if locked[file] or (best is not None and vectors[file] < best_vector):
            continue
        after = size_after(job, sides, size_a, file)
        if not balanced(job, after):
            continue
        distance = abs(job.den * after - job.num * job.total)
        # Of equals the lowest number was there first.
        if best is None or vectors[file] > best_vector or distance < best_distance:
            best, best_vector, best_distance = file, vectors[file], distance
    return best


def choose_by(edition, job, sides, locked, buckets, foresight, gains):
    """ "Demand 2 reads with each edition's own choice and stop." """
    if edition == 3:
        return choose_by_vector(job, sides, locked, foresight.vectors)
    if edition == 2:
        return choose_front(job, sides, buckets, gains)
    return choose(job, sides, locked, gains)


# ---- A pass by each


def best_prefix(cuts):
    """How many moves to keep. cuts[k] is the cut after k moves; cuts[0] the start.

    "The prefix of moves with the least cut, the shortest of equals; no move at
    all is a prefix."
    """
    return cuts.index(min(cuts))


@dataclass
class PassAnswer:
    """The answer of a pass, the sides it leaves, and what the lent lists hold."""

    cut_before: int
    cut_after: int
    size_a: int
    tried: int
    kept: int
    scans: int
    visits: int
    unread: tuple
    sides: list
    gains: list
    # The four move lists, "the first C move entries".
    move_files: list
    move_gains: list
    move_cuts: list
    move_scans: list
    # The two scan lists, "first 4N scan entries".
    scan_recipes: list
    scan_kinds: list


def padded(entries, length):
    """The lists "hold the lists, then zeros"."""
    return list(entries) + [0] * (length - len(entries))


def end_gains(job, sides, move_files, move_gains):
    """ "What stood after the last move tried: a moved file keeps the gain it had
    when chosen, a pinned file holds 0"; an unread one "holds 0 in the gain list"."""
    return listed_gains(job, all_gains(job, sides), move_files, move_gains)


def listed_gains(job, stood, move_files, move_gains):
    """The gain list, by what stood after the last move."""
    gains = list(stood)
    for file in range(job.files):
        if job.marks[file] != FREE:
            gains[file] = 0
    for file, gain in zip(move_files, move_gains):
        gains[file] = gain
    return gains


def sides_after(sides, moved):
    """The split once these files have changed their sides."""
    after = list(sides)
    for file in moved:
        after[file] = 1 - after[file]
    return after


def one_pass(job, start, edition=1):
    """One pass over a sound job from the given sides, by an edition that there is."""
    sides = list(start)
    locked = [mark != FREE for mark in job.marks]
    buckets = full_buckets(job, sides, locked) if edition == 2 else None
    foresight = full_foresight(job, sides, locked) if edition == 3 else None
    counts, gains = side_counts(job, sides), all_gains(job, sides)
    cuts = [cut_of(counts)]
    move_files, move_gains, move_scans, scans = [], [], [], []
    while True:
        file = choose_by(edition, job, sides, locked, buckets, foresight, gains)
        if file is None:
            break
        locked[file] = True
        # By edition 3 "scan and visit counts, the scan lists and the fourth move list
        # are zeros".
        own_scans = [] if foresight else scans_of_move(job, sides, locked, file)
        if buckets:
            leave(buckets, sides, file)
            follow_scans(job, sides, locked, buckets, file, own_scans)
        scans += own_scans
        sides[file] = 1 - sides[file]
        move_files.append(file)
        # "Gains listed are level 1."
        move_gains.append(foresight.vectors[file][0] if foresight else gains[file])
        move_scans.append(len(scans))
        count_anew(job, sides, counts, gains, file)
        if foresight:
            look_anew(job, sides, locked, foresight, file)
        cuts.append(cut_of(counts))
    if foresight:
        first_levels = [vector[0] for vector in foresight.vectors]
        last_gains = listed_gains(job, first_levels, move_files, move_gains)
    else:
        last_gains = end_gains(job, sides, move_files, move_gains)
    kept = best_prefix(cuts)
    left = sides_after(start, move_files[:kept])
    return PassAnswer(
        cut_before=cuts[0],
        cut_after=cuts[kept],
        size_a=size_of_a(job, left),
        tried=len(move_files),
        kept=kept,
        scans=len(scans),
        # "Visits of other scans still count the whole recipe."
        visits=sum(len(job.whole_recipes[j]) for j, _ in scans),
        unread=job.unread,
        sides=left,
        gains=last_gains,
        move_files=padded(move_files, job.files),
        move_gains=padded(move_gains, job.files),
        move_cuts=padded(cuts[1:], job.files),
        move_scans=padded(move_scans, job.files),
        scan_recipes=padded([j for j, _ in scans], 4 * job.recipes),
        scan_kinds=padded([kind for _, kind in scans], 4 * job.recipes),
    )


# ---- A run


@dataclass
class RunAnswer:
    """The answer of a run; last holds the last pass, whose sides and lists stand."""

    number: int = 0
    place: int = 0
    cut_before: int = 0
    cut_after: int = 0
    size_a: int = 0
    passes: int = 0
    settled: bool = False
    tried: int = 0
    kept: int = 0
    scans: int = 0
    visits: int = 0
    unread: tuple = (0, 0)
    last: PassAnswer = None


def all_passes(job, edition=1):
    """ "Passes follow one another until one leaves the cut equal, or the cap is
    reached." A cap of 0 is none."""
    answers = []
    sides = job.sides
    while True:
        answer = one_pass(job, sides, edition)
        answers.append(answer)
        sides = answer.sides
        if answer.cut_after == answer.cut_before or len(answers) == job.cap:
            return answers


def run(job, lent_ok=True, edition=1):
    """The passes of a job, or its refusal with all other numbers 0."""
    number, place = edition_refusal(edition, job, lent_ok)
    if number:
        return RunAnswer(number, place)
    answers = all_passes(job, edition)
    last = answers[-1]
    return RunAnswer(
        cut_before=answers[0].cut_before,
        cut_after=last.cut_after,
        size_a=last.size_a,
        passes=len(answers),
        settled=last.cut_after == last.cut_before,
        tried=sum(answer.tried for answer in answers),
        kept=sum(answer.kept for answer in answers),
        scans=sum(answer.scans for answer in answers),
        visits=sum(answer.visits for answer in answers),
        # "Never summed."
        unread=last.unread,
        last=last,
    )


# ---- A pass and a run with all that they are lent


@dataclass
class Lent:
    """The lists lent beside the job, as they are before a call or after it."""

    gains: list
    # Four, and two.
    moves: list
    scans: list
    scratch: list

    def fits(self, job, edition):
        return lent_fits(
            job,
            gains=len(self.gains),
            moves=[len(one) for one in self.moves],
            scans=[len(one) for one in self.scans],
            scratch=len(self.scratch),
            edition=edition,
        )


def over(entries, lent):
    """These entries, and those beyond as they were: "further entries stay"."""
    return list(entries) + list(lent[len(entries) :])


def lent_after(job, edition, last, lent):
    """What the last pass leaves in the lists that were lent."""
    moves = (last.move_files, last.move_gains, last.move_cuts, last.move_scans)
    scans = (last.scan_recipes, last.scan_kinds)
    # "The scratch numbers named above are 0, any beyond stay."
    named = [0] * scratch_numbers(job, edition)
    return Lent(
        gains=last.gains,
        moves=[over(*each) for each in zip(moves, lent.moves)],
        scans=[over(*each) for each in zip(scans, lent.scans)],
        scratch=over(named, lent.scratch),
    )


def pass_figures(answer):
    """ "Cut before and after, |A| after, moves tried and kept, scans, visits", and the
    two unread numbers."""
    sizes = (answer.cut_before, answer.cut_after, answer.size_a)
    counts = (answer.tried, answer.kept, answer.scans, answer.visits)
    return *sizes, *counts, *answer.unread


def run_figures(answer):
    """ "That of a pass, with the number of passes and settled besides." """
    return *pass_figures(answer), answer.passes, int(answer.settled)


def pass_call(job, edition, lent):
    """Number and place, the figures, the sides, and what was lent, after a pass."""
    number, place = edition_refusal(edition, job, lent.fits(job, edition))
    if number:
        # "All other numbers of a refused answer are 0 and no lent list changes."
        return number, place, (0,) * 9, list(job.sides), lent
    answer = one_pass(job, job.sides, edition)
    after = lent_after(job, edition, answer, lent)
    return 0, 0, pass_figures(answer), answer.sides, after


def run_call(job, edition, lent):
    """The same after a run; "the lists are the last pass's"."""
    answer = run(job, lent.fits(job, edition), edition)
    if answer.number:
        return answer.number, answer.place, (0,) * 11, list(job.sides), lent
    after = lent_after(job, edition, answer.last, lent)
    return 0, 0, run_figures(answer), answer.last.sides, after


# ---- A balanced start


@dataclass
class BalanceAnswer:
    """The answer of the balancing call, and the sides and the scratch it leaves."""

    number: int = 0
    place: int = 0
    moves: int = 0
    cut_after: int = 0
    size_a: int = 0
    unread: tuple = (0, 0)
    sides: list = None
    scratch: list = None


def size_with_free_files(job, side):
    """|A| with every free file on this side."""
    sides = [side if m == FREE else s for s, m in zip(job.sides, job.marks)]
    return size_of_a(job, sides)


def no_start_is_balanced(job):
    """ "No assignment of the free files is balanced."

    A stays too large without any of them, or too small with all. Between these
    two no step is wider than smax, and at every k the window is twice as wide at
    least.
    """
    return too_large(job, size_with_free_files(job, B)) or too_small(
        job, size_with_free_files(job, A)
    )


def choose_from(job, sides, side):
    """ "The free file of A with the greatest gain, lowest number among equals", or
    "the same from B"; "gains as they stand"."""
    gains = all_gains(job, sides)
    files = [i for i in range(job.files) if job.marks[i] == FREE and sides[i] == side]
    return max(files, key=lambda file: (gains[file], -file))


def balancing_moves(job):
    """The sides, and the number of moves made, where some start is balanced.

    "While A is too large ...; while A is too small, the same from B."
    """
    sides = list(job.sides)
    moves = 0
    for side, off in ((A, too_large), (B, too_small)):
        while off(job, size_of_a(job, sides)):
            file = choose_from(job, sides, side)
            sides[file] = 1 - side
            moves += 1
    return sides, moves


def balance(job, scratch=None):
    """ "Source 001's special first pass": "refusals are 1 to 8 as before", 10, "and 9".

    "It is lent the job and a pass's scratch, which holds zeros afterwards as
    there": the numbers named are 0, "any beyond stay". Without a scratch it is
    lent one that just serves.
    """
    named = scratch_numbers(job)
    lent = [0] * named if scratch is None else list(scratch)
    # "The balancing call gives 10 too; for jobs past it, its 9 keeps its meaning."
    number, place = refusal(job, len(lent) >= named, 10)
    if number == 0 and no_start_is_balanced(job):
        number = 9
    if number:
        # "No lent list changes."
        return BalanceAnswer(number, place, sides=list(job.sides), scratch=lent)
    sides, moves = balancing_moves(job)
    return BalanceAnswer(
        moves=moves,
        cut_after=cut(job, sides),
        size_a=size_of_a(job, sides),
        unread=job.unread,
        sides=sides,
        scratch=[0] * named + lent[named:],
    )


# ---- The stored job

BLOCK = 512
CHECKED = 510  # the bytes that a block's check covers
VALUES = 253
FILES_TO_A_BLOCK = 126
HEADER, FILES, BOUNDS, PINS = 1, 2, 3, 4
# "A header with six values means k = 1. One with seven carries k."
HEADER_COUNTS = (6, 7)
# "The reader answers k as a seventh figure."
HEADER_FIGURES = 7
# Side plus 4, the second value of an unread file in B.
MOST_SECOND = 5

# Lengths lent for sizes, sides, marks, bounds and pins.
ROOM_FOR_THE_LARGEST = (MOST_FILES, MOST_FILES, MOST_FILES, MOST_RECIPES + 1, MOST_PINS)


def two_bytes(number):
    """ "Low byte first everywhere." """
    return number.to_bytes(2, "little")


def number_at(data, at):
    return int.from_bytes(data[at : at + 2], "little")


def block_check(block):
    """ "21,845 plus the sum of (i+1) times byte i over the first 510", in two bytes."""
    total = sum((i + 1) * byte for i, byte in enumerate(block[:CHECKED]))
    return (21845 + total) % 65536


def make_block(number, kind, values):
    """A whole block with its check. The values are at most 253."""
    head = two_bytes(number) + bytes([kind, len(values)])
    body = b"".join(two_bytes(value) for value in values)
    checked = (head + body).ljust(CHECKED, b"\0")
    return checked + two_bytes(block_check(checked))


def value_counts(files, recipes, pins, header=HEADER_COUNTS[0]):
    """Kind and count of values of each block, in order, as the header makes them.

    "Only the last block of a kind may be short; a kind with no values has no
    block." A file takes two values.
    """
    return (
        [(HEADER, header)]
        + [(FILES, 2 * count) for count in split(files, FILES_TO_A_BLOCK)]
        + [(BOUNDS, count) for count in split(recipes + 1, VALUES)]
        + [(PINS, count) for count in split(pins, VALUES)]
    )


def split(total, most):
    """The counts that fill blocks of this most in turn."""
    full, short = divmod(total, most)
    return [most] * full + ([short] if short else [])


def file_values(job):
    """ "Two values each, size and then side + 2·mark", which is "side plus 4" for an
    unread file."""
    values = []
    for size, side, mark in zip(job.sizes, job.sides, job.marks):
        values += [size, side + 2 * mark]
    return values


def write_values(header, files, bounds, pins):
    """The blocks of these values, cut as their own lengths say, faults and all."""
    values = list(header) + list(files) + list(bounds) + list(pins)
    counts = value_counts(len(files) // 2, len(bounds) - 1, len(pins), len(header))
    blocks = []
    for number, (kind, count) in enumerate(counts):
        blocks.append(make_block(number, kind, values[:count]))
        values = values[count:]
    return b"".join(blocks)


def header_values(job):
    """Six values where k is 1, and else k as a seventh."""
    values = (job.files, job.recipes, len(job.pins), job.num, job.den, job.cap)
    return values if job.k == 1 else (*values, job.k)


def write_job(job):
    """The stored form of a job."""
    return write_values(header_values(job), file_values(job), job.bounds, job.pins)


def stored_length(job):
    """How many bytes the blocks of a job take."""
    return BLOCK * len(value_counts(job.files, job.recipes, len(job.pins)))


def write(job, output):
    """The writer: number, place, and the bytes of the output list afterwards.

    "A job that passes checks 1 to 6 becomes the blocks of document 01"; "an
    output list not exactly as long as the blocks is refused as 3". For another k
    "the writer gives 7 for it too, last, and still carries any ratio".
    """
    number, place = refusal(job, len(output) == stored_length(job), 6)
    if number == 0 and wrong_k(job):
        number = 7
    return number, place, output if number else write_job(job)


def block_at(data, number):
    return data[BLOCK * number : BLOCK * (number + 1)]


def block_values(block, count):
    return [number_at(block, 4 + 2 * i) for i in range(count)]


def block_refusal(data, number, kind, count):
    """ "21 then 22" of one block: number of the refusal, or 0."""
    block = block_at(data, number)
    if number_at(block, CHECKED) != block_check(block):
        return 21
    head = two_bytes(number) + bytes([kind, count])
    unused = block[4 + 2 * count : CHECKED]
    if block[:4] != head or any(unused):
        return 22
    values = block_values(block, count)
    if kind == HEADER and wrong_seventh(values):
        return 22
    # "22 a file's second value over 5."
    if kind == FILES and any(second > MOST_SECOND for second in values[1::2]):
        return 22
    return 0


def wrong_seventh(header):
    """A header with seven values "must hold 2, 3 or 4, else 22"."""
    return any(not 2 <= k <= MOST_K for k in header[6:])


def header_count(data):
    """How many values block 0 is to hold: what it says, if a header can have so many,
    and else six, which its head then is not."""
    return data[3] if data[3] in HEADER_COUNTS else HEADER_COUNTS[0]


def refused_reading(number, place):
    """ "All other numbers of a refused answer are 0." """
    return number, place, (0,) * HEADER_FIGURES, None


def read_job(data, room=None):
    """Number, place, the header's seven figures and the job (None when refused).

    The order of the refusals is that of "The stored job", and reading "stops
    after check 6".
    """
    if len(data) < BLOCK:
        return refused_reading(20, 0)
    count = header_count(data)
    number = block_refusal(data, 0, HEADER, count)
    if number:
        return refused_reading(number, 0)
    # "A header with six values means k = 1."
    header = (*block_values(block_at(data, 0), count), 1)[:HEADER_FIGURES]
    number = header_refusal(header, room or ROOM_FOR_THE_LARGEST)
    if number:
        return refused_reading(number, 0)
    counts = value_counts(*header[:3], count)
    if len(data) != BLOCK * len(counts):
        return refused_reading(20, 0)
    for block, (kind, count) in enumerate(counts[1:], start=1):
        number = block_refusal(data, block, kind, count)
        if number:
            return refused_reading(number, block)
    job = job_of_blocks(data, header, counts)
    number, place = refusal(job, True, 6)
    if number:
        return refused_reading(number, place)
    return 0, 0, header, job


def header_refusal(header, room):
    """ "Refusals 1 and 2 from the header; 3 for a lent list too short." """
    files, recipes, pins = header[:3]
    if files == 0 or recipes == 0:
        return 1
    if over_most(files, recipes, pins):
        return 2
    needed = (files, files, files, recipes + 1, pins)
    if any(have < need for have, need in zip(room, needed)):
        return 3
    return 0


def job_of_blocks(data, header, counts):
    """The job that blocks of a right layout hold."""
    lists = {HEADER: [], FILES: [], BOUNDS: [], PINS: []}
    for number, (kind, count) in enumerate(counts):
        lists[kind] += block_values(block_at(data, number), count)
    seconds = lists[FILES][1::2]
    return Job(
        sizes=lists[FILES][0::2],
        sides=[second % 2 for second in seconds],
        marks=[second // 2 for second in seconds],
        bounds=lists[BOUNDS],
        pins=lists[PINS],
        num=header[3],
        den=header[4],
        cap=header[5],
        k=header[6],
    )


# ---- Two stored jobs compared

# "What differs": the first of "1 to 7", the first of "8 to 10", and "11".
FIGURES_DIFFER = 1
FILES_DIFFER = 8
PINS_DIFFER = 11
# "A list that is too short is refused as 30."
TOO_SHORT = 30
# "C, N, P, num, den, cap, k", three of each file and one of each recipe.
MOST_DIFFERENCES = HEADER_FIGURES + 3 * MOST_FILES + MOST_RECIPES


def header_figures(job):
    """ "C, N, P, num, den, cap, k", and "a header without k as k = 1"."""
    return job.files, job.recipes, len(job.pins), job.num, job.den, job.cap, job.k


def file_figures(job, file):
    """ "Size, side, mark"; a file that a job lacks "is compared as zeros"."""
    if file >= job.files:
        return 0, 0, 0
    return job.sizes[file], job.sides[file], job.marks[file]


def figure_differences(start, number, old_figures, new_figures):
    """Those of two rows of figures that are not equal, from the kind start on."""
    figures = zip(old_figures, new_figures)
    return [
        (what, number, old, new)
        for what, (old, new) in enumerate(figures, start)
        if old != new
    ]


def recipe_difference(recipe, old_pins, new_pins):
    """ "11, with the two lengths, given if the pin sequences differ"."""
    if old_pins == new_pins:
        return []
    return [(PINS_DIFFER, recipe, len(old_pins), len(new_pins))]


def differences(old, new):
    """The records of two jobs that pass checks 1 to 6, "in this order".

    Each holds "what differs, its number, the old and the new figure".
    """
    # "1 to 7 for C, N, P, num, den, cap, k (number 0)."
    records = figure_differences(
        FIGURES_DIFFER, 0, header_figures(old), header_figures(new)
    )
    # "Then file by file 8 to 10 for size, side, mark."
    for file in range(max(old.files, new.files)):
        records += figure_differences(
            FILES_DIFFER, file, file_figures(old, file), file_figures(new, file)
        )
    # "Then recipe by recipe 11"; the view of a recipe that a job lacks is "empty".
    for recipe in range(max(old.recipes, new.recipes)):
        records += recipe_difference(
            recipe,
            view(old.bounds, old.pins, recipe),
            view(new.bounds, new.pins, recipe),
        )
    return records


def first_refused(readings):
    """Job, number and place: "a refusal names its job, 1 or 2, job 1's first"."""
    for job, (number, place, _, _) in enumerate(readings, start=1):
        if number:
            return job, number, place
    return 0, 0, 0


def compare(old_bytes, new_bytes, room):
    """Job, number, place, the number of records, and the lent list afterwards.

    "The two jobs are read up to check 6." Refused, the list is "left as it was",
    and the count is 0 but for 30, which has "the number needed".
    """
    readings = read_job(old_bytes), read_job(new_bytes)
    job, number, place = first_refused(readings)
    if number:
        return job, number, place, 0, list(room)
    (_, _, _, old), (_, _, _, new) = readings
    records = differences(old, new)
    # "After both, a list that is too short."
    if len(room) < len(records):
        return 0, TOO_SHORT, 0, len(records), list(room)
    # "Entries beyond the last record stay."
    return 0, 0, 0, len(records), records + list(room[len(records) :])


# ---- The program's words


def refused_line(number, place):
    return f"refused {number} {place}\n"


def first_lines(answer):
    """ "If the first is not 0 the program's first line is `partial` in place of `done`,
    and a line `unread` with both numbers follows it."""
    files, recipes = answer.unread
    return ["partial", f"unread {files} {recipes}"] if files else ["done"]


def sides_line(job, sides):
    """The last line: "one letter for each file", and `?` for one that is unread."""
    return "sides " + "".join(
        "?" if mark == UNREAD else "AB"[side] for side, mark in zip(sides, job.marks)
    )


def read_and(call, refused, data):
    """The job in these bytes and the call's answer, which has the refusal of either."""
    number, place, _, job = read_job(data)
    return job, refused(number, place) if number else call(job)


def size_line(job, answer):
    """The sizes of A and B after."""
    return f"size {answer.size_a} {job.total - answer.size_a}"


def run_by(edition):
    """The run of a job by this edition."""
    return lambda job: run(job, edition=edition)


def run_stored(data, edition=1):
    """What the program prints for these bytes on standard input; "the night program
    stays with 1"."""
    job, answer = read_and(run_by(edition), RunAnswer, data)
    if answer.number:
        return refused_line(answer.number, answer.place)
    lines = [
        *first_lines(answer),
        f"cut {answer.cut_before} {answer.cut_after}",
        size_line(job, answer),
        f"passes {answer.passes}",
        f"settled {'yes' if answer.settled else 'no'}",
        f"kept {answer.kept}",
        f"visits {answer.visits}",
        sides_line(job, answer.last.sides),
    ]
    return "\n".join(lines) + "\n"


def resettle(data, edition=1):
    """The stored job with the sides after its run, and what standard error says.

    All else is as it was; of a refused job no byte is written.
    """
    job, answer = read_and(run_by(edition), RunAnswer, data)
    if answer.number:
        return b"", refused_line(answer.number, answer.place)
    return write_job(job.changed(sides=answer.last.sides)), ""


def balance_stored(data):
    """The stored job with a balanced start, and what standard error says of it."""
    job, answer = read_and(balance, BalanceAnswer, data)
    if answer.number:
        return b"", refused_line(answer.number, answer.place)
    lines = [
        *first_lines(answer),
        f"moves {answer.moves}",
        f"cut {answer.cut_after}",
        size_line(job, answer),
    ]
    return write_job(job.changed(sides=answer.sides)), "\n".join(lines) + "\n"


def move_lines(answer):
    """Each move tried, followed by its own scans."""
    lines = []
    start = 0
    for k in range(answer.tried):
        lines.append(
            f"move {answer.move_files[k]} {answer.move_gains[k]} {answer.move_cuts[k]}"
        )
        end = answer.move_scans[k]
        for recipe, kind in zip(
            answer.scan_recipes[start:end], answer.scan_kinds[start:end]
        ):
            lines.append(f"scan {recipe} {kind}")
        start = end
    return lines


def trace(data, edition=1):
    """One pass over a stored job, move by move."""
    number, place, _, job = read_job(data)
    if number == 0:
        number, place = check(job)
    if number:
        return refused_line(number, place)
    answer = one_pass(job, job.sides, edition)
    lines = first_lines(answer)
    lines += move_lines(answer)
    lines += [
        "gains " + " ".join(str(gain) for gain in answer.gains),
        f"cut {answer.cut_before} {answer.cut_after}",
        size_line(job, answer),
        f"tried {answer.tried}",
        f"kept {answer.kept}",
        f"scans {answer.scans}",
        f"visits {answer.visits}",
        sides_line(job, answer.sides),
    ]
    return "\n".join(lines) + "\n"


def edition_of(words, unsaid=None):
    """The edition that a program's arguments name: one of them, in decimal. Where they
    name none that there is, None; without arguments, the one that goes unsaid."""
    if not words:
        return unsaid
    named = {str(edition): edition for edition in EDITIONS}
    return named.get(words[0]) if len(words) == 1 else None


REFUSED_EDITION = refused_line(NO_EDITION, 0)


def edition_program(words, data):
    """What the program `edition` prints: the night's report by that edition, and
    "`refused 32 0` for any other argument, before anything is read"."""
    edition = edition_of(words)
    return REFUSED_EDITION if edition is None else run_stored(data, edition)


def trace_program(words, data):
    """What `trace` prints, which "takes the edition as its one argument, and 1 without"."""
    edition = edition_of(words, unsaid=1)
    return REFUSED_EDITION if edition is None else trace(data, edition)


def resettle_program(words, data):
    """What `resettle` writes, and what it says on standard error: "likewise"."""
    edition = edition_of(words, unsaid=1)
    return (b"", REFUSED_EDITION) if edition is None else resettle(data, edition)


def compare_program(old_bytes, new_bytes):
    """The bytes that the program prints of two files' bytes.

    "Each record's four numbers on a line, one space between, or `refused`, job,
    number and place." Its list has room for the most records.
    """
    room = [(0, 0, 0, 0)] * MOST_DIFFERENCES
    job, number, place, count, room = compare(old_bytes, new_bytes, room)
    if number:
        return f"refused {job} {number} {place}\n".encode()
    lines = [" ".join(map(str, record)) for record in room[:count]]
    return "".join(line + "\n" for line in lines).encode()


def file_or_empty(name):
    """A file's bytes, "one that can't be opened counting as empty"."""
    try:
        with open(name, "rb") as file:
            return file.read()
    except OSError:
        return b""


def compare_files(names):
    """What the program prints of two names; a file that is not named counts as empty
    too."""
    old_bytes, new_bytes, *_ = [*map(file_or_empty, names), b"", b""]
    return compare_program(old_bytes, new_bytes)


def main(words, data):
    """The report of the bytes; with the word `trace` their trace, or with the word
    `edition` their report by one, which is named behind either word."""
    if words[:1] == ["trace"]:
        return trace_program(words[1:], data)
    if words[:1] == ["edition"]:
        return edition_program(words[1:], data)
    return run_stored(data)


if __name__ == "__main__":
    import sys

    if sys.argv[1:2] == ["compare"]:
        sys.stdout.buffer.write(compare_files(sys.argv[2:]))
    else:
        sys.stdout.write(main(sys.argv[1:], sys.stdin.buffer.read()))
