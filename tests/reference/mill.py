"""A believable mill: halls that keep to their own files, and archives that all share.

306 files, 300 recipes and 857 pins, the counts of the first example that source
document 001 reports on.
"""

import random

from planner import A, B, FREE, PINNED
from samples import job_of_recipes

FILES, RECIPES, PINS = 306, 300, 857
HALLS = 15
# The last files are the archives, too heavy to carry from vault to vault.
ARCHIVES = 6
SEED = 300


def hall_files(hall):
    """The files of one hall, which are neighbours."""
    per_hall = (FILES - ARCHIVES) // HALLS
    return range(hall * per_hall, (hall + 1) * per_hall)


def recipe_lengths(rng):
    """Most recipes take two files or three; all together take all pins."""
    lengths = [2] * RECIPES
    while sum(lengths) < PINS:
        # One recipe in thirty is long, and takes a fifth of what goes beyond two.
        step = 30 if rng.random() < 0.2 else 1
        j = rng.randrange(0, RECIPES, step)
        if lengths[j] < 12:
            lengths[j] += 1
    return lengths


def recipe(rng, hall, length):
    """Files of the hall, at times one of the next hall, at times an archive."""
    files = rng.sample(hall_files(hall), length)
    if rng.random() < 0.15:
        files[-1] = rng.choice(hall_files((hall + 1) % HALLS))
    if rng.random() < 0.08:
        files[0] = FILES - 1 - rng.randrange(ARCHIVES)
    return files


def size(rng, file):
    """Uneven: many small files, some of ten times that, archives above all."""
    if file >= FILES - ARCHIVES:
        return rng.randint(900, 1400)
    return rng.randint(4, 60) * rng.choice([1, 1, 1, 3, 10])


def starting_side(rng, file):
    """Half of the halls live in each vault, but a third of the files has strayed."""
    if file >= FILES - ARCHIVES:
        return file % 2
    hall = file // ((FILES - ARCHIVES) // HALLS)
    home = A if hall <= HALLS // 2 else B
    return 1 - home if rng.random() < 0.33 else home


def mill():
    """The whole job. Vault A is to take 11 parts in 20."""
    rng = random.Random(SEED)
    lengths = recipe_lengths(rng)
    return job_of_recipes(
        [recipe(rng, j % HALLS, length) for j, length in enumerate(lengths)],
        sizes=[size(rng, file) for file in range(FILES)],
        sides=[starting_side(rng, file) for file in range(FILES)],
        marks=[FREE] * (FILES - ARCHIVES) + [PINNED] * ARCHIVES,
        num=11,
        den=20,
        cap=0,
    )
