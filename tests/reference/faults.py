"""Stored jobs with faults: blocks that are changed byte by byte and checked anew."""

import planner
import samples


class Blocks:
    """The blocks of a stored job, open to change; each gets its check at the end."""

    def __init__(self, job):
        data = planner.write_job(job)
        count = len(data) // planner.BLOCK
        self.blocks = [bytearray(planner.block_at(data, b)) for b in range(count)]
        # What each block's check is off by.
        self.steps = [0] * count

    def set_byte(self, block, at, byte):
        self.blocks[block][at] = byte

    def set_value(self, block, at, value):
        """The value numbered at, from 0, in a block."""
        start = 4 + 2 * at
        self.blocks[block][start : start + 2] = planner.two_bytes(value)

    def value(self, block, at):
        return planner.number_at(self.blocks[block], 4 + 2 * at)

    def set_step(self, block, step):
        self.steps[block] = step

    def add_copy(self, block):
        """One block more at the end, a copy of this one."""
        self.blocks.append(bytearray(self.blocks[block]))
        self.steps.append(0)

    def change_seconds(self, new):
        """Each file's second value in block 1, side + 2·mark, made anew."""
        for at in range(1, self.blocks[1][3], 2):
            self.set_value(1, at, new(self.value(1, at)))

    def stored(self):
        data = b""
        for block, step in zip(self.blocks, self.steps):
            check = (planner.block_check(block) + step) % 65536
            data += bytes(block[: planner.CHECKED]) + planner.two_bytes(check)
        return data


# Faults of the stored chain, which has one block of each kind, in the order in
# which reading, and then the run, looks for them. No two touch the same bytes,
# so that a pair keeps both.
IN_ORDER = (
    ((21, 0), lambda blocks: blocks.set_step(0, 1)),
    ((22, 0), lambda blocks: blocks.set_byte(0, 2, 2)),
    ((1, 0), lambda blocks: blocks.set_value(0, 1, 0)),
    ((2, 0), lambda blocks: blocks.set_value(0, 0, 1025)),
    ((20, 0), lambda blocks: blocks.add_copy(3)),
    ((21, 1), lambda blocks: blocks.set_step(1, 256)),
    ((22, 1), lambda blocks: blocks.set_byte(1, 509, 1)),
    ((21, 2), lambda blocks: blocks.set_step(2, 65535)),
    ((22, 2), lambda blocks: blocks.set_byte(2, 0, 3)),
    ((21, 3), lambda blocks: blocks.set_step(3, 7)),
    ((22, 3), lambda blocks: blocks.set_byte(3, 3, 7)),
    ((4, 1), lambda blocks: blocks.set_value(2, 2, 3)),
    ((5, 3), lambda blocks: blocks.set_value(3, 3, 4)),
    ((6, 2), lambda blocks: blocks.set_value(1, 4, 0)),
    ((7, 0), lambda blocks: blocks.set_value(0, 3, 2)),
    ((8, 0), lambda blocks: blocks.change_seconds(lambda second: second | 2)),
    ((9, 0), lambda blocks: blocks.change_seconds(lambda second: second & 2)),
)


# Order 8: A is to hold a quarter, and may hold 0. It stands between 8 and 9. Beside it the
# ratio's 7 is a num of 0, since one of 2 is below this den.
EMPTY_VAULT = ((10, 0), lambda blocks: blocks.set_value(0, 4, 4))
NO_NUM = ((7, 0), lambda blocks: blocks.set_value(0, 3, 0))
BEFORE_10 = tuple(NO_NUM if fault[0] == (7, 0) else fault for fault in IN_ORDER[:-1])
AFTER_10 = IN_ORDER[-1:]


# Order 6: a header with seven values that holds no k, which is 22 of block 0.
WRONG_SEVENTH = ((22, 0), lambda blocks: blocks.set_value(0, 6, 5))


def stored_chain(faults, k=1):
    """The chain's bytes at k with these faults planted one after the other."""
    blocks = Blocks(samples.chain().changed(k=k))
    for _, plant in faults:
        plant(blocks)
    return blocks.stored()
