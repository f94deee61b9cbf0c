// The check of many blocks by one function, CHECK: what bench/run times for order 4 of document 02.
//
// by_multiplication is the check as it was before that order, and stands here alone. by_running_sums is
// the check as bench/planner.c has it. check_of is the proved function, which bench/run links beside.
// None is put in place of its call, since the proved one cannot be.
typedef unsigned char uint8_t;
typedef unsigned short uint16_t;
typedef unsigned int uint32_t;

extern int printf(const char *, ...);

enum { BLOCK = 512, CHECKED = 510 };

__attribute__((noinline)) uint16_t by_multiplication(const uint8_t *block) {
    uint32_t sum = 21845;
    for (int i = 0; i < CHECKED; i++) {
        sum += (uint32_t)(i + 1) * block[i];
    }
    return sum % 65536;
}

__attribute__((noinline)) uint16_t by_running_sums(const uint8_t *block) {
    uint32_t tail = 0, sum = 21845;
    for (int i = CHECKED; i-- > 0;) {
        tail += block[i];
        sum += tail;
    }
    return sum % 65536;
}

extern uint16_t check_of(const uint8_t *block);

// Each answer goes into the block, so that no two blocks are the same and no call can be left out.
int main(void) {
    static uint8_t block[BLOCK];
    uint32_t answers = 0;
    for (int turn = 0; turn < TURNS; turn++) {
        uint16_t answer = CHECK(block);
        block[turn % CHECKED] = answer >> 8 ^ answer;
        answers = 31 * answers + answer;
    }
    printf("%u\n", answers);
    return 0;
}
