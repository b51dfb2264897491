/* A machine of which units 2 and 3 have write-through boards: loads and stores of the word at 72, with steal off, and after another cold start with steal
 * on. A line for each call has the states of its slot in the four units and the word in memory, as the call left them; the orders that the call gave
 * follow. */
#include <stdio.h>

#include "trainer.h"

enum { WRITE_THROUGH = 1 << 2 | 1 << 3, ADDRESS = 72, SLOT = ADDRESS / TRAINER_BLOCK % TRAINER_SLOTS };

static uint8_t memory[TRAINER_STORE], cache[TRAINER_STORE], directory[TRAINER_DIRECTORY];
static uint32_t answer[TRAINER_ANSWER];

struct access {
    uint32_t kind, unit, value;
};

enum { LOAD = TRAINER_KIND_LOAD, STORE = TRAINER_KIND_STORE };

static uint32_t call(struct access a)
{
    if (a.kind == LOAD)
        return trainer_load(directory, sizeof directory, memory, sizeof memory, cache, sizeof cache, a.unit, ADDRESS, answer, TRAINER_ANSWER);
    return trainer_store(directory, sizeof directory, memory, sizeof memory, cache, sizeof cache, a.unit, ADDRESS, a.value, answer, TRAINER_ANSWER);
}

static const char *state(unsigned unit)
{
    static const char *const words[] = {[TRAINER_INVALID] = "I", [TRAINER_SHARED] = "SU", [TRAINER_MODIFIED] = "EM"};

    return words[directory[2 * (TRAINER_SLOTS * unit + SLOT)]];
}

static unsigned word_in_memory(void)
{
    const uint8_t *word = memory + ADDRESS;

    return (unsigned)word[0] << 24 | (unsigned)word[1] << 16 | (unsigned)word[2] << 8 | word[3];
}

static void print_orders(void)
{
    static const char *const words[] = {
        [TRAINER_READ] = "read",
        [TRAINER_MODIFIED_READ] = "modified read",
        [TRAINER_INVALIDATE] = "invalidate",
        [TRAINER_COPYBACK] = "copyback",
        [TRAINER_MEMORY_WRITE] = "memory write",
    };

    for (uint32_t k = 0; k < answer[TRAINER_COUNT]; k++) {
        const uint32_t *order = answer + TRAINER_FIRST_ORDER + TRAINER_ORDER * k;
        printf("  unit %u, %s, block %u%s\n", (unsigned)order[0], words[order[1]], (unsigned)order[2], order[3] == 1 ? ", retried" : "");
    }
}

/* The calls after a cold start, which leaves memory as it is; gives the first refusal, which ends them, or 0. */
static uint32_t run(uint32_t steal, const struct access *calls, size_t count)
{
    uint32_t refusal = trainer_cold_start(memory, sizeof memory, cache, sizeof cache, WRITE_THROUGH, steal, directory, sizeof directory);

    printf("steal %s\n", steal == 1 ? "on" : "off");
    for (size_t k = 0; refusal == 0 && k < count; k++) {
        const int load = calls[k].kind == LOAD;
        refusal = call(calls[k]);
        if (refusal != 0)
            break;
        printf("%s %u %d %u: ", load ? "load" : "store", (unsigned)calls[k].unit, ADDRESS, (unsigned)(load ? answer[TRAINER_VALUE] : calls[k].value));
        printf("%s %s %s %s, memory %u\n", state(0), state(1), state(2), state(3), word_in_memory());
        print_orders();
    }
    return refusal;
}

int main(void)
{
    static const struct access off[] = {{STORE, 0, 9},  {STORE, 2, 10}, {LOAD, 2, 0}, {STORE, 2, 11}, {LOAD, 0, 0},
                                        {STORE, 0, 12}, {STORE, 3, 13}, {LOAD, 3, 0}, {STORE, 1, 14}, {LOAD, 3, 0}};
    static const struct access on[] = {{STORE, 0, 15}, {LOAD, 2, 0}, {STORE, 1, 16}, {STORE, 0, 17}, {STORE, 3, 18}, {LOAD, 1, 0}};
    uint32_t refusal = run(0, off, sizeof off / sizeof off[0]);

    if (refusal == 0)
        refusal = run(1, on, sizeof on / sizeof on[0]);
    if (refusal != 0) {
        printf("refused %u\n", (unsigned)refusal);
        return 1;
    }
    return 0;
}
