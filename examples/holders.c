/* A lamp for block 2: after a cold start, and after each call of a run, the units that hold the block, their set and how many they are. */
#include <stdio.h>

#include "trainer.h"

enum { BLOCK = 2, ADDRESS = TRAINER_BLOCK * BLOCK + 8, SAME_SLOT = ADDRESS + TRAINER_BLOCK * TRAINER_SLOTS };

static uint8_t memory[TRAINER_STORE], cache[TRAINER_STORE], directory[TRAINER_DIRECTORY];
static uint32_t answer[TRAINER_ANSWER];

struct access {
    uint32_t kind, unit, target, value;
};

enum { LOAD = TRAINER_KIND_LOAD, STORE = TRAINER_KIND_STORE, FLUSH = TRAINER_KIND_FLUSH };

static uint32_t call(struct access a)
{
    if (a.kind == LOAD)
        return trainer_load(directory, sizeof directory, memory, sizeof memory, cache, sizeof cache, a.unit, a.target, answer, TRAINER_ANSWER);
    if (a.kind == STORE)
        return trainer_store(directory, sizeof directory, memory, sizeof memory, cache, sizeof cache, a.unit, a.target, a.value, answer, TRAINER_ANSWER);
    return trainer_flush(directory, sizeof directory, memory, sizeof memory, cache, sizeof cache, a.unit, a.target, answer, TRAINER_ANSWER);
}

/* The end of a line: what the lamp shows. */
static uint32_t show(void)
{
    uint32_t set, count, refusal = trainer_holders(directory, sizeof directory, BLOCK, &set, &count);

    if (refusal != 0)
        return refusal;
    printf(": %s", count == 0 ? "nobody" : count == 1 ? "unit" : "units");
    for (unsigned unit = 0; unit < TRAINER_UNITS; unit++)
        if (set >> unit & 1)
            printf(" %u", unit);
    printf(", set %u, count %u\n", (unsigned)set, (unsigned)count);
    return 0;
}

int main(void)
{
    static const char *const words[] = {[LOAD] = "load", [STORE] = "store", [FLUSH] = "flush"};
    static const struct access calls[] = {{LOAD, 0, ADDRESS, 0}, {LOAD, 3, ADDRESS, 0},   {STORE, 3, ADDRESS, 9},
                                          {LOAD, 1, ADDRESS, 0}, {LOAD, 3, SAME_SLOT, 0}, {FLUSH, 1, BLOCK, 0}};
    uint32_t refusal = trainer_cold_start(memory, sizeof memory, cache, sizeof cache, 0, 0, directory, sizeof directory);

    printf("cold start");
    if (refusal == 0)
        refusal = show();
    for (size_t k = 0; refusal == 0 && k < sizeof calls / sizeof calls[0]; k++) {
        refusal = call(calls[k]);
        printf("%s %u %u", words[calls[k].kind], (unsigned)calls[k].unit, (unsigned)calls[k].target);
        if (refusal == 0)
            refusal = show();
    }
    if (refusal != 0) {
        printf(": refused %u\n", (unsigned)refusal);
        return 1;
    }
    return 0;
}
