/* Three lists of accesses on one machine, each in one call: document 01's six accesses; a list whose third access names no unit; and one that goes on where
 * that list stopped. A line for each access has its place in the values' space, which holds 77 everywhere before the call. */
#include <stdio.h>

#include "trainer.h"

enum { BEFORE = 77, MOST = 6 };

static uint8_t memory[TRAINER_STORE], cache[TRAINER_STORE], directory[TRAINER_DIRECTORY];

enum { LOAD = TRAINER_KIND_LOAD, STORE = TRAINER_KIND_STORE, FLUSH = TRAINER_KIND_FLUSH };

static void print_access(const uint32_t *access)
{
    static const char *const words[] = {[LOAD] = "load", [STORE] = "store", [FLUSH] = "flush"};

    printf("%s %u %u", words[access[0]], (unsigned)access[1], (unsigned)access[2]);
    if (access[0] == STORE)
        printf(" %u", (unsigned)access[3]);
}

/* One list; gives its refusal, or 0. */
static uint32_t run(const uint32_t *accesses, size_t size)
{
    uint32_t values[MOST], index, orders, refusal;
    const size_t count = size / TRAINER_ACCESS;

    for (size_t k = 0; k < MOST; k++)
        values[k] = BEFORE;
    refusal = trainer_batch(directory, sizeof directory, memory, sizeof memory, cache, sizeof cache, accesses, size, values, MOST, &index, &orders);
    for (size_t k = 0; k < count; k++) {
        print_access(accesses + TRAINER_ACCESS * k);
        printf(": %u\n", (unsigned)values[k]);
    }
    if (refusal == 0)
        printf("accepted: ");
    else
        printf("refused %u at %u: ", (unsigned)refusal, (unsigned)index);
    printf("%u of %zu made, %u orders\n", (unsigned)index, count, (unsigned)orders);
    return refusal;
}

int main(void)
{
    static const uint32_t drill[] = {STORE, 0, 72, 9, LOAD, 1, 72, 0, STORE, 1, 72, 10, LOAD, 0, 584, 0, LOAD, 1, 584, 0, FLUSH, 1, 2, 0};
    static const uint32_t refused[] = {LOAD, 2, 72, 0, STORE, 3, 72, 11, LOAD, 4, 72, 0, LOAD, 2, 72, 0};
    static const uint32_t rest[] = {LOAD, 2, 72, 0};
    uint32_t refusal = trainer_cold_start(memory, sizeof memory, cache, sizeof cache, 0, 0, directory, sizeof directory);

    if (refusal == 0)
        refusal = run(drill, sizeof drill / sizeof drill[0]);
    if (refusal == 0 && run(refused, sizeof refused / sizeof refused[0]) == TRAINER_NO_UNIT)
        return run(rest, sizeof rest / sizeof rest[0]) == 0 ? 0 : 1;
    return 1;
}
