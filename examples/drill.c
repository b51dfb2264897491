/* Document 01's drill call by call: reads the tape's records, makes the calls, and prints a line for each. */
#include <stdio.h>

#include "trainer.h"

static const uint8_t tape[] = {0x01, 0x00, 0x48, 0x09, 0x00, 0x01, 0x48, 0x01, 0x01, 0x48, 0x0A, 0x00, 0x00, 0xC8, 0x04, 0x00, 0x01, 0xC8, 0x04, 0x02, 0x01, 0x02};
static uint8_t memory[TRAINER_STORE], cache[TRAINER_STORE], directory[TRAINER_DIRECTORY];
static uint32_t answer[TRAINER_ANSWER];

/* One call, for a record of one of the first three kinds with these fields. */
static uint32_t call(uint64_t kind, uint32_t unit, uint32_t target, uint32_t value)
{
    if (kind == TRAINER_KIND_LOAD)
        return trainer_load(directory, sizeof directory, memory, sizeof memory, cache, sizeof cache, unit, target, answer, TRAINER_ANSWER);
    if (kind == TRAINER_KIND_STORE)
        return trainer_store(directory, sizeof directory, memory, sizeof memory, cache, sizeof cache, unit, target, value, answer, TRAINER_ANSWER);
    return trainer_flush(directory, sizeof directory, memory, sizeof memory, cache, sizeof cache, unit, target, answer, TRAINER_ANSWER);
}

int main(void)
{
    static const char *const words[] = {[TRAINER_KIND_LOAD] = "load", [TRAINER_KIND_STORE] = "store", [TRAINER_KIND_FLUSH] = "flush"};
    unsigned calls = 0, orders = 0;
    size_t place = 0, next = 0;
    uint64_t n[TRAINER_RECORD];

    if (trainer_cold_start(memory, sizeof memory, cache, sizeof cache, 0, 0, directory, sizeof directory) != 0)
        return 1;
    while (place < sizeof tape) {
        uint32_t refusal = trainer_read_record(tape, sizeof tape, place, &next, n, TRAINER_RECORD);
        if (refusal != 0) {
            printf("refused %u at %zu\n", (unsigned)refusal, next);
            return 1;
        }
        place = next;
        if (n[0] > TRAINER_KIND_FLUSH)
            continue;
        if (call(n[0], (uint32_t)n[1], (uint32_t)n[2], (uint32_t)n[3]) != 0)
            return 1;
        printf("%s %u %u", words[n[0]], (unsigned)n[1], (unsigned)n[2]);
        if (n[0] != TRAINER_KIND_FLUSH)
            printf(" %u", (unsigned)(n[0] == TRAINER_KIND_LOAD ? answer[TRAINER_VALUE] : n[3]));
        printf(" orders %u\n", (unsigned)answer[TRAINER_COUNT]);
        calls += 1;
        orders += answer[TRAINER_COUNT];
    }
    printf("total %u calls %u orders\n", calls, orders);
    return 0;
}
