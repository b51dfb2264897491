/* Three records: asks how many bytes each takes, takes exactly so much space, writes them one after the other, and prints the size and the bytes of
 * each. */
#include <stdio.h>
#include <stdlib.h>

#include "trainer.h"

enum { RECORDS = 3 };

static int refused(uint32_t refusal)
{
    printf("refused %u\n", (unsigned)refusal);
    return 1;
}

int main(void)
{
    static const char *const words[RECORDS] = {"load 3 584", "store 2 72 4294967295", "stamp 18446744073709551615"};
    static const uint64_t records[RECORDS][TRAINER_RECORD] = {
        {TRAINER_KIND_LOAD, 3, 584},
        {TRAINER_KIND_STORE, 2, 72, 4294967295},
        {TRAINER_KIND_STAMP, 18446744073709551615u},
    };
    size_t sizes[RECORDS], total = 0, place = 0, written, k, n;
    uint32_t refusal;
    uint8_t *tape;

    for (k = 0; k < RECORDS; k++) {
        refusal = trainer_record_size(records[k], TRAINER_RECORD, &sizes[k]);
        if (refusal != 0)
            return refused(refusal);
        total += sizes[k];
    }
    tape = malloc(total);
    if (tape == NULL)
        return 1;
    for (k = 0; k < RECORDS; k++) {
        refusal = trainer_write_record(records[k], TRAINER_RECORD, tape + place, sizes[k], &written);
        if (refusal != 0) {
            free(tape);
            return refused(refusal);
        }
        printf("%s, %zu bytes:", words[k], sizes[k]);
        for (n = 0; n < written; n++)
            printf(" %02X", (unsigned)tape[place + n]);
        printf("\n");
        place += written;
    }
    printf("written %zu of %zu bytes\n", place, total);
    free(tape);
    return 0;
}
