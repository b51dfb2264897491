/* A message of 600 bytes between two boards: cut into its operations, handed to an idle receiver one by one, and a line printed for each. */
#include <stdio.h>
#include <string.h>

#include "trainer.h"

static uint8_t message[600], store[TRAINER_MESSAGE];
static uint64_t receiver[TRAINER_RECEIVER], completion[TRAINER_COMPLETION];

int main(void)
{
    static const char *const words[] = {
        [TRAINER_SINGLE] = "Single", [TRAINER_FIRST] = "First", [TRAINER_MIDDLE] = "Middle", [TRAINER_LAST] = "Last"};
    const uint32_t sender = 3, aid = 17;
    size_t operations, index, offset, length;
    uint32_t sequence, refusal;

    for (index = 0; index < sizeof message; index++)
        message[index] = (uint8_t)(7 * index);
    refusal = trainer_divide(message, sizeof message, sender, aid, &operations);
    for (index = 0; refusal == 0 && index < operations; index++) {
        refusal = trainer_operation(message, sizeof message, sender, aid, index, &sequence, &offset, &length);
        if (refusal != 0)
            break;
        refusal = trainer_receive(receiver, TRAINER_RECEIVER, store, sizeof store, sequence, sender, aid, message + offset, length, completion, TRAINER_COMPLETION);
        if (refusal != 0)
            break;
        printf("%s, %zu bytes from %zu: ", words[sequence], length, offset);
        if (completion[0] == 0)
            printf("pending at %u\n", (unsigned)receiver[3]);
        else
            printf("complete, sender %u, AID %u, length %u\n", (unsigned)completion[1], (unsigned)completion[2], (unsigned)completion[3]);
    }
    if (refusal != 0) {
        printf("refused %u\n", (unsigned)refusal);
        return 1;
    }
    printf("the store has %s\n", memcmp(store, message, sizeof message) == 0 ? "the message" : "other bytes");
    return 0;
}
