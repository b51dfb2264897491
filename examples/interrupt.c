/* An interrupt on the J-Bus to target 3 from agent 28: its address cycle written and read back, two cycles that are refused, an agent of
 * each other row of Table 5-3, and a target that no cycle can name. */
#include <inttypes.h>
#include <stddef.h>
#include <stdio.h>

#include "trainer.h"

static void read_and_print(uint64_t upper, uint64_t lower)
{
    static const char *const words[] = {
        [TRAINER_DEVICE_PROCESSOR] = "processor",
        [TRAINER_DEVICE_NOT_SUPPORTED] = "not supported",
        [TRAINER_DEVICE_ILLEGAL] = "illegal",
        [TRAINER_DEVICE_BRIDGE_0] = "I/O bridge 0",
        [TRAINER_DEVICE_BRIDGE_1] = "I/O bridge 1",
    };
    uint32_t target, agent, device;
    const uint32_t refusal = trainer_read_interrupt(upper, lower, &target, &agent, &device);

    printf("%016" PRIX64 " %016" PRIX64 ": ", upper, lower);
    if (refusal == 0)
        printf("target %" PRIu32 ", agent %" PRIu32 ", %s\n", target, agent, words[device]);
    else
        printf("refused %" PRIu32 "\n", refusal);
}

int main(void)
{
    static const uint32_t agents[] = {0, 3, 4, 5, 6, 7, 8, 11, 30, 31};
    uint64_t upper, lower;
    uint32_t refusal = trainer_write_interrupt(3, 28, &upper, &lower);

    if (refusal != 0) {
        printf("refused %" PRIu32 "\n", refusal);
        return 1;
    }
    printf("target 3 from agent 28: %016" PRIX64 " %016" PRIX64 "\n", upper, lower);
    read_and_print(upper, lower);
    read_and_print(upper | 1, lower | 1);
    read_and_print(upper, lower | 1);
    for (size_t k = 0; k < sizeof agents / sizeof agents[0]; k++)
        if (trainer_write_interrupt(3, agents[k], &upper, &lower) == 0)
            read_and_print(upper, lower);
    refusal = trainer_write_interrupt(32, 28, &upper, &lower);
    printf("target 32 from agent 28: refused %" PRIu32 "\n", refusal);
    return 0;
}
