/* Reads what a station heard and puts each outcome into its tally; then takes in the tally of another station and prints the
 * panel of both. */
#include <inttypes.h>
#include <stdio.h>

#include "lora.h"

/* An empty payload at SF 7, CR 1 (4/5), checksum off; with the first symbol spoiled; with the first two spoiled; cut short. */
static const uint16_t heard[][8] = {
    {124, 48, 28, 0, 56, 28, 12, 0},
    {0, 48, 28, 0, 56, 28, 12, 0},
    {0, 0, 28, 0, 56, 28, 12, 0},
    {124, 48, 28, 0, 56, 28, 12},
};
static const size_t symbols[] = {8, 8, 8, 7};
enum { HEARD = sizeof heard / sizeof heard[0] };

static uint8_t payload[LORA_MAX_PAYLOAD], hurts[LORA_MAX_SYMBOLS];
static uint64_t answer[LORA_READ_CELLS];

static void print(const uint32_t *tally)
{
    unsigned number;

    printf("heard %" PRIu32 ", accepted clean %" PRIu32 ", accepted repaired %" PRIu32 "\n", tally[LORA_TALLY_HEARD],
           tally[LORA_TALLY_CLEAN], tally[LORA_TALLY_REPAIRED]);
    for (number = 1; number <= LORA_CHECKSUM; number++)
        if (tally[LORA_TALLY_REFUSED + number] > 0)
            printf("refused %" PRIu32 ": %s\n", tally[LORA_TALLY_REFUSED + number], lora_meaning((uint8_t)number));
}

int main(void)
{
    /* The other station's: five heard, three clean, two refused with 12. */
    static const uint32_t other[LORA_TALLY_CELLS] = {
        [LORA_TALLY_HEARD] = 5, [LORA_TALLY_CLEAN] = 3, [LORA_TALLY_REFUSED + LORA_CHECKSUM] = 2};
    uint32_t tally[LORA_TALLY_CELLS];
    size_t i;

    lora_tally_clear(tally, LORA_TALLY_CELLS);
    for (i = 0; i < HEARD; i++) {
        uint8_t number = lora_read(7, 0, heard[i], symbols[i], payload, sizeof payload, hurts, sizeof hurts, answer,
                                   LORA_READ_CELLS);

        if (lora_tally_hear(tally, LORA_TALLY_CELLS, number, answer, LORA_READ_CELLS) != LORA_OK)
            return 1;
    }
    if (lora_tally_take_in(tally, LORA_TALLY_CELLS, other, LORA_TALLY_CELLS) != LORA_OK)
        return 1;
    print(tally);
    return tally[LORA_TALLY_HEARD] == HEARD + 5 ? 0 : 1;
}
