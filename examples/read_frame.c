/* Reads a frame with one symbol spoiled and the first just below its mark, and prints the payload, how many codewords were
 * repaired, the drift and which symbols were hurt; then the same frame cut short, which is refused; then a frame without a
 * header, with one symbol spoiled. */
#include <inttypes.h>
#include <stdio.h>

#include "lora.h"

/* The payload 6F0074A6F401 at SF 9, CR 4 (4/8), checksum on. The first symbol was sent as 412, the tenth as 497. */
static const uint16_t symbols[] = {411, 4,   480, 460, 224, 112, 28, 112, 60,  100, 279, 381,
                                   120, 349, 416, 464, 0,   496, 263, 382, 127, 159, 160, 95};
enum { SYMBOLS = sizeof symbols / sizeof symbols[0] };

/* The payload 1234 without a header at SF 7. Two bytes, CR 3 (4/7), checksum on were agreed. The ninth was sent as 6. */
static const uint16_t small[] = {4, 8, 80, 88, 68, 112, 28, 36, 7, 126, 0, 0, 32, 8, 8};
enum { SMALL = sizeof small / sizeof small[0] };

static uint8_t payload[LORA_MAX_PAYLOAD], hurts[LORA_MAX_SYMBOLS];
static uint64_t answer[LORA_READ_CELLS];

/* Prints what a reading left in the lists above. */
static uint8_t print(uint8_t number)
{
    size_t i;

    if (number != LORA_OK) {
        printf("refused: %s (number %u, place %" PRIu64 ")\n", lora_meaning(number), (unsigned)number, answer[0]);
        return number;
    }
    printf("payload ");
    for (i = 0; i < answer[0]; i++)
        printf("%02X", payload[i]);
    printf(", CR %" PRIu64 ", checksum %" PRIu64 ", symbols used %" PRIu64 ", repairs %" PRIu64 ", drift %" PRId64 ", hurt",
           answer[1], answer[2], answer[3], answer[4], (int64_t)answer[5]);
    for (i = 0; i < answer[3]; i++)
        if (hurts[i] > 0)
            printf(" %zu:%u", i, (unsigned)hurts[i]);
    printf("\n");
    return LORA_OK;
}

static uint8_t read_and_print(size_t count)
{
    return print(lora_read(9, 0, symbols, count, payload, sizeof payload, hurts, sizeof hurts, answer, LORA_READ_CELLS));
}

static uint8_t read_small_and_print(void)
{
    return print(lora_read_agreed(7, 0, 2, 3, 1, small, SMALL, payload, sizeof payload, hurts, sizeof hurts, answer,
                                  LORA_READ_CELLS));
}

int main(void)
{
    int good = read_and_print(SYMBOLS) == LORA_OK;

    good &= read_and_print(20) == LORA_FEW_SYMBOLS;
    good &= read_small_and_print() == LORA_OK;
    return good ? 0 : 1;
}
