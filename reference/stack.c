/* How deep each function of the library reaches into the stack. A thread calls it on a stack that was painted before, and
 * looks up the deepest byte that is not paint any more. Every setting is tried, with short and long frames, with a header
 * and without, clean and spoiled; and days without entries and with many, their files good and spoiled; and tallies with
 * room and without, with outcomes of every number. The small frame of the calling function and the arguments that it pushes
 * are counted in; what the dynamic loader needs to bind memcpy and memset at their first call is not. */
#define _POSIX_C_SOURCE 200809L
#include <pthread.h>
#include <stdio.h>
#include <stdlib.h>
#include <string.h>

#include "lora.h"

enum { STACK = 1 << 16, PAINT = 0xA5 };

static unsigned char stack[STACK] __attribute__((aligned(64)));
static size_t depth;

/* What the functions are called with. All of it is outside the stack. */
static uint8_t sf, low, cr, checksum;
static size_t length, count;
static uint8_t payload[LORA_MAX_PAYLOAD], out[LORA_MAX_PAYLOAD], hurts[LORA_MAX_SYMBOLS];
static uint16_t symbols[LORA_MAX_SYMBOLS];
static uint64_t answer[LORA_DAY_STEP_CELLS];
static uint8_t settings[12 * LORA_SETTING_ROW], payloads[255 * LORA_MAX_PAYLOAD], file[LORA_MAX_FILE];
static uint16_t frames[255 * LORA_FRAME_ROW], refused[255 * LORA_REFUSED_ROW];
static size_t settings_len, frames_len, payloads_len, refused_len, file_len;
static size_t at, left, named;
static uint8_t section;
static uint32_t tally[LORA_TALLY_CELLS], taken[LORA_TALLY_CELLS];
static uint8_t outcome;

static void call_code(void)
{
    lora_code(sf, low, cr, checksum, payload, length, symbols, LORA_MAX_SYMBOLS, answer, LORA_CODE_CELLS);
}

static void call_read(void)
{
    lora_read(sf, low, symbols, count, out, sizeof out, hurts, sizeof hurts, answer, LORA_READ_CELLS);
}

static void call_head(void)
{
    lora_head(sf, symbols, count, answer, LORA_HEAD_CELLS);
}

static void call_count(void)
{
    lora_count(sf, low, cr, checksum, length, answer, LORA_COUNT_CELLS);
}

static void call_airtime(void)
{
    lora_airtime(sf, low, cr, checksum, length, 125, 8, answer, LORA_AIRTIME_CELLS);
}

static void call_code_agreed(void)
{
    lora_code_agreed(sf, low, length, cr, checksum, payload, length, symbols, LORA_MAX_SYMBOLS, answer, LORA_CODE_CELLS);
}

static void call_read_agreed(void)
{
    lora_read_agreed(sf, low, length, cr, checksum, symbols, count, out, sizeof out, hurts, sizeof hurts, answer,
                     LORA_READ_CELLS);
}

static void call_count_agreed(void)
{
    lora_count_agreed(sf, low, length, cr, checksum, length, answer, LORA_COUNT_CELLS);
}

static void call_airtime_agreed(void)
{
    lora_airtime_agreed(sf, low, length, cr, checksum, length, 125, 8, answer, LORA_AIRTIME_CELLS);
}

static void call_day_write(void)
{
    lora_day_write(settings, settings_len, frames, frames_len, payloads, payloads_len, refused, refused_len, file,
                   sizeof file, answer, LORA_DAY_WRITE_CELLS);
}

static void call_day_check(void)
{
    lora_day_check(file, file_len, answer, LORA_DAY_CHECK_CELLS);
}

static void call_day_step(void)
{
    lora_day_step(file, file_len, at, section, left, named, answer, LORA_DAY_STEP_CELLS);
}

static void call_tally_clear(void)
{
    lora_tally_clear(tally, LORA_TALLY_CELLS);
}

static void call_tally_hear(void)
{
    lora_tally_hear(tally, LORA_TALLY_CELLS, outcome, answer, LORA_READ_CELLS);
}

static void call_tally_take_in(void)
{
    lora_tally_take_in(tally, LORA_TALLY_CELLS, taken, LORA_TALLY_CELLS);
}

struct function {
    const char *name;
    void (*call)(void);
    size_t deepest;
};
/* The first of each kind of frame makes the symbols that the others take. */
static struct function functions[] = {
    {"lora_code", call_code, 0},   {"lora_read", call_read, 0},       {"lora_head", call_head, 0},
    {"lora_count", call_count, 0}, {"lora_airtime", call_airtime, 0},
};
static struct function agreed_functions[] = {
    {"lora_code_agreed", call_code_agreed, 0},
    {"lora_read_agreed", call_read_agreed, 0},
    {"lora_count_agreed", call_count_agreed, 0},
    {"lora_airtime_agreed", call_airtime_agreed, 0},
};
static struct function day_functions[] = {
    {"lora_day_write", call_day_write, 0}, {"lora_day_check", call_day_check, 0}, {"lora_day_step", call_day_step, 0},
};
static struct function tally_functions[] = {
    {"lora_tally_clear", call_tally_clear, 0},
    {"lora_tally_hear", call_tally_hear, 0},
    {"lora_tally_take_in", call_tally_take_in, 0},
};
enum {
    FUNCTIONS = sizeof functions / sizeof functions[0],
    AGREED_FUNCTIONS = sizeof agreed_functions / sizeof agreed_functions[0]
};
enum { WRITE, CHECK, STEP, DAY_FUNCTIONS };
enum { CLEAR, HEAR, TAKE_IN, TALLY_FUNCTIONS };

/* Makes the call and looks for its traces at once: the end of a thread leaves others. */
static void *called_on_painted_stack(void *function)
{
    const unsigned char *top = __builtin_frame_address(0);
    const unsigned char *lowest = stack;

    ((struct function *)function)->call();
    while (*lowest == PAINT)
        lowest++;
    depth = (size_t)(top - lowest);
    return NULL;
}

static void measure(struct function *function)
{
    pthread_attr_t attributes;
    pthread_t thread;

    /* Binds memcpy and memset, if that is still to be done. */
    function->call();
    memset(stack, PAINT, sizeof stack);
    if (pthread_attr_init(&attributes) || pthread_attr_setstack(&attributes, stack, sizeof stack) ||
        pthread_create(&thread, &attributes, called_on_painted_stack, function) || pthread_join(thread, NULL)) {
        fputs("stack: no thread\n", stderr);
        exit(1);
    }
    pthread_attr_destroy(&attributes);
    if (depth > function->deepest)
        function->deepest = depth;
}

/* Codes the payload, changes so many symbols and calls each function of a kind. */
static void measure_frame(struct function *some, size_t number, size_t changed)
{
    size_t i;

    some[0].call();
    count = (size_t)answer[0];
    for (i = 0; i < changed; i++)
        symbols[(size_t)rand() % count] = (uint16_t)(rand() % (1 << sf));
    /* Coding writes the symbols anew, so it comes last. */
    for (i = number; i > 0; i--)
        measure(&some[i - 1]);
}

static void measure_setting(void)
{
    static const size_t lengths[] = {0, 6, 64, LORA_MAX_PAYLOAD};
    size_t i, changed;

    for (i = 0; i < sizeof lengths / sizeof lengths[0]; i++) {
        length = lengths[i];
        for (changed = 0; changed <= 4; changed += 2) {
            measure_frame(functions, FUNCTIONS, changed);
            measure_frame(agreed_functions, AGREED_FUNCTIONS, changed);
        }
    }
}

/* Rows of so many entries, with payloads of so many bytes. */
static void make_rows(size_t entries, size_t bytes)
{
    size_t i;

    settings_len = sizeof settings;
    for (i = 0; i < settings_len / LORA_SETTING_ROW; i++) {
        settings[2 * i] = (uint8_t)(7 + i / 2);
        settings[2 * i + 1] = (uint8_t)(i % 2);
    }
    frames_len = entries * LORA_FRAME_ROW;
    refused_len = entries * LORA_REFUSED_ROW;
    payloads_len = entries * bytes;
    for (i = 0; i < entries; i++) {
        uint16_t *frame = frames + i * LORA_FRAME_ROW, *other = refused + i * LORA_REFUSED_ROW;

        frame[0] = other[0] = (uint16_t)(i % 12);
        frame[1] = (uint16_t)(1 + i % 4);
        frame[2] = (uint16_t)(i % 2);
        frame[3] = (uint16_t)(i % 20);
        frame[4] = (uint16_t)bytes;
        other[1] = (uint16_t)(4 + i % 9);
        other[2] = (uint16_t)(i % 832);
    }
}

/* Walks the file, as far as that goes. */
static void measure_walk(void)
{
    at = left = named = 0;
    section = LORA_AT_START;
    for (;;) {
        measure(&day_functions[STEP]);
        if (lora_day_step(file, file_len, at, section, left, named, answer, LORA_DAY_STEP_CELLS) != LORA_OK ||
            answer[0] == LORA_END)
            return;
        at = (size_t)answer[1];
        section = (uint8_t)answer[2];
        left = (size_t)answer[3];
        named = (size_t)answer[4];
    }
}

/* Writes a day and reads its file, whole, cut and with a byte changed. */
static void measure_day(size_t entries, size_t bytes)
{
    size_t i;

    make_rows(entries, bytes);
    measure(&day_functions[WRITE]);
    call_day_write();
    file_len = (size_t)answer[0];
    measure(&day_functions[CHECK]);
    measure_walk();
    for (i = 1; i < file_len; i += 1 + file_len / 20) {
        uint8_t kept = file[i];

        file[i] = 255;
        measure(&day_functions[CHECK]);
        file[i] = kept;
    }
    file_len--;
    measure(&day_functions[CHECK]);
    /* One payload byte too many. */
    payloads_len++;
    measure(&day_functions[WRITE]);
}

/* Hears an outcome of every number, with this many repairs, and takes in a tally. So many in each cell are there before. */
static void measure_tally(uint32_t before, uint64_t repairs)
{
    size_t i;
    int every;

    answer[4] = repairs;
    for (every = 0; every <= 255; every++) {
        for (i = 0; i < LORA_TALLY_CELLS; i++)
            tally[i] = taken[i] = before;
        outcome = (uint8_t)every;
        measure(&tally_functions[HEAR]);
    }
    measure(&tally_functions[TAKE_IN]);
    measure(&tally_functions[CLEAR]);
}

/* Prints each function's depth; answers the deepest of them and of those before. */
static size_t printed(const struct function *some, size_t number, size_t deepest)
{
    size_t i;

    for (i = 0; i < number; i++) {
        printf("%s: %zu bytes\n", some[i].name, some[i].deepest);
        if (some[i].deepest > deepest)
            deepest = some[i].deepest;
    }
    return deepest;
}

int main(void)
{
    size_t i, deepest = 0;

    for (i = 0; i < sizeof payload; i++)
        payload[i] = (uint8_t)rand();
    for (sf = 7; sf <= 12; sf++)
        for (low = 0; low <= 1; low++)
            for (cr = 1; cr <= 4; cr++)
                for (checksum = 0; checksum <= 1; checksum++)
                    measure_setting();
    measure_day(0, 0);
    measure_day(3, 20);
    measure_day(255, 254);
    measure_tally(0, 0);
    measure_tally(7, 1);
    measure_tally(UINT32_MAX, 1);
    deepest = printed(functions, FUNCTIONS, deepest);
    deepest = printed(agreed_functions, AGREED_FUNCTIONS, deepest);
    deepest = printed(day_functions, DAY_FUNCTIONS, deepest);
    deepest = printed(tally_functions, TALLY_FUNCTIONS, deepest);
    printf("deepest: %zu bytes of stack\n", deepest);
    return 0;
}
