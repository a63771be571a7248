/* Holds include/chhutirok.h to the archive: numbers and their order, null pointers, positions, statuses, opcodes, frames. Each buffer ends
 * where a page begins that nothing may touch, so that a byte read or written behind it stops the program. */
#define _DEFAULT_SOURCE /* mmap, also where C is asked for strictly */

#include "chhutirok.h"
#include "chhutirok.h"

#include <stdio.h>
#include <stdlib.h>
#include <string.h>
#include <sys/mman.h>

#define PAGE 4096

static int passed, failed;

static void want(int good, const char *words, int line)
{
    passed += good;
    failed += !good;
    if (!good)
        printf("FAIL tests/desk-check/check.c:%d %s\n", line, words);
}
#define WANT(fact) want((fact) ? 1 : 0, #fact, __LINE__)

static uint8_t *state, *random_bytes, *output, *block, *image;
static size_t length;

/* So many bytes, at most a page of them, right before a page that nothing may touch. */
static uint8_t *guarded(size_t bytes)
{
    uint8_t *pages = (uint8_t *)mmap(NULL, 2 * PAGE, PROT_READ | PROT_WRITE, MAP_PRIVATE | MAP_ANONYMOUS, -1, 0);
    if ((void *)pages == MAP_FAILED || mprotect(pages + PAGE, PAGE, PROT_NONE) != 0)
        exit(2);
    return pages + PAGE - bytes;
}

static int all(const uint8_t *bytes, size_t from, size_t to, uint8_t value)
{
    while (from < to && bytes[from] == value)
        from++;
    return from == to;
}

/* ---- a token of zeros, so that both zones are locked, that is Awake; some of its bytes set: position and value by turns, ended by 0 */

static void make(const int *set)
{
    memset(image, 0, CHHUTIROK_IMAGE);
    WANT(chhutirok_fresh(image, CHHUTIROK_IMAGE, state, CHHUTIROK_STATE) == CHHUTIROK_ANSWERED);
    state[CHHUTIROK_AT_POWER] = CHHUTIROK_AWAKE;
    for (; *set != 0; set += 2)
        state[set[0]] = (uint8_t)set[1];
    memset(output, 0xC3, CHHUTIROK_OUTPUT);
    length = 99;
}

static const int nothing[] = { 0 };

static uint32_t run(uint8_t opcode, uint8_t param1, uint16_t param2, const uint8_t *input, size_t input_length)
{
    size_t n;
    WANT(chhutirok_frame(opcode, param1, param2, input, input_length, block, CHHUTIROK_BLOCK, &n) == CHHUTIROK_ANSWERED);
    return chhutirok_block(state, CHHUTIROK_STATE, block, n, random_bytes, CHHUTIROK_RANDOM, output, CHHUTIROK_OUTPUT, &length);
}

/* ---- fresh states */

static void check_fresh(void)
{
    uint8_t *longer = guarded(CHHUTIROK_IMAGE + 1);
    size_t i;
    for (i = 0; i < CHHUTIROK_IMAGE; i++)
        image[i] = (uint8_t)(i * 7 + 1);
    memset(state, 0xEE, CHHUTIROK_STATE);
    WANT(chhutirok_fresh(image, CHHUTIROK_IMAGE, state, CHHUTIROK_STATE) == CHHUTIROK_ANSWERED);
    WANT(memcmp(state, image, CHHUTIROK_IMAGE) == 0);
    WANT(all(state, CHHUTIROK_AT_TEMP_KEY, CHHUTIROK_AT_POWER, 0) && state[CHHUTIROK_AT_POWER] == CHHUTIROK_ASLEEP);
    memset(state, 0xEE, CHHUTIROK_STATE);
    WANT(chhutirok_fresh(image + 1, CHHUTIROK_IMAGE - 1, state, CHHUTIROK_STATE) == CHHUTIROK_WRONG_IMAGE);
    WANT(all(state, 0, CHHUTIROK_STATE, 0));
    memset(state, 0xEE, CHHUTIROK_STATE);
    WANT(chhutirok_fresh(longer, CHHUTIROK_IMAGE + 1, state, CHHUTIROK_STATE) == CHHUTIROK_WRONG_IMAGE);
    WANT(all(state, 0, CHHUTIROK_STATE, 0));
    memset(state, 0xEE, CHHUTIROK_STATE);
    WANT(chhutirok_fresh(NULL, 0, state, CHHUTIROK_STATE) == CHHUTIROK_WRONG_IMAGE);
    WANT(all(state, 0, CHHUTIROK_STATE, 0));
    memset(state, 0xEE, CHHUTIROK_STATE);
    WANT(chhutirok_fresh(image, CHHUTIROK_IMAGE, state + 1, CHHUTIROK_STATE - 1) == CHHUTIROK_NO_STATE);
    WANT(chhutirok_fresh(image, CHHUTIROK_IMAGE, NULL, 0) == CHHUTIROK_NO_STATE);
    WANT(chhutirok_fresh(NULL, 0, NULL, 0) == CHHUTIROK_NO_STATE);
    WANT(all(state, 0, CHHUTIROK_STATE, 0xEE));
}

/* ---- the four events by number: 0 wake, 1 idle, 2 sleep, 3 an empty block */

static uint32_t event(int which, uint8_t *s, size_t s_length, const uint8_t *r, size_t r_length, uint8_t *o, size_t o_length)
{
    switch (which) {
    case 0: return chhutirok_wake(s, s_length, r, r_length, o, o_length, &length);
    case 1: return chhutirok_idle(s, s_length, r, r_length, o, o_length, &length);
    case 2: return chhutirok_sleep(s, s_length, r, r_length, o, o_length, &length);
    default: return chhutirok_block(s, s_length, NULL, 0, r, r_length, o, o_length, &length);
    }
}

static uint32_t on_token(int which) { return event(which, state, CHHUTIROK_STATE, random_bytes, CHHUTIROK_RANDOM, output, CHHUTIROK_OUTPUT); }

static void check_events(void)
{
    make(nothing);
    WANT(on_token(0) == CHHUTIROK_NO_ANSWER && length == 0 && all(output, 0, CHHUTIROK_OUTPUT, 0xC3));
    WANT(on_token(1) == CHHUTIROK_NO_ANSWER && state[CHHUTIROK_AT_POWER] == CHHUTIROK_IDLE);
    WANT(on_token(0) == CHHUTIROK_ANSWERED && state[CHHUTIROK_AT_POWER] == CHHUTIROK_AWAKE);
    WANT(length == 4 && output[0] == 4 && output[1] == CHHUTIROK_STATUS_AWAKE && all(output, 4, CHHUTIROK_OUTPUT, 0xC3));
    WANT(on_token(3) == CHHUTIROK_ANSWERED && length == 4 && output[1] == CHHUTIROK_STATUS_DAMAGED);
    state[CHHUTIROK_AT_TEMP_KEY] = state[CHHUTIROK_AT_VALID] = 1;
    WANT(on_token(2) == CHHUTIROK_NO_ANSWER && length == 0);
    WANT(all(state, 0, CHHUTIROK_STATE, 0) && CHHUTIROK_ASLEEP == 0);
    WANT(on_token(3) == CHHUTIROK_NO_ANSWER && length == 0);
}

/* A call that gives this number and changes no byte of state and output. */
static void refused(int which, uint8_t *s, size_t s_length, const uint8_t *r, size_t r_length, uint8_t *o, size_t o_length, uint32_t number)
{
    uint8_t before[CHHUTIROK_STATE + 1];
    uint32_t given;
    if (s_length > 0)
        memcpy(before, s, s_length);
    length = 99;
    given = event(which, s, s_length, r, r_length, o, o_length);
    if (given != number)
        printf("event %d of %u, %u and %u bytes: number %u and not %u\n", which, (unsigned)s_length, (unsigned)r_length, (unsigned)o_length,
               (unsigned)given, (unsigned)number);
    WANT(given == number);
    WANT(length == 0 && (s_length == 0 || memcmp(before, s, s_length) == 0));
    WANT(all(output, 0, CHHUTIROK_OUTPUT, 0xC3));
}

/* 40 before 1 before 2: of the three wrong things each is the first that is still there. */
static void check_order(int which)
{
    static const int bad[][2] = { { CHHUTIROK_AT_SLOT_ID, 16 },  { CHHUTIROK_AT_SOURCE_FLAG, 2 }, { CHHUTIROK_AT_GEN_DATA, 2 },
                                  { CHHUTIROK_AT_CHECK_FLAG, 2 }, { CHHUTIROK_AT_VALID, 2 },       { CHHUTIROK_AT_POWER, 3 } };
    uint8_t *longer = guarded(CHHUTIROK_STATE + 1), *r = random_bytes, *o = output;
    size_t i;
    int set[3] = { 0, 0, 0 };
    for (i = 0; i < sizeof bad / sizeof bad[0]; i++) {
        set[0] = bad[i][0];
        set[1] = bad[i][1];
        make(set);
        refused(which, state, 702, r + 1, 31, o + 1, 34, CHHUTIROK_NO_STATE);
        refused(which, state, 702, r, 32, o + 1, 34, CHHUTIROK_NO_STATE);
        refused(which, state, 702, r + 1, 31, o, 35, CHHUTIROK_NO_STATE);
        refused(which, state, 702, r, 32, o, 35, CHHUTIROK_NO_STATE);
    }
    make(nothing);
    state[CHHUTIROK_AT_TEMP_KEY] = state[CHHUTIROK_AT_VALID] = 1;
    refused(which, state, 702, r + 1, 31, o + 1, 34, CHHUTIROK_SHORT_OUTPUT);
    refused(which, state, 702, r, 32, o + 1, 34, CHHUTIROK_SHORT_OUTPUT);
    refused(which, state, 702, r, 32, NULL, 0, CHHUTIROK_SHORT_OUTPUT);
    refused(which, state, 702, NULL, 0, NULL, 0, CHHUTIROK_SHORT_OUTPUT);
    refused(which, state, 702, r + 1, 31, o, 35, CHHUTIROK_WRONG_RANDOM);
    refused(which, state, 702, NULL, 0, o, 35, CHHUTIROK_WRONG_RANDOM);
    refused(which, state + 1, 701, r, 32, o, 35, CHHUTIROK_NO_STATE);
    refused(which, longer, 703, r, 32, o, 35, CHHUTIROK_NO_STATE);
    refused(which, NULL, 0, r, 32, o, 35, CHHUTIROK_NO_STATE);
    refused(which, NULL, 0, NULL, 0, o, 35, CHHUTIROK_NO_STATE);
    refused(which, NULL, 0, NULL, 0, NULL, 0, CHHUTIROK_NO_STATE);
}

/* ---- frames */

static void check_frames(void)
{
    static const uint8_t dev_rev[] = { 0x07, 0x30, 0x00, 0x00, 0x00, 0x03, 0x5D };
    static const uint8_t mac[] = { 0x07, 0x08, 0x07, 0x00, 0x00, 0x86, 0x60 };
    uint8_t *input = guarded(CHHUTIROK_INPUT + 1);
    size_t n;
    memset(block, 0xC3, CHHUTIROK_BLOCK);
    WANT(chhutirok_frame(CHHUTIROK_OP_DEV_REV, 0, 0, NULL, 0, block, CHHUTIROK_BLOCK, &n) == CHHUTIROK_ANSWERED && n == sizeof dev_rev);
    WANT(memcmp(block, dev_rev, n) == 0 && all(block, n, CHHUTIROK_BLOCK, 0xC3));
    WANT(chhutirok_frame(CHHUTIROK_OP_MAC, 7, 0, NULL, 0, block + 77, CHHUTIROK_FRAME, &n) == CHHUTIROK_ANSWERED && n == sizeof mac);
    WANT(memcmp(block + 77, mac, n) == 0);
    WANT(chhutirok_frame(2, 3, 0x0504, input + 1, CHHUTIROK_INPUT, block, CHHUTIROK_BLOCK, &n) == CHHUTIROK_ANSWERED);
    WANT(n == CHHUTIROK_BLOCK && n == CHHUTIROK_INPUT + CHHUTIROK_FRAME);
    WANT(block[0] == n && block[1] == 2 && block[2] == 3 && block[3] == 4 && block[4] == 5 && all(block, 5, 82, 0));
    memset(block, 0xC3, CHHUTIROK_BLOCK);
    n = 99;
    WANT(chhutirok_frame(2, 3, 4, input, CHHUTIROK_INPUT + 1, block, CHHUTIROK_BLOCK, &n) == CHHUTIROK_NO_ROOM && n == 0);
    n = 99;
    WANT(chhutirok_frame(2, 3, 4, input + 1, CHHUTIROK_INPUT, block + 1, CHHUTIROK_BLOCK - 1, &n) == CHHUTIROK_NO_ROOM && n == 0);
    n = 99;
    WANT(chhutirok_frame(2, 3, 4, NULL, 0, block + 78, CHHUTIROK_FRAME - 1, &n) == CHHUTIROK_NO_ROOM && n == 0);
    n = 99;
    WANT(chhutirok_frame(2, 3, 4, NULL, 0, NULL, 0, &n) == CHHUTIROK_NO_ROOM && n == 0);
    WANT(all(block, 0, CHHUTIROK_BLOCK, 0xC3));
}

/* ---- opcodes and statuses: what each command answers on a token of zeros with these bytes set, and a byte of the state after it */

static const struct {
    uint8_t opcode, param1;
    uint16_t param2;
    size_t input_length;
    int set[5];
    size_t length;
    uint8_t first; /* of the answer, after its count */
    int at, value;
} commands[] = {
    { CHHUTIROK_OP_READ, 0x00, 5, 0, { 20, 0x91, 0 }, 7, 0x91, 20, 0x91 },
    { CHHUTIROK_OP_WRITE, 0x02, 8, 4, { CHHUTIROK_AT_DATA + 32, 9, 0 }, 4, CHHUTIROK_STATUS_OK, CHHUTIROK_AT_DATA + 32, 0x77 },
    { CHHUTIROK_OP_WRITE, 0x01, 1, 4, { 18, 0x55, CHHUTIROK_AT_OTP + 4, 0xF1, 0 }, 4, CHHUTIROK_STATUS_OK, CHHUTIROK_AT_OTP + 4, 0x71 },
    { CHHUTIROK_OP_GEN_DIG, 0x02, 5, 0, { CHHUTIROK_AT_VALID, 1, 0 }, 4, CHHUTIROK_STATUS_OK, CHHUTIROK_AT_SLOT_ID, 5 },
    { CHHUTIROK_OP_GEN_DIG, 0x02, 0, 0, { CHHUTIROK_AT_VALID, 1, 0 }, 4, CHHUTIROK_STATUS_OK, CHHUTIROK_AT_GEN_DATA, 1 },
    { CHHUTIROK_OP_GEN_DIG, 0x02, 0, 0, { CHHUTIROK_AT_VALID, 1, 0 }, 4, CHHUTIROK_STATUS_OK, CHHUTIROK_AT_CHECK_FLAG, 0 },
    { CHHUTIROK_OP_GEN_DIG, 0x02, 0, 4, { 20, 0x10, CHHUTIROK_AT_VALID, 1, 0 }, 4, CHHUTIROK_STATUS_OK, CHHUTIROK_AT_CHECK_FLAG, 1 },
    { CHHUTIROK_OP_NONCE, 0x03, 0, 32, { 0 }, 4, CHHUTIROK_STATUS_OK, CHHUTIROK_AT_TEMP_KEY, 0x77 },
    { CHHUTIROK_OP_NONCE, 0x03, 0, 32, { 0 }, 4, CHHUTIROK_STATUS_OK, CHHUTIROK_AT_SOURCE_FLAG, 1 },
    { CHHUTIROK_OP_NONCE, 0x00, 0, 20, { 0 }, 35, 0x5A, CHHUTIROK_AT_VALID, 1 },
    { CHHUTIROK_OP_LOCK, 0x80, 0, 0, { 87, 0x55, 88, 7, 0 }, 4, CHHUTIROK_STATUS_OK, CHHUTIROK_AT_CONFIG + 87, 0 },
    { CHHUTIROK_OP_LOCK, 0x80, 0, 0, { 0 }, 4, CHHUTIROK_STATUS_REFUSED, CHHUTIROK_AT_CONFIG + 87, 0 },
    { CHHUTIROK_OP_LOCK, 0x7E, 0, 0, { 0 }, 4, CHHUTIROK_STATUS_SHAPE, CHHUTIROK_AT_CONFIG + 87, 0 },
    { CHHUTIROK_OP_RANDOM, 0x00, 0, 0, { 0 }, 35, 0x5A, CHHUTIROK_AT_VALID, 0 },
    { CHHUTIROK_OP_DERIVE_KEY, 0x00, 0, 0, { 21, 0x20, CHHUTIROK_AT_VALID, 1, 0 }, 4, CHHUTIROK_STATUS_OK, 53, 1 },
    { CHHUTIROK_OP_UPDATE_EXTRA, 0x00, 0x44, 0, { 0 }, 4, CHHUTIROK_STATUS_OK, 84, 0x44 },
    { CHHUTIROK_OP_MAC, 0x00, 0, 32, { 20, 0x20, 52, 0xFF, 0 }, 35, 0x44, 52, 0x7F },
    { CHHUTIROK_OP_CHECK_MAC, 0x00, 0, 77, { 20, 0x20, 52, 0xFF, 0 }, 4, CHHUTIROK_STATUS_UNEQUAL, 52, 0x7F },
    { CHHUTIROK_OP_DEV_REV, 0x00, 0, 0, { 4, 0x61, 0 }, 7, 0x61, 4, 0x61 },
};

static void check_commands(void)
{
    uint8_t input[CHHUTIROK_INPUT];
    size_t i, opcodes = 0;
    int known[256] = { 0 }, opcode;
    for (i = 0; i < sizeof input; i++)
        input[i] = (uint8_t)(0x77 + i);
    for (i = 0; i < sizeof commands / sizeof commands[0]; i++) {
        opcodes += !known[commands[i].opcode];
        known[commands[i].opcode] = 1;
        make(commands[i].set);
        WANT(run(commands[i].opcode, commands[i].param1, commands[i].param2, input, commands[i].input_length) == CHHUTIROK_ANSWERED);
        WANT(length == commands[i].length && output[0] == length);
        if (output[1] != commands[i].first || state[commands[i].at] != commands[i].value)
            printf("command %u: %02X, %02X\n", (unsigned)i, (unsigned)output[1], (unsigned)state[commands[i].at]);
        WANT(output[1] == commands[i].first && state[commands[i].at] == commands[i].value);
    }
    WANT(opcodes == 11);
    for (opcode = 0; opcode < 256; opcode++) {
        make(nothing);
        WANT(known[opcode] || (run((uint8_t)opcode, 0, 0, NULL, 0) == CHHUTIROK_ANSWERED && output[1] == CHHUTIROK_STATUS_SHAPE));
    }
}

int main(void)
{
    int which;
    state = guarded(CHHUTIROK_STATE);
    random_bytes = guarded(CHHUTIROK_RANDOM);
    output = guarded(CHHUTIROK_OUTPUT);
    block = guarded(CHHUTIROK_BLOCK);
    image = guarded(CHHUTIROK_IMAGE);
    memset(random_bytes, 0x5A, CHHUTIROK_RANDOM);
    WANT(chhutirok_version() == CHHUTIROK_VERSION);
    check_fresh();
    check_events();
    for (which = 0; which < 4; which++)
        check_order(which);
    check_frames();
    check_commands();
    printf("%d passed, %d failed\n", passed, failed);
    return failed != 0;
}
