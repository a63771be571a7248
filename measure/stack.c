/* How much stack each call of include/chhutirok.h uses: it runs on a stack of its own that was painted before, and the lowest byte that has
 * lost its paint tells. Prints a line for each call and then the most of them. The status is not 0 where a call gave another answer than it should. */
#include "chhutirok.h"

#include <stdio.h>
#include <string.h>
#include <ucontext.h>

#define COUNT(row) (sizeof(row) / sizeof(row)[0])

/* Digests by Python's hashlib: of 88 zeros; of 32 zeros, 1C and 6 zeros; of 32 zeros, 12, 82 and 62 zeros. */
static const uint8_t checked[32] = { 0x10, 0xEE, 0xF2, 0x85, 0xDE, 0xEF, 0x7A, 0x4B, 0x7C, 0x82, 0xB2, 0x2A, 0xA5, 0x35, 0x89, 0xB7,
                                     0x83, 0x3D, 0xF2, 0x9D, 0xE3, 0x81, 0x46, 0x49, 0xC7, 0x72, 0xBB, 0xD5, 0xC8, 0x32, 0xF3, 0x65 };
static const uint8_t derived[32] = { 0xF9, 0xD9, 0x64, 0xA6, 0xE4, 0x4B, 0x2A, 0xFD, 0x87, 0x3E, 0x59, 0x96, 0x58, 0x43, 0x24, 0xEC,
                                     0xAD, 0x03, 0xBD, 0x38, 0x32, 0x17, 0xCB, 0x99, 0x6E, 0x89, 0xF8, 0xEC, 0xD1, 0x9D, 0x29, 0xB8 };
static const uint8_t written[32] = { 0x27, 0x41, 0xD5, 0x3A, 0x75, 0xAF, 0x6D, 0xF1, 0x0A, 0xEC, 0x19, 0x77, 0x47, 0xBC, 0x46, 0x61,
                                     0xA2, 0x06, 0xC1, 0xBD, 0x40, 0x4D, 0x36, 0x68, 0x6E, 0x86, 0xE1, 0xAB, 0x00, 0xED, 0x80, 0xF6 };

#define VALID CHHUTIROK_AT_VALID, 1
#define GENERATED CHHUTIROK_AT_GEN_DATA, 1
#define LIMITED 20, 0x20, 52, 0xFF
#define OPEN 0x55

/* A command on a token of zeros that is Awake, so that both zones are locked. */
static const struct command {
    const char *name;
    uint8_t opcode, param1;
    uint16_t param2;
    uint16_t set[9];       /* bytes of the state set before: position and value by turns, ended by 0 */
    size_t input_length;   /* data: zeros, */
    const uint8_t *digest; /* and this over them */
    size_t digest_at;
    uint8_t length, status; /* what is answered, so that the command goes the way that its name says */
} commands[] = {
    { "Read, 4 bytes", CHHUTIROK_OP_READ, 0x00, 0, { 0 }, 0, 0, 0, 7, 0 },
    { "Read, 32 bytes", CHHUTIROK_OP_READ, 0x80, 0, { 0 }, 0, 0, 0, 35, 0 },
    { "Read, encrypted", CHHUTIROK_OP_READ, 0x82, 0, { 20, 0xC0, VALID, GENERATED, 0 }, 0, 0, 0, 35, 0 },
    { "MAC of a slot with uses", CHHUTIROK_OP_MAC, 0x70, 0, { LIMITED, 0 }, 32, 0, 0, 35, 0 },
    { "MAC of TempKey", CHHUTIROK_OP_MAC, 0x03, 0, { VALID, 0 }, 0, 0, 0, 35, 0 },
    { "CheckMac, unequal", CHHUTIROK_OP_CHECK_MAC, 0x00, 0, { LIMITED, 0 }, 77, 0, 0, 4, CHHUTIROK_STATUS_UNEQUAL },
    { "CheckMac, copy", CHHUTIROK_OP_CHECK_MAC, 0x01, 0, { LIMITED, VALID, 0 }, 77, checked, 32, 4, CHHUTIROK_STATUS_OK },
    { "GenDig, data", CHHUTIROK_OP_GEN_DIG, 0x02, 0, { LIMITED, VALID, 0 }, 0, 0, 0, 4, CHHUTIROK_STATUS_OK },
    { "GenDig, CheckOnly", CHHUTIROK_OP_GEN_DIG, 0x02, 0, { 20, 0x10, VALID, 0 }, 4, 0, 0, 4, CHHUTIROK_STATUS_OK },
    { "GenDig, OTP", CHHUTIROK_OP_GEN_DIG, 0x01, 1, { VALID, 0 }, 0, 0, 0, 4, CHHUTIROK_STATUS_OK },
    { "DeriveKey", CHHUTIROK_OP_DERIVE_KEY, 0x00, 0, { 21, 0x20, VALID, 0 }, 0, 0, 0, 4, CHHUTIROK_STATUS_OK },
    { "DeriveKey with MAC, parent", CHHUTIROK_OP_DERIVE_KEY, 0x00, 0, { 21, 0xB1, 22, 0x20, 54, 0xFF, VALID, 0 }, 32, derived, 0, 4,
      CHHUTIROK_STATUS_OK },
    { "DeriveKey, wrong MAC", CHHUTIROK_OP_DERIVE_KEY, 0x00, 0, { 21, 0xA0, VALID, 0 }, 32, 0, 0, 4, CHHUTIROK_STATUS_REFUSED },
    { "Write, configuration", CHHUTIROK_OP_WRITE, 0x80, 8, { 87, OPEN, 0 }, 32, 0, 0, 4, CHHUTIROK_STATUS_OK },
    { "Write, OTP by AND", CHHUTIROK_OP_WRITE, 0x01, 0, { 18, 0x55, 0 }, 4, 0, 0, 4, CHHUTIROK_STATUS_OK },
    { "Write, data clear", CHHUTIROK_OP_WRITE, 0x82, 0, { 0 }, 32, 0, 0, 4, CHHUTIROK_STATUS_OK },
    { "Write, data encrypted", CHHUTIROK_OP_WRITE, 0x82, 0, { 21, 0x40, VALID, GENERATED, 0 }, 64, written, 32, 4, CHHUTIROK_STATUS_OK },
    { "Write, wrong MAC", CHHUTIROK_OP_WRITE, 0x82, 0, { 21, 0x40, VALID, GENERATED, 0 }, 64, 0, 0, 4, CHHUTIROK_STATUS_REFUSED },
    { "Lock, configuration", CHHUTIROK_OP_LOCK, 0x80, 0, { 87, OPEN, 0 }, 0, 0, 0, 4, CHHUTIROK_STATUS_OK },
    { "Lock, values by sum", CHHUTIROK_OP_LOCK, 0x01, 0, { 86, OPEN, 0 }, 0, 0, 0, 4, CHHUTIROK_STATUS_OK },
    { "Nonce, random", CHHUTIROK_OP_NONCE, 0x00, 0, { 0 }, 20, 0, 0, 35, 0 },
    { "Nonce, input", CHHUTIROK_OP_NONCE, 0x03, 0, { 0 }, 32, 0, 0, 4, CHHUTIROK_STATUS_OK },
    { "Random", CHHUTIROK_OP_RANDOM, 0x00, 0, { 0 }, 0, 0, 0, 35, 0 },
    { "UpdateExtra", CHHUTIROK_OP_UPDATE_EXTRA, 0x00, 1, { 0 }, 0, 0, 0, 4, CHHUTIROK_STATUS_OK },
    { "DevRev", CHHUTIROK_OP_DEV_REV, 0x00, 0, { 0 }, 0, 0, 0, 7, 0 },
    { "unknown opcode", 0x47, 0x00, 0, { 0 }, 0, 0, 0, 4, CHHUTIROK_STATUS_SHAPE },
};

static uint8_t state[CHHUTIROK_STATE], random_bytes[CHHUTIROK_RANDOM], output[CHHUTIROK_OUTPUT], block[CHHUTIROK_BLOCK];
static uint8_t image[CHHUTIROK_IMAGE], stack[65536];
static size_t block_length, length;
static uint32_t number;
static long most;

/* ---- the calls */

static void run_version(void) { number = chhutirok_version(); }
static void run_fresh(void) { number = chhutirok_fresh(image, sizeof image, state, sizeof state); }
static void run_wake(void) { number = chhutirok_wake(state, sizeof state, random_bytes, 32, output, 35, &length); }
static void run_idle(void) { number = chhutirok_idle(state, sizeof state, random_bytes, 32, output, 35, &length); }
static void run_sleep(void) { number = chhutirok_sleep(state, sizeof state, random_bytes, 32, output, 35, &length); }
static void run_block(void) { number = chhutirok_block(state, sizeof state, block, block_length, random_bytes, 32, output, 35, &length); }
static void run_frame(void) { number = chhutirok_frame(CHHUTIROK_OP_MAC, 0, 0, image, CHHUTIROK_INPUT, block, sizeof block, &block_length); }

/* ---- one of them on the painted stack */

static void (*volatile call)(void);
static const uint8_t *volatile top;

static void on_the_stack(void)
{
    top = (const uint8_t *)__builtin_frame_address(0);
    call();
}

/* The bytes that the call used below its caller's frame. */
static long used(uint8_t paint)
{
    ucontext_t there, here;
    size_t i = 0;
    memset(stack, paint, sizeof stack);
    if (getcontext(&there) != 0)
        return sizeof stack;
    there.uc_stack.ss_sp = stack;
    there.uc_stack.ss_size = sizeof stack;
    there.uc_link = &here;
    makecontext(&there, on_the_stack, 0);
    if (swapcontext(&here, &there) != 0)
        return sizeof stack;
    while (i < sizeof stack && stack[i] == paint)
        i++;
    return top - (stack + i);
}

/* Under two paints, since a byte that is written may look like the one; on the same state each time. */
static int measure(const char *name, void (*which)(void), uint32_t right)
{
    uint8_t before[CHHUTIROK_STATE];
    long bytes, again;
    call = which;
    memcpy(before, state, sizeof state);
    bytes = used(0xA5);
    memcpy(state, before, sizeof state);
    again = used(0x5A);
    bytes = again > bytes ? again : bytes;
    most = bytes > most ? bytes : most;
    printf("%-28s %6ld bytes\n", name, bytes);
    if (number != right)
        printf("%s: number %u and not %u\n", name, (unsigned)number, (unsigned)right);
    return number != right;
}

static int measure_command(const struct command *c)
{
    uint8_t input[CHHUTIROK_INPUT] = { 0 };
    size_t i;
    int wrong = chhutirok_fresh(image, sizeof image, state, sizeof state) != CHHUTIROK_ANSWERED;
    state[CHHUTIROK_AT_POWER] = CHHUTIROK_AWAKE;
    for (i = 0; c->set[i] != 0; i += 2)
        state[c->set[i]] = (uint8_t)c->set[i + 1];
    if (c->digest)
        memcpy(input + c->digest_at, c->digest, 32);
    wrong |= chhutirok_frame(c->opcode, c->param1, c->param2, input, c->input_length, block, sizeof block, &block_length) != 0;
    wrong |= measure(c->name, run_block, CHHUTIROK_ANSWERED);
    if (length == c->length && (length != 4 || output[1] == c->status))
        return wrong;
    printf("%s: answered %u bytes, %02X\n", c->name, (unsigned)length, (unsigned)output[1]);
    return 1;
}

int main(void)
{
    size_t i;
    int wrong = measure("version", run_version, CHHUTIROK_VERSION);
    wrong |= measure("fresh", run_fresh, CHHUTIROK_ANSWERED);
    wrong |= measure("frame", run_frame, CHHUTIROK_ANSWERED);
    wrong |= measure("block when Asleep", run_block, CHHUTIROK_NO_ANSWER);
    wrong |= measure("wake", run_wake, CHHUTIROK_ANSWERED);
    wrong |= measure("idle", run_idle, CHHUTIROK_NO_ANSWER);
    wrong |= measure("sleep", run_sleep, CHHUTIROK_NO_ANSWER);
    for (i = 0; i < COUNT(commands); i++)
        wrong |= measure_command(&commands[i]);
    block[0] ^= 1;
    wrong |= measure("a damaged block", run_block, CHHUTIROK_ANSWERED);
    state[CHHUTIROK_AT_POWER] = 3;
    wrong |= measure("no state", run_block, CHHUTIROK_NO_STATE);
    printf("at most %ld bytes\n", most);
    return wrong;
}
