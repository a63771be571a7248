/* Chhutirok, the token engine for C. Read this first: two duties of the desk that no call can take over.
 *
 * The watchdog. The engine has no clock and does not fall asleep by itself: the desk must call chhutirok_sleep when the watchdog's time
 * (CHHUTIROK_WATCHDOG_MS) is over, counted from the wake that was answered. Look at the clock before every other call, and set a timer
 * for the case that no call comes. Idle in time stops the count; the next wake that is answered starts it anew.
 * Why: a soft copy of the chip kept its challenge through the watchdog's sleep, a claim that had been released still checked out, and two
 * cartographers compiled the same sheet. Look at the number: only a sleep that gave CHHUTIROK_NO_ANSWER (3) has slept; one refused
 * for its buffers (1, 2) or its state (40) has not.
 *
 * Random bytes. They must be fresh and unpredictable in every call that may use them (a Nonce with Param1 0 or 1, a Random), so draw new
 * ones from the operating system (getrandom) for every call. Zeros, or bytes that come again, make an old response check out again.
 *
 * The state. A token is 702 bytes that the caller keeps; each call takes them and leaves the new state in them. Positions 0 to 701 stay what
 * they are below in all later versions: the layout only ever grows at its end, and CHHUTIROK_LAYOUT counts up where it does.
 * These bytes hold every key in clear, and TempKey. Who reads them has the keys. Who writes them has the token: old bytes put back restore
 * spent uses, unlocked zones and an old TempKey, and a copy is a second token. So:
 * - in memory, lock them (mlock), keep them out of dumps (MADV_DONTDUMP), and wipe them when done (explicit_bzero);
 * - in a file, let only the desk's own user reach them; encrypt them and add a MAC, by a key kept elsewhere, over them and a count that goes
 *   up at each change and whose last value is kept where nobody can turn it back (a TPM's counter, a store that is written once);
 * - write changed bytes out (fsync) before the answer goes on; bytes that come from a file are put to sleep first, as a chip that had no
 *   power has no TempKey.
 *
 * A block is a command: count (the length of the whole block, 7 to 84), opcode, Param1, Param2 (two bytes, low byte first), data
 * (0 to 77 bytes), check value (two bytes, low byte first). chhutirok_frame makes one, so that nobody works out a check value by hand.
 * An answer stands at the front of the output: count (its length), 1 byte (a status) or 4 or 32 bytes (a result), check value. With
 * number 0 *length is 4, 7 or 35, and the status or the result starts at output[1]; with every other number *length is 0. Bytes of the
 * output behind an answer stay as they were, and all of them where there is none.
 *
 * The numbers that calls give stand below. 40 comes before 1 and 1 before 2, and these before all else; with them no byte of state and
 * output is changed.
 *
 * Calling. x86-64-v2 and the System V calling form; of the C library the archive needs memcpy and memset. Every pointer has behind it as many
 * bytes as the length after it says. No two buffers of a call overlap, `length` among them, and `length` is never null. A pointer whose
 * length is 0 may be null: an empty image, block or input is taken as such, an empty state, random or output is refused by its number.
 * The archive has no data of its own: calls on different states may run in threads at once, two calls on one state may not.
 *
 * What is not promised. Proved is what a call gives and what it leaves in the caller's bytes, and no more than that:
 * - copies of keys stay on the stack, and perhaps in registers, after a call, a sleep too; to be rid of them, run the calls on a stack of your
 *   own and wipe it;
 * - timing: nothing is claimed of the time that a call takes; a comparison of rows ends early where one of their first four bytes differs;
 * - the compiler: Rattle's, LLVM behind it, and the one that compiles this header are believed and not proved.
 */
#ifndef CHHUTIROK_H
#define CHHUTIROK_H

#include <stddef.h>
#include <stdint.h>

/* The version of this header; chhutirok_version gives the archive's. */
#define CHHUTIROK_VERSION 1
#define CHHUTIROK_LAYOUT 1

/* Sizes in bytes. */
#define CHHUTIROK_STATE 702
#define CHHUTIROK_IMAGE 664
#define CHHUTIROK_RANDOM 32
#define CHHUTIROK_OUTPUT 35
#define CHHUTIROK_BLOCK 84 /* the longest block */
#define CHHUTIROK_INPUT 77 /* the longest data of a block */
#define CHHUTIROK_FRAME 7  /* what a block has besides its data */

/* Milliseconds: the chip's own is typically 1.3 s and never over 1.7 s. */
#define CHHUTIROK_WATCHDOG_MS 1300

/* Positions in a state; an image has the first three. */
#define CHHUTIROK_AT_CONFIG 0        /* 88 bytes */
#define CHHUTIROK_AT_OTP 88          /* 64 bytes */
#define CHHUTIROK_AT_DATA 152        /* 512 bytes: 16 slots of 32 */
#define CHHUTIROK_AT_TEMP_KEY 664    /* 32 bytes */
#define CHHUTIROK_AT_SLOT_ID 696     /* 0 to 15 */
#define CHHUTIROK_AT_SOURCE_FLAG 697 /* 0 random, 1 input */
#define CHHUTIROK_AT_GEN_DATA 698    /* 0 or 1, as the next two */
#define CHHUTIROK_AT_CHECK_FLAG 699
#define CHHUTIROK_AT_VALID 700
#define CHHUTIROK_AT_POWER 701

/* Power. */
#define CHHUTIROK_ASLEEP 0
#define CHHUTIROK_IDLE 1
#define CHHUTIROK_AWAKE 2

/* Numbers. */
#define CHHUTIROK_ANSWERED 0     /* of chhutirok_fresh: made; of chhutirok_frame: framed */
#define CHHUTIROK_SHORT_OUTPUT 1 /* output under 35 bytes */
#define CHHUTIROK_WRONG_RANDOM 2 /* random bytes not exactly 32 */
#define CHHUTIROK_NO_ANSWER 3    /* every idle and sleep, a wake when Awake, a block when not Awake */
#define CHHUTIROK_WRONG_IMAGE 4  /* an image that is not 664 bytes: the state is then that of 664 zeros */
#define CHHUTIROK_NO_STATE 40    /* not 702 bytes, or a value outside those above */
#define CHHUTIROK_NO_ROOM 42     /* data that does not fit: over 77 bytes, or over what the buffer has room for */

/* Statuses. */
#define CHHUTIROK_STATUS_OK 0x00
#define CHHUTIROK_STATUS_UNEQUAL 0x01 /* CheckMac compared unequal */
#define CHHUTIROK_STATUS_SHAPE 0x03   /* unknown opcode, or a field or data length outside the command's shape */
#define CHHUTIROK_STATUS_REFUSED 0x0F /* any other condition not met */
#define CHHUTIROK_STATUS_AWAKE 0x11   /* woken */
#define CHHUTIROK_STATUS_DAMAGED 0xFF /* the block's length, count or check value is wrong; nothing is changed */

/* Opcodes. */
#define CHHUTIROK_OP_READ 0x02
#define CHHUTIROK_OP_MAC 0x08
#define CHHUTIROK_OP_WRITE 0x12
#define CHHUTIROK_OP_GEN_DIG 0x15
#define CHHUTIROK_OP_NONCE 0x16
#define CHHUTIROK_OP_LOCK 0x17
#define CHHUTIROK_OP_RANDOM 0x1B
#define CHHUTIROK_OP_DERIVE_KEY 0x1C
#define CHHUTIROK_OP_UPDATE_EXTRA 0x20
#define CHHUTIROK_OP_CHECK_MAC 0x28
#define CHHUTIROK_OP_DEV_REV 0x30

#ifdef __cplusplus
extern "C" {
#endif

/* CHHUTIROK_VERSION as it was when the archive was built. */
uint32_t chhutirok_version(void);

/* A fresh token from an image (configuration, OTP, data), Asleep, TempKey empty. The 702 bytes of state may have held anything. */
uint32_t chhutirok_fresh(const uint8_t *image, size_t image_length, uint8_t *state, size_t state_length);

/* A command as a block at the front of `block`, its length in *length. With CHHUTIROK_NO_ROOM nothing is written there and *length is 0. */
uint32_t chhutirok_frame(uint8_t opcode, uint8_t param1, uint16_t param2, const uint8_t *input, size_t input_length,
                         uint8_t *block, size_t block_length, size_t *length);

/* The four events. Sleep is also what the watchdog does. */
uint32_t chhutirok_wake(uint8_t *state, size_t state_length, const uint8_t *random, size_t random_length,
                        uint8_t *output, size_t output_length, size_t *length);
uint32_t chhutirok_idle(uint8_t *state, size_t state_length, const uint8_t *random, size_t random_length,
                        uint8_t *output, size_t output_length, size_t *length);
uint32_t chhutirok_sleep(uint8_t *state, size_t state_length, const uint8_t *random, size_t random_length,
                         uint8_t *output, size_t output_length, size_t *length);
uint32_t chhutirok_block(uint8_t *state, size_t state_length, const uint8_t *block, size_t block_length,
                         const uint8_t *random, size_t random_length, uint8_t *output, size_t output_length, size_t *length);

#ifdef __cplusplus
}
#endif

#endif
