/* A token of 664 zeros is woken and runs Nonce 3 and MAC 07; each answer is printed in hexadecimal. */
#include "chhutirok.h"

#include <stdio.h>
#include <string.h>

static uint8_t state[CHHUTIROK_STATE], random_bytes[CHHUTIROK_RANDOM], output[CHHUTIROK_OUTPUT];

/* An event's name and its answer, or the number it gave in place of one. */
static int print_answer(const char *name, uint32_t number, size_t length)
{
    printf("%s ", name);
    if (number != 0) {
        printf("number %u\n", (unsigned)number);
        return 1;
    }
    for (size_t i = 0; i < length; i++)
        printf("%02X", output[i]);
    printf("\n");
    return 0;
}

static int run_block(const char *name, const uint8_t *block, size_t block_length)
{
    size_t length = 0;
    uint32_t number = chhutirok_block(state, sizeof state, block, block_length, random_bytes, sizeof random_bytes,
                                      output, sizeof output, &length);
    return print_answer(name, number, length);
}

int main(void)
{
    static const uint8_t image[CHHUTIROK_IMAGE];
    static const uint8_t mac[] = { 0x07, 0x08, 0x07, 0x00, 0x00, 0x86, 0x60 };
    uint8_t nonce[39] = { 0x27, 0x16, 0x03, 0x00, 0x00 };
    size_t length = 0;

    memset(nonce + 5, 0x11, 32);
    nonce[37] = 0x3C;
    nonce[38] = 0xF4;

    if (chhutirok_fresh(image, sizeof image, state, sizeof state) != 0)
        return 1;
    uint32_t number = chhutirok_wake(state, sizeof state, random_bytes, sizeof random_bytes, output, sizeof output, &length);
    return print_answer("wake ", number, length) | run_block("nonce", nonce, sizeof nonce) | run_block("mac  ", mac, sizeof mac);
}
