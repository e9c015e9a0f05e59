/*
 * Seals and opens datasets by the two calls of s100_sealing.h: the example of the standard, a text
 * of several blocks, the same with one sealed block damaged, and a call that is refused.
 */
#define _DEFAULT_SOURCE /* getentropy */

#include <inttypes.h>
#include <stdint.h>
#include <stdio.h>
#include <stdlib.h>
#include <string.h>
#include <unistd.h>

#include "s100_sealing.h"

static void must(int fine, const char *what)
{
    if (!fine) {
        fprintf(stderr, "seal_and_open: %s\n", what);
        exit(1);
    }
}

static void print_blocks(const char *name, const uint8_t *bytes, size_t len)
{
    printf("%s", name);
    for (size_t i = 0; i < len; i++) {
        printf("%s%02X", i % S100_BLOCK == 0 ? " " : "", bytes[i]);
    }
    printf("\n");
}

static void example_of_the_standard(void)
{
    const uint8_t dataset[] = {0xFE, 0xDC, 0xBA, 0x98, 0x76, 0x54, 0x32, 0x10};
    const uint8_t printed[] = {
        0xBA, 0x45, 0xEE, 0x06, 0x02, 0xA6, 0x29, 0x35,
        0x7A, 0xE3, 0x90, 0x2C, 0x22, 0x4D, 0xD9, 0xD5,
        0xDD, 0x3B, 0x07, 0x3B, 0x84, 0x7F, 0x4D, 0x43,
        0x28, 0x71, 0x19, 0x43, 0x97, 0xD9, 0xA6, 0x03,
    };
    const uint64_t key_hi = 0x123456789ABCDEF0, key_lo = 0x123456789ABCDEF0;
    uint8_t sealed[sizeof printed];
    uint8_t opened[sizeof dataset];

    int64_t len = s100_seal(key_hi, key_lo, 0x48D24E7C002F674E, 0x931DEE274217A34C,
                            0x45B500D7283942BB, 0x856128D59715CA25, dataset, sizeof dataset, sealed,
                            sizeof sealed);
    must(len == sizeof printed && memcmp(sealed, printed, sizeof printed) == 0,
         "the example of the standard seals to other bytes");
    len = s100_open(key_hi, key_lo, sealed, sizeof sealed, opened, sizeof opened);
    must(len == sizeof dataset && memcmp(opened, dataset, sizeof dataset) == 0,
         "the example of the standard opens to another dataset");

    printf("The example of the standard\n");
    print_blocks("  dataset:", dataset, sizeof dataset);
    print_blocks("  sealed: ", sealed, sizeof sealed);
    print_blocks("  opened: ", opened, (size_t)len);
}

static void text_of_several_blocks(void)
{
    const char text[] = "Depths in metres, reduced to lowest astronomical tide. "
                        "Mariners are warned of uncharted wrecks off the northern bank.";
    const size_t text_len = strlen(text);
    const size_t sealed_len = s100_sealed_length(text_len);
    uint8_t key[S100_BLOCK], lead[S100_BLOCK], start[S100_BLOCK];
    uint8_t sealed[sizeof text + 2 * S100_BLOCK];
    uint8_t opened[sizeof text];

    /* R and V are fresh random bytes for each sealing. The key is so only in this example. */
    must(getentropy(key, sizeof key) == 0 && getentropy(lead, sizeof lead) == 0
             && getentropy(start, sizeof start) == 0,
         "no random bytes from the system");
    const uint64_t key_hi = s100_number(key), key_lo = s100_number(key + 8);

    int64_t len = s100_seal(key_hi, key_lo, s100_number(lead), s100_number(lead + 8),
                            s100_number(start), s100_number(start + 8), (const uint8_t *)text,
                            text_len, sealed, sizeof sealed);
    must(len == (int64_t)sealed_len, "the text was not sealed");
    printf("\nA text of %zu bytes\n  sealed to %" PRId64 " bytes\n", text_len, len);

    len = s100_open(key_hi, key_lo, sealed, sealed_len, opened, sizeof opened);
    must(len == (int64_t)text_len && memcmp(opened, text, text_len) == 0, "the text was lost");
    printf("  opened to \"%.*s\"\n", (int)len, (const char *)opened);

    /* An output that is too short by one byte: refused, and not a byte of it is touched. */
    memset(opened, '-', sizeof opened);
    len = s100_open(key_hi, key_lo, sealed, sealed_len, opened, text_len - 1);
    must(len == -S100_REFUSED_OUTPUT, "an output too short was not refused");
    for (size_t i = 0; i < sizeof opened; i++) {
        must(opened[i] == '-', "a refused call wrote to its output");
    }
    printf("  opened into %zu bytes: refused by %" PRId64 ", the output is as it was\n",
           text_len - 1, -len);

    /* One bit of sealed block 4 is turned over. Blocks are counted from 1. */
    sealed[3 * S100_BLOCK + 5] ^= 0x10;
    len = s100_open(key_hi, key_lo, sealed, sealed_len, opened, sizeof opened);
    must(len == (int64_t)text_len, "damage has changed the length");
    printf("  with one bit of sealed block 4 damaged: %" PRId64 " bytes, altered in dataset blocks",
           len);
    for (size_t from = 0; from < text_len; from += S100_BLOCK) {
        const size_t size = text_len - from < S100_BLOCK ? text_len - from : S100_BLOCK;
        if (memcmp(opened + from, text + from, size) != 0) {
            printf(" %zu", from / S100_BLOCK + 1);
        }
    }
    printf("\n");
}

int main(void)
{
    example_of_the_standard();
    text_of_several_blocks();
    return 0;
}
