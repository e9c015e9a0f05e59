/*
 * Holds s100_seal and s100_open against OpenSSL's libcrypto.
 *
 * Two models below are built on libcrypto and say of every call what it answers and what its whole
 * output holds afterwards. Each call of the library is compared with its model: the answer, every
 * byte of the output and of a margin before it, and the input, which must be as it was. Input and
 * output end where a page begins that may not be touched, so that a read or a write past the end
 * ends the test. Where the rule itself says the answer, the test says it too, and so the models are
 * held to the rule.
 *
 * The random numbers are the same in every run. Prints what failed, and last the number of checks;
 * ends with status 1 if any failed.
 */
#define _DEFAULT_SOURCE /* MAP_ANONYMOUS */

#include <inttypes.h>
#include <signal.h>
#include <stdarg.h>
#include <stdbool.h>
#include <stdint.h>
#include <stdio.h>
#include <stdlib.h>
#include <string.h>
#include <sys/mman.h>
#include <unistd.h>

#include <openssl/evp.h>

#include "s100_sealing.h"

/* Written out here, so that the header is held to them as well. */
enum { BLOCK = 16, DATASET_MAX = 10485760, SEALED_MAX = 10485792 };
enum { LENGTH = -9, PADDING = -10, OUTPUT = -11 };

_Static_assert(S100_BLOCK == BLOCK, "block");
_Static_assert(S100_DATASET_MAX == DATASET_MAX, "greatest dataset");
_Static_assert(S100_SEALED_MAX == SEALED_MAX, "greatest sealed length");
_Static_assert(-S100_REFUSED_LENGTH == LENGTH, "refusal of a length");
_Static_assert(-S100_REFUSED_PADDING == PADDING, "refusal of the padding");
_Static_assert(-S100_REFUSED_OUTPUT == OUTPUT, "refusal of an output");

/* More than any call here is given, and the bytes before the output that are watched. */
enum { CAPACITY = SEALED_MAX + 128, MARGIN = 64 };

/* For an answer that only the model can tell. */
#define BY_MODEL INT64_MIN

#define COUNT(array) (sizeof(array) / sizeof((array)[0]))

static const size_t SLACKS[] = {0, 1, 17};

struct secret {
    uint8_t key[BLOCK];
    uint8_t lead[BLOCK];
    uint8_t start[BLOCK];
};

/* Each is the first byte of a page that may not be touched, behind CAPACITY bytes and a margin. */
static uint8_t *input_end;
static uint8_t *output_end;

static uint8_t *expected;    /* what the margin and the output must hold after the call */
static uint8_t *model_plain; /* where the models work */
static uint8_t *dataset;     /* what a test seals, and what it wants back */
static uint8_t *plain;       /* R and a padded dataset, right or wrong */
static uint8_t *sealed;      /* what a test opens */

static const char *part = "";
static unsigned long checks;
static unsigned long failures;

/* ---- Checks, memory, random numbers ---- */

static bool check(bool fine, const char *format, ...)
{
    checks++;
    if (fine) {
        return true;
    }
    failures++;
    if (failures <= 20) {
        va_list words;
        va_start(words, format);
        printf("FAILED (%s): ", part);
        vprintf(format, words);
        printf("\n");
        va_end(words);
    } else if (failures == 21) {
        printf("FAILED: more, not shown\n");
    }
    return false;
}

/* For what is no matter of the library: memory, and libcrypto's own answers. */
static void must(bool fine, const char *what)
{
    if (!fine) {
        fprintf(stderr, "sealing_against_openssl: %s\n", what);
        exit(2);
    }
}

/* Called when the library has touched memory that is not its own: nothing can go on from there. */
static void out_of_bounds(int signal_number)
{
    static const char words[] = "FAILED: memory touched that was not given, in: ";
    (void)signal_number;
    if (write(STDOUT_FILENO, words, sizeof words - 1) < 0
        || write(STDOUT_FILENO, part, strlen(part)) < 0 || write(STDOUT_FILENO, "\n", 1) < 0) {
        _exit(2);
    }
    _exit(1);
}

static uint8_t *room(void)
{
    uint8_t *bytes = malloc(MARGIN + CAPACITY);
    must(bytes != NULL, "no memory");
    return bytes;
}

static uint8_t *fenced_room(void)
{
    const size_t page = (size_t)sysconf(_SC_PAGESIZE);
    const size_t size = (MARGIN + CAPACITY + page - 1) / page * page;
    uint8_t *bytes =
        mmap(NULL, size + page, PROT_READ | PROT_WRITE, MAP_PRIVATE | MAP_ANONYMOUS, -1, 0);
    must(bytes != MAP_FAILED, "no memory");
    must(mprotect(bytes + size, page, PROT_NONE) == 0, "no fence behind the memory");
    return bytes + size;
}

/* splitmix64 */
static uint64_t next_random(void)
{
    static uint64_t state = 20260127;
    uint64_t z = state += 0x9E3779B97F4A7C15;
    z = (z ^ z >> 30) * 0xBF58476D1CE4E5B9;
    z = (z ^ z >> 27) * 0x94D049BB133111EB;
    return z ^ z >> 31;
}

static size_t random_below(size_t limit)
{
    return (size_t)(next_random() % limit);
}

static void fill_random(uint8_t *bytes, size_t len)
{
    while (len > 0) {
        const uint64_t word = next_random();
        const size_t size = len < sizeof word ? len : sizeof word;
        memcpy(bytes, &word, size);
        bytes += size;
        len -= size;
    }
}

static struct secret random_secret(void)
{
    struct secret s;
    fill_random(s.key, BLOCK);
    fill_random(s.lead, BLOCK);
    fill_random(s.start, BLOCK);
    return s;
}

/* Not s100_number of the header: that is not to vouch for itself. */
static uint64_t number(const uint8_t *b)
{
    return (uint64_t)b[0] << 56 | (uint64_t)b[1] << 48 | (uint64_t)b[2] << 40
           | (uint64_t)b[3] << 32 | (uint64_t)b[4] << 24 | (uint64_t)b[5] << 16
           | (uint64_t)b[6] << 8 | (uint64_t)b[7];
}

/* ---- The models ---- */

/* Whole blocks, by libcrypto, which neither adds nor takes away a padding here. */
static void libcrypto(const EVP_CIPHER *cipher, bool encipher, const uint8_t *key,
                      const uint8_t *start, const uint8_t *in, size_t len, uint8_t *out)
{
    static EVP_CIPHER_CTX *context;
    int written = 0;
    if (context == NULL) {
        context = EVP_CIPHER_CTX_new();
    }
    must(context != NULL && EVP_CipherInit_ex(context, cipher, NULL, key, start, encipher) == 1
             && EVP_CIPHER_CTX_set_padding(context, 0) == 1
             && EVP_CipherUpdate(context, out, &written, in, (int)len) == 1
             && (size_t)written == len,
         "libcrypto failed");
}

/* Enciphers whole plain blocks as they are, so that any padding can be sealed. */
static void seal_blocks(const struct secret *s, const uint8_t *blocks, size_t len, uint8_t *out)
{
    libcrypto(EVP_aes_128_cbc(), true, s->key, s->start, blocks, len, out);
}

static int64_t model_seal(const struct secret *s, const uint8_t *data, size_t len, uint8_t *out,
                          size_t out_len)
{
    if (len > DATASET_MAX) {
        return LENGTH;
    }
    const size_t padding = BLOCK - len % BLOCK;
    const size_t total = BLOCK + len + padding;
    if (out_len < total) {
        return OUTPUT;
    }
    memcpy(model_plain, s->lead, BLOCK);
    memcpy(model_plain + BLOCK, data, len);
    memset(model_plain + BLOCK + len, (int)padding, padding);
    seal_blocks(s, model_plain, total, out);
    return (int64_t)total;
}

/* Chains by its own code, over single blocks that libcrypto deciphers. */
static int64_t model_open(const uint8_t *key, const uint8_t *bytes, size_t len, uint8_t *out,
                          size_t out_len)
{
    if (len < 2 * BLOCK || len > SEALED_MAX || len % BLOCK != 0) {
        return LENGTH;
    }
    const size_t padded = len - BLOCK;
    libcrypto(EVP_aes_128_ecb(), false, key, NULL, bytes + BLOCK, padded, model_plain);
    for (size_t i = 0; i < padded; i++) {
        model_plain[i] ^= bytes[i];
    }
    const size_t padding = model_plain[padded - 1];
    if (padding < 1 || padding > 16) {
        return PADDING;
    }
    for (size_t i = padded - padding; i < padded; i++) {
        if (model_plain[i] != padding) {
            return PADDING;
        }
    }
    if (out_len < padded - padding) {
        return OUTPUT;
    }
    memcpy(out, model_plain, padded - padding);
    return (int64_t)(padded - padding);
}

/* ---- One call, compared with its model ---- */

static uint8_t *place_input(const uint8_t *bytes, size_t len)
{
    must(len <= CAPACITY, "the test gives too long an input");
    return memcpy(input_end - len, bytes, len);
}

/* Fills the output and its margin with random bytes, and `expected` with the same. */
static uint8_t *place_output(size_t out_len)
{
    must(out_len <= CAPACITY, "the test gives too long an output");
    fill_random(output_end - out_len - MARGIN, out_len + MARGIN);
    memcpy(expected, output_end - out_len - MARGIN, out_len + MARGIN);
    return output_end - out_len;
}

static void compare(const char *call, const uint8_t *bytes, size_t len, size_t out_len,
                    int64_t answer, int64_t model, int64_t want)
{
    const uint8_t *written = output_end - out_len - MARGIN;
    check(answer == model, "%s, %zu bytes, output of %zu: answers %" PRId64 ", not %" PRId64, call,
          len, out_len, answer, model);
    if (want != BY_MODEL) {
        check(model == want, "%s, %zu bytes, output of %zu: the model answers %" PRId64
              ", the rule %" PRId64, call, len, out_len, model, want);
    }
    if (!check(memcmp(written, expected, MARGIN + out_len) == 0,
               "%s, %zu bytes, output of %zu: the output has other bytes", call, len, out_len)
        && failures <= 20) {
        size_t at = 0;
        while (written[at] == expected[at]) {
            at++;
        }
        printf("    the first at place %td, where the answer should be %" PRId64 "\n",
               (ptrdiff_t)at - MARGIN, model);
    }
    check(len == 0 || memcmp(input_end - len, bytes, len) == 0,
          "%s, %zu bytes, output of %zu: the input was changed", call, len, out_len);
}

/* Both leave what the call has written in the `out_len` bytes before output_end. */

static void try_seal(const struct secret *s, const uint8_t *bytes, size_t len, size_t out_len,
                     int64_t want)
{
    const uint8_t *in = place_input(bytes, len);
    uint8_t *out = place_output(out_len);
    const int64_t model = model_seal(s, bytes, len, expected + MARGIN, out_len);
    const int64_t answer =
        s100_seal(number(s->key), number(s->key + 8), number(s->lead), number(s->lead + 8),
                  number(s->start), number(s->start + 8), in, len, out, out_len);
    compare("s100_seal", bytes, len, out_len, answer, model, want);
}

static void try_open(const uint8_t *key, const uint8_t *bytes, size_t len, size_t out_len,
                     int64_t want)
{
    const uint8_t *in = place_input(bytes, len);
    uint8_t *out = place_output(out_len);
    const int64_t model = model_open(key, bytes, len, expected + MARGIN, out_len);
    const int64_t answer = s100_open(number(key), number(key + 8), in, len, out, out_len);
    compare("s100_open", bytes, len, out_len, answer, model, want);
}

/* ---- The parts of the test ---- */

static void example_of_the_standard(void)
{
    static const struct secret s = {
        {0x12, 0x34, 0x56, 0x78, 0x9A, 0xBC, 0xDE, 0xF0,
         0x12, 0x34, 0x56, 0x78, 0x9A, 0xBC, 0xDE, 0xF0},
        {0x48, 0xD2, 0x4E, 0x7C, 0x00, 0x2F, 0x67, 0x4E,
         0x93, 0x1D, 0xEE, 0x27, 0x42, 0x17, 0xA3, 0x4C},
        {0x45, 0xB5, 0x00, 0xD7, 0x28, 0x39, 0x42, 0xBB,
         0x85, 0x61, 0x28, 0xD5, 0x97, 0x15, 0xCA, 0x25},
    };
    static const uint8_t data[] = {0xFE, 0xDC, 0xBA, 0x98, 0x76, 0x54, 0x32, 0x10};
    static const uint8_t printed[] = {
        0xBA, 0x45, 0xEE, 0x06, 0x02, 0xA6, 0x29, 0x35,
        0x7A, 0xE3, 0x90, 0x2C, 0x22, 0x4D, 0xD9, 0xD5,
        0xDD, 0x3B, 0x07, 0x3B, 0x84, 0x7F, 0x4D, 0x43,
        0x28, 0x71, 0x19, 0x43, 0x97, 0xD9, 0xA6, 0x03,
    };
    part = "example of the standard";
    try_seal(&s, data, sizeof data, sizeof printed, sizeof printed);
    check(memcmp(output_end - sizeof printed, printed, sizeof printed) == 0, "seals otherwise");
    try_open(s.key, printed, sizeof printed, sizeof data, sizeof data);
    check(memcmp(output_end - sizeof data, data, sizeof data) == 0, "opens otherwise");
}

static void inline_functions(void)
{
    static const size_t too_long[] = {DATASET_MAX + 1, SIZE_MAX - 31, SIZE_MAX};
    part = "inline functions of the header";
    for (size_t i = 0; i < COUNT(too_long); i++) {
        check(s100_sealed_length(too_long[i]) == 0, "a length for %zu bytes", too_long[i]);
    }
    for (int i = 0; i < 100; i++) {
        uint8_t bytes[8];
        fill_random(bytes, sizeof bytes);
        check(s100_number(bytes) == number(bytes), "s100_number");
    }
}

/* A dataset sealed and opened, with `slack` bytes more in the output than needed; then too few. */
static void round_trip(size_t len, size_t slack)
{
    const struct secret s = random_secret();
    const size_t total = BLOCK + len + (BLOCK - len % BLOCK);
    fill_random(dataset, len);
    check(s100_sealed_length(len) == total, "s100_sealed_length of %zu", len);

    try_seal(&s, dataset, len, total + slack, (int64_t)total);
    memcpy(sealed, output_end - total - slack, total);
    try_open(s.key, sealed, total, len + slack, (int64_t)len);
    check(memcmp(output_end - len - slack, dataset, len) == 0, "%zu bytes: not given back", len);

    try_seal(&s, dataset, len, total - 1, OUTPUT);
    try_seal(&s, dataset, len, 0, OUTPUT);
    if (len > 0) {
        try_open(s.key, sealed, total, len - 1, OUTPUT);
        try_open(s.key, sealed, total, 0, OUTPUT);
    }
}

static void round_trips(void)
{
    static const size_t longest[] = {DATASET_MAX, DATASET_MAX - 1, DATASET_MAX - 15,
                                     DATASET_MAX - 16};
    part = "short datasets";
    for (size_t len = 0; len <= 100; len++) {
        for (size_t i = 0; i < COUNT(SLACKS); i++) {
            round_trip(len, SLACKS[i]);
        }
    }
    part = "datasets of random lengths";
    for (int i = 0; i < 20; i++) {
        round_trip(random_below(DATASET_MAX + 1), SLACKS[random_below(COUNT(SLACKS))]);
    }
    for (size_t limit = 256; limit < DATASET_MAX; limit *= 2) {
        round_trip(random_below(limit), SLACKS[random_below(COUNT(SLACKS))]);
        round_trip(random_below(limit) / BLOCK * BLOCK, SLACKS[random_below(COUNT(SLACKS))]);
    }
    part = "datasets near the limit";
    for (size_t i = 0; i < COUNT(longest); i++) {
        round_trip(longest[i], 0);
    }
    round_trip(DATASET_MAX, 1);
    round_trip(DATASET_MAX, 17);
}

/* Over the limit it is the length that is refused, whatever the output is. */
static void datasets_too_long(void)
{
    static const size_t lengths[] = {DATASET_MAX + 1, DATASET_MAX + 2, DATASET_MAX + 15,
                                     DATASET_MAX + 16, DATASET_MAX + 17};
    static const size_t out_lengths[] = {0, 1, 32, DATASET_MAX, SEALED_MAX - 1, SEALED_MAX,
                                         SEALED_MAX + 32};
    const struct secret s = random_secret();
    part = "datasets too long";
    fill_random(dataset, DATASET_MAX + 17);
    for (size_t i = 0; i < COUNT(lengths); i++) {
        for (size_t k = 0; k < COUNT(out_lengths); k++) {
            try_seal(&s, dataset, lengths[i], out_lengths[k], LENGTH);
        }
    }
}

/*
 * Sealed lengths that can be and that cannot, with padding good and bad where it is seen, and with
 * outputs that suffice and that do not: which refusal comes first.
 */
static void sealed_lengths(void)
{
    static const size_t lengths[] = {
        0, 1, 15, 16, 17, 31, 32, 33, 47, 48, 49, 63, 64, 65, SEALED_MAX - 16, SEALED_MAX - 1,
        SEALED_MAX, SEALED_MAX + 1, SEALED_MAX + 15, SEALED_MAX + 16, SEALED_MAX + 32};
    part = "sealed lengths";
    for (size_t i = 0; i < COUNT(lengths); i++) {
        const size_t len = lengths[i];
        const size_t whole = (len + BLOCK - 1) / BLOCK * BLOCK;
        const bool can_be = len >= 32 && len <= SEALED_MAX && len % BLOCK == 0;
        const struct secret s = random_secret();

        /* Bad padding: the last byte is 0. */
        fill_random(plain, whole);
        if (whole > 0) {
            plain[whole - 1] = 0;
        }
        seal_blocks(&s, plain, whole, sealed);
        try_open(s.key, sealed, len, len, can_be ? PADDING : LENGTH);
        try_open(s.key, sealed, len, 0, can_be ? PADDING : LENGTH);

        /* Good padding, of one byte and of a whole block. */
        for (size_t padding = 1; whole > 0 && padding <= BLOCK; padding += BLOCK - 1) {
            const int64_t left = (int64_t)whole - BLOCK - (int64_t)padding;
            memset(plain + whole - padding, (int)padding, padding);
            seal_blocks(&s, plain, whole, sealed);
            try_open(s.key, sealed, len, len, can_be ? left : LENGTH);
            try_open(s.key, sealed, len, 0, can_be ? (left > 0 ? OUTPUT : 0) : LENGTH);
        }

        /* Bytes that no sealing made. */
        fill_random(sealed, len);
        try_open(s.key, sealed, len, len, can_be ? BY_MODEL : LENGTH);
        try_open(s.key, sealed, len, 0, can_be ? BY_MODEL : LENGTH);
    }
}

/* Seals `len` bytes of plain blocks and opens them, with every kind of output. */
static void open_plain(size_t len, int64_t want)
{
    const struct secret s = random_secret();
    seal_blocks(&s, plain, len, sealed);
    try_open(s.key, sealed, len, len, want);
    try_open(s.key, sealed, len, 0, want > 0 ? OUTPUT : want);
    if (want > 0) {
        try_open(s.key, sealed, len, (size_t)want, want);
        try_open(s.key, sealed, len, (size_t)want - 1, OUTPUT);
    }
}

/* Every last byte, over one, two and three blocks, with the bytes before it right and wrong. */
static void paddings(void)
{
    part = "paddings";
    for (size_t last = 0; last <= 255; last++) {
        for (size_t len = 2 * BLOCK; len <= 4 * BLOCK; len += BLOCK) {
            const size_t padded = len - BLOCK;
            const size_t fill = last < padded ? last : padded;
            const bool good = last >= 1 && last <= 16;
            const int64_t want = good ? (int64_t)(padded - last) : PADDING;

            /* As many bytes as the last one says, or all that there are; another before them. */
            fill_random(plain, len);
            memset(plain + len - fill, (int)last, fill);
            plain[len - 1] = (uint8_t)last;
            plain[len - fill - (fill == 0 ? 2 : 1)] = (uint8_t)(last + 1);
            open_plain(len, want);

            /* The dataset itself may end as the padding begins. */
            plain[len - fill - (fill == 0 ? 2 : 1)] = (uint8_t)last;
            open_plain(len, want);
            memset(plain, (int)last, len);
            open_plain(len, want);

            /* One of them wrong, each in turn. The last says where they begin: it stays. */
            for (size_t back = 2; back <= fill; back++) {
                fill_random(plain, len - fill);
                memset(plain + len - fill, (int)last, fill);
                plain[len - back] ^= (uint8_t)(1 + random_below(255));
                open_plain(len, PADDING);
            }

            /* Only the last byte right. */
            fill_random(plain, len);
            plain[len - 1] = (uint8_t)last;
            open_plain(len, BY_MODEL);
        }
    }

    part = "padding of a whole block and nothing else";
    fill_random(plain, BLOCK);
    memset(plain + BLOCK, BLOCK, BLOCK);
    open_plain(2 * BLOCK, 0);
}

/* Sealed bytes of the greatest length may hold more than a dataset to be sealed may have. */
static void longest_sealed_bytes(void)
{
    static const size_t good[] = {1, 8, 15, 16};
    static const uint8_t bad[] = {0, 17};
    part = "sealed bytes of the greatest length";
    fill_random(plain, SEALED_MAX);
    for (size_t i = 0; i < COUNT(bad); i++) {
        memset(plain + SEALED_MAX - 2 * BLOCK, bad[i], 2 * BLOCK);
        open_plain(SEALED_MAX, PADDING);
    }
    for (size_t i = 0; i < COUNT(good); i++) {
        memset(plain + SEALED_MAX - good[i], (int)good[i], good[i]);
        open_plain(SEALED_MAX, SEALED_MAX - BLOCK - (int64_t)good[i]);
    }
}

/* Alters one block in the way of the given number; each way changes something. */
enum { WAYS = 128 + 5 };

static void alter(uint8_t *block, int way)
{
    uint8_t before[BLOCK];
    memcpy(before, block, BLOCK);
    do {
        if (way < 128) {
            block[way / 8] ^= (uint8_t)(1 << way % 8);
        } else if (way == 128) {
            for (int i = 0; i < BLOCK; i++) {
                block[i] ^= 0xFF;
            }
        } else if (way == 129) {
            block[random_below(BLOCK)]++;
        } else if (way == 130) {
            memset(block, 0, BLOCK);
        } else if (way == 131) {
            block[0] ^= 0x80;
            block[BLOCK - 1] ^= 0x01;
        } else {
            fill_random(block, BLOCK);
        }
    } while (memcmp(before, block, BLOCK) == 0);
}

/* `sealed` holds what `dataset` sealed to; leaves it so. Blocks are counted from 1. */
static void damage(const struct secret *s, size_t len, size_t total, size_t damaged, int way)
{
    uint8_t *block = sealed + (damaged - 1) * BLOCK;
    uint8_t before[BLOCK];
    memcpy(before, block, BLOCK);
    alter(block, way);
    try_open(s->key, sealed, total, len - 1, OUTPUT);
    try_open(s->key, sealed, total, len + 5, (int64_t)len);

    const uint8_t *opened = output_end - len - 5;
    bool exactly = true;
    for (size_t from = 0; from < len; from += BLOCK) {
        const size_t j = from / BLOCK + 1;
        const size_t size = len - from < BLOCK ? len - from : BLOCK;
        const bool altered = memcmp(opened + from, dataset + from, size) != 0;
        exactly = exactly && altered == (j + 1 == damaged || j == damaged);
    }
    check(exactly, "%zu bytes, sealed block %zu damaged: other blocks are altered", len, damaged);
    memcpy(block, before, BLOCK);
}

static void damages(void)
{
    static const size_t lengths[] = {16,  17,  31,  32,  33,  47,  48,   64,   95,  96,
                                     100, 160, 255, 256, 257, 999, 1024, 4096, 10007};
    part = "damage";
    for (size_t i = 0; i < COUNT(lengths); i++) {
        const size_t len = lengths[i];
        const struct secret s = random_secret();
        fill_random(dataset, len);
        const size_t total = (size_t)model_seal(&s, dataset, len, sealed, CAPACITY);
        const size_t last = total / BLOCK - 2; /* the last that is not one of the last two */
        for (size_t damaged = 1; damaged <= last; damaged++) {
            const bool edge = damaged <= 2 || damaged == (last + 1) / 2 || damaged == last;
            if (edge) {
                for (int way = 0; way < WAYS; way++) {
                    damage(&s, len, total, damaged, way);
                }
            } else if (last <= 20) {
                damage(&s, len, total, damaged, (int)random_below(128));
                damage(&s, len, total, damaged, WAYS - 1);
            }
        }
    }
}

/* The right key and others, on what sealing made, on what only ends like it, and on anything. */
static void random_calls(void)
{
    part = "random calls";
    for (int i = 0; i < 20000; i++) {
        struct secret s = random_secret();
        const size_t len = random_below(201);
        fill_random(dataset, len);
        try_seal(&s, dataset, len, random_below(260), BY_MODEL);

        size_t total = (size_t)model_seal(&s, dataset, len, sealed, CAPACITY);
        switch (random_below(6)) {
        case 0: /* what sealing made */
            break;
        case 1: /* damaged anywhere */
            alter(sealed + random_below(total / BLOCK) * BLOCK, (int)random_below(WAYS));
            break;
        case 2: /* another key */
            alter(s.key, (int)random_below(WAYS));
            break;
        case 3: /* cut off anywhere */
            total = random_below(total + 1);
            break;
        case 4: /* any bytes */
            total = random_below(201);
            fill_random(sealed, total);
            break;
        default: /* any bytes before a last block that opens to good or almost good padding */
            fill_random(plain, total);
            const size_t padding = random_below(18);
            memset(plain + total - padding, (int)padding, padding);
            if (random_below(4) == 0) {
                plain[total - 1 - random_below(BLOCK)] ^= (uint8_t)(1 << random_below(8));
            }
            seal_blocks(&s, plain, total, sealed);
            fill_random(sealed, total - 2 * BLOCK);
            break;
        }
        try_open(s.key, sealed, total, random_below(total + 20), BY_MODEL);
        try_open(s.key, sealed, total, total, BY_MODEL);
    }
}

int main(void)
{
    setvbuf(stdout, NULL, _IOLBF, 0); /* so that nothing is lost if out_of_bounds ends the test */
    signal(SIGSEGV, out_of_bounds);
    signal(SIGBUS, out_of_bounds);
    input_end = fenced_room();
    output_end = fenced_room();
    expected = room();
    model_plain = room();
    dataset = room();
    plain = room();
    sealed = room();

    example_of_the_standard();
    inline_functions();
    round_trips();
    datasets_too_long();
    sealed_lengths();
    paddings();
    longest_sealed_bytes();
    damages();
    random_calls();

    printf("%lu checks, %lu failed\n", checks, failures);
    return failures == 0 ? 0 : 1;
}
