/*
 * Sealing and opening datasets of IHO S-100 Part 15 under a known dataset key, over AES-128.
 *
 * Build the library with `rt lib` in the folder crates/sealing_c of the repository and link
 * crates/sealing_c/out/libsealing_c.a.
 *
 * What is sealed. A dataset has 0 to S100_DATASET_MAX bytes. It is padded as in PKCS#7, by 1 to 16
 * bytes that each hold their own number, and a leading block R is put before it. The whole is
 * enciphered by AES-128 in CBC mode from a starting vector V. Sealed bytes are therefore always
 * a multiple of 16, and at least 32; s100_sealed_length gives their number.
 *
 * Key, R and V are sixteen bytes and come as two numbers each: "hi" is bytes 0 to 7, "lo" is bytes
 * 8 to 15, and in each number the first byte is the highest. The key that is written
 * 00112233445566778899AABBCCDDEEFF is hi 0x0011223344556677, lo 0x8899AABBCCDDEEFF, on every
 * machine. s100_number makes such a number of eight bytes.
 *
 * Answers. Both calls answer how many bytes they wrote, which is 0 or more, or minus the number of
 * a refusal. A call tries its refusals in the order in which they are listed with it and answers
 * the first that applies. It always answers, whatever the bytes are.
 *
 * Buffers.
 * - The result stands at the front of `out`. Every byte of `out` behind it keeps what it held.
 * - A refusal leaves all of `out` as it was.
 * - The bytes to be sealed or opened are only read.
 * - `out` must not overlap them: to seal or open in place is not possible.
 * - No pointer may be NULL, not even with a length of 0. Let it point at anything then: nothing is
 *   read or written there.
 * - Each pointer must have as many bytes behind it as the length beside it says. The calls rely on
 *   it and cannot see whether it is so.
 */
#ifndef S100_SEALING_H
#define S100_SEALING_H

#include <stddef.h>
#include <stdint.h>

#ifdef __cplusplus
extern "C" {
#endif

/* Bytes of a block, of a key, of R and of V. */
#define S100_BLOCK 16

/* The most bytes that a dataset to be sealed may have. */
#define S100_DATASET_MAX 10485760

/* The most bytes that may be opened: as many as a dataset of the greatest length seals to. */
#define S100_SEALED_MAX 10485792

/* Refusals. The calls answer them negative: `if (answer == -S100_REFUSED_OUTPUT)`. */
#define S100_REFUSED_LENGTH 9   /* the dataset or the sealed bytes have a length that cannot be */
#define S100_REFUSED_PADDING 10 /* the padding is not good: most often, it was another key */
#define S100_REFUSED_OUTPUT 11  /* `out` is shorter than the result */

/*
 * Seals a dataset.
 *
 *   key_hi, key_lo      the dataset key
 *   lead_hi, lead_lo    R, the leading block
 *   start_hi, start_lo  V, the starting vector
 *   dataset             dataset_len bytes to be sealed
 *   out                 out_len bytes; s100_sealed_length(dataset_len) of them are needed
 *
 * Answers the number of sealed bytes, or
 *   -S100_REFUSED_LENGTH   if dataset_len is over S100_DATASET_MAX,
 *   -S100_REFUSED_OUTPUT   if out_len is less than the sealed bytes need.
 *
 * R and V are the caller's to choose, and the call takes any. They should be random bytes, fresh
 * for each sealing, from the generator that the system has for keys: two datasets that begin alike
 * and are sealed under the same key, R and V have sealed bytes that begin alike. Neither has to be
 * kept, for opening needs neither.
 */
int64_t s100_seal(uint64_t key_hi, uint64_t key_lo, uint64_t lead_hi, uint64_t lead_lo,
                  uint64_t start_hi, uint64_t start_lo, const uint8_t *dataset, size_t dataset_len,
                  uint8_t *out, size_t out_len);

/*
 * Opens sealed bytes.
 *
 *   key_hi, key_lo  the dataset key
 *   sealed          sealed_len bytes to be opened
 *   out             out_len bytes for the dataset; as many as sealed_len always suffice
 *
 * Answers the number of bytes of the dataset, or
 *   -S100_REFUSED_LENGTH   if sealed_len is under 32, over S100_SEALED_MAX or no multiple of 16,
 *   -S100_REFUSED_PADDING  if the padding is not good: its last byte N is not 1 to 16, or not each
 *                          of the last N bytes is N,
 *   -S100_REFUSED_OUTPUT   if out_len is less than the dataset needs.
 *
 * An answer of 0 or more does not say that the bytes are those that were sealed. Nothing in sealed
 * bytes vouches for them: another key or altered bytes are refused where they spoil the padding,
 * and otherwise give other bytes. Where something within one sealed block is altered, and it is not
 * one of the last two, the dataset keeps its length and two neighbouring blocks of it are altered
 * (its first block alone, if it was the first sealed block). To know a dataset for genuine, check
 * its signature.
 *
 * Sealed bytes of the greatest length that s100_seal did not make may have padding shorter than 16,
 * and then open to a little more than S100_DATASET_MAX bytes.
 */
int64_t s100_open(uint64_t key_hi, uint64_t key_lo, const uint8_t *sealed, size_t sealed_len,
                  uint8_t *out, size_t out_len);

/*
 * The number of bytes that a dataset of dataset_len bytes seals to; 0 if it is over
 * S100_DATASET_MAX and cannot be sealed.
 */
static inline size_t s100_sealed_length(size_t dataset_len)
{
    if (dataset_len > S100_DATASET_MAX) {
        return 0;
    }
    return S100_BLOCK + dataset_len + (S100_BLOCK - dataset_len % S100_BLOCK);
}

/* The number that eight bytes make, the first of them the highest. */
static inline uint64_t s100_number(const uint8_t *bytes)
{
    uint64_t number = 0;
    for (int i = 0; i < 8; i++) {
        number = number << 8 | bytes[i];
    }
    return number;
}

#ifdef __cplusplus
}
#endif

#endif
