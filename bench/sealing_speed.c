/*
 * How fast this library seals and opens a dataset of the greatest length, beside OpenSSL: as
 * OpenSSL is, and with the processor's AES instructions hidden from it.
 *
 * The ratios depend on the machine, on its processor above all, and on what else it does meanwhile.
 * Nothing here is a test: no speed is right or wrong, and none is promised.
 *
 * libcrypto looks at the processor once, when it starts, and reads OPENSSL_ia32cap then. So OpenSSL
 * is measured in children of this program, which runs itself anew with that variable unset and set.
 * Off x86 the variable means nothing, and the two rows of OpenSSL say the same.
 */
#define _POSIX_C_SOURCE 200809L /* clock_gettime, fork, setenv */

#include <stdbool.h>
#include <stdint.h>
#include <stdio.h>
#include <stdlib.h>
#include <string.h>
#include <sys/wait.h>
#include <time.h>
#include <unistd.h>

#include <openssl/crypto.h>
#include <openssl/evp.h>

#include "s100_sealing.h"

enum { REPETITIONS = 15 };

/*
 * Takes away the bits of AES (57) and of carry-less multiplication (33), which goes with it. Given
 * alone it hides the second word of features too (AVX2 and later), which no speed here showed.
 */
static const char *const WITHOUT_AES = "~0x200000200000000";

static const char *const CHILD = "--openssl";

struct seconds {
    double seal;
    double open;
};

static uint8_t key[S100_BLOCK], lead[S100_BLOCK], start[S100_BLOCK];
static uint8_t dataset[S100_DATASET_MAX];
static uint8_t sealed[S100_SEALED_MAX];

/* libcrypto may want a block more than it leaves in its output. */
static uint8_t out[S100_SEALED_MAX + S100_BLOCK];

static void must(bool fine, const char *what)
{
    if (!fine) {
        fprintf(stderr, "sealing_speed: %s\n", what);
        exit(1);
    }
}

static double now(void)
{
    struct timespec t;
    must(clock_gettime(CLOCK_MONOTONIC, &t) == 0, "no clock");
    return (double)t.tv_sec + (double)t.tv_nsec * 1e-9;
}

/* ---- The same work, done by this library and by OpenSSL: from key and bytes to the result ---- */

static int64_t library_seal(void)
{
    return s100_seal(s100_number(key), s100_number(key + 8), s100_number(lead),
                     s100_number(lead + 8), s100_number(start), s100_number(start + 8), dataset,
                     sizeof dataset, out, sizeof out);
}

static int64_t library_open(void)
{
    return s100_open(s100_number(key), s100_number(key + 8), sealed, sizeof sealed, out,
                     sizeof out);
}

static int64_t openssl_seal(void)
{
    EVP_CIPHER_CTX *context = EVP_CIPHER_CTX_new();
    int a = 0, b = 0, c = 0;
    must(context != NULL && EVP_EncryptInit_ex(context, EVP_aes_128_cbc(), NULL, key, start) == 1
             && EVP_EncryptUpdate(context, out, &a, lead, sizeof lead) == 1
             && EVP_EncryptUpdate(context, out + a, &b, dataset, sizeof dataset) == 1
             && EVP_EncryptFinal_ex(context, out + a + b, &c) == 1,
         "OpenSSL does not seal");
    EVP_CIPHER_CTX_free(context);
    return (int64_t)a + b + c;
}

/* Sealed block 1 stands in for the starting vector, so that R is not deciphered at all. */
static int64_t openssl_open(void)
{
    EVP_CIPHER_CTX *context = EVP_CIPHER_CTX_new();
    int a = 0, b = 0;
    must(context != NULL && EVP_DecryptInit_ex(context, EVP_aes_128_cbc(), NULL, key, sealed) == 1
             && EVP_DecryptUpdate(context, out, &a, sealed + S100_BLOCK,
                                  sizeof sealed - S100_BLOCK) == 1
             && EVP_DecryptFinal_ex(context, out + a, &b) == 1,
         "OpenSSL does not open");
    EVP_CIPHER_CTX_free(context);
    return (int64_t)a + b;
}

/* ---- Measuring ---- */

/* Any bytes will do; these are the same in every process, so that each has the same work. */
static void prepare(void)
{
    uint32_t x = 1;
    for (size_t i = 0; i < sizeof dataset; i++) {
        x = x * 1664525 + 1013904223;
        dataset[i] = (uint8_t)(x >> 24);
    }
    memcpy(key, dataset + 100, sizeof key);
    memcpy(lead, dataset + 200, sizeof lead);
    memcpy(start, dataset + 300, sizeof start);
    memset(out, 1, sizeof out);

    /* What is measured must be the same work: the bytes of both are compared, both ways. */
    must(openssl_seal() == sizeof sealed, "OpenSSL seals to another length");
    memcpy(sealed, out, sizeof sealed);
    memset(out, 1, sizeof out);
    must(library_seal() == sizeof sealed && memcmp(out, sealed, sizeof sealed) == 0,
         "the library seals to other bytes than OpenSSL");
    memset(out, 1, sizeof out);
    must(library_open() == sizeof dataset && memcmp(out, dataset, sizeof dataset) == 0,
         "the library does not open to the dataset");
    memset(out, 1, sizeof out);
    must(openssl_open() == sizeof dataset && memcmp(out, dataset, sizeof dataset) == 0,
         "OpenSSL does not open to the dataset");
}

/* The shortest of several times: whatever else the machine does only makes them longer. */
static double best(int64_t (*work)(void), int64_t answer)
{
    double shortest = 0;
    for (int i = 0; i < REPETITIONS; i++) {
        const double from = now();
        const int64_t answered = work();
        const double took = now() - from;
        must(answered == answer, "a call answered otherwise than before");
        if (i == 0 || took < shortest) {
            shortest = took;
        }
    }
    return shortest;
}

static struct seconds measure(int64_t (*seal)(void), int64_t (*open)(void))
{
    struct seconds s;
    s.seal = best(seal, sizeof sealed);
    s.open = best(open, sizeof dataset);
    return s;
}

/* Runs this program anew as a child that measures OpenSSL, and reads its numbers from a pipe. */
static struct seconds openssl_in_child(const char *ia32cap, char *settings, size_t settings_size)
{
    int ends[2];
    must(pipe(ends) == 0, "no pipe");
    const pid_t child = fork();
    must(child >= 0, "no child");
    if (child == 0) {
        must((ia32cap == NULL ? unsetenv("OPENSSL_ia32cap")
                              : setenv("OPENSSL_ia32cap", ia32cap, 1)) == 0,
             "no environment for the child");
        must(dup2(ends[1], STDOUT_FILENO) == STDOUT_FILENO, "no pipe in the child");
        close(ends[0]);
        close(ends[1]);
        char *words[] = {"sealing_speed", (char *)CHILD, NULL};
        execv("/proc/self/exe", words);
        must(false, "the program does not run itself");
    }
    close(ends[1]);
    FILE *numbers = fdopen(ends[0], "r");
    struct seconds s = {0, 0};
    must(numbers != NULL && fscanf(numbers, "%lf %lf ", &s.seal, &s.open) == 2
             && fgets(settings, (int)settings_size, numbers) != NULL,
         "no numbers from the child");
    fclose(numbers);
    int status = 0;
    must(waitpid(child, &status, 0) == child && WIFEXITED(status) && WEXITSTATUS(status) == 0,
         "the child failed");
    return s;
}

static void print_speeds(const char *name, struct seconds s)
{
    printf("%-48s %10.1f %10.1f\n", name, sizeof dataset / s.seal / 1e6,
           sizeof dataset / s.open / 1e6);
}

/* Of speeds, so that 0.5 is half as fast. */
static void print_ratio(const char *name, struct seconds library, struct seconds other)
{
    printf("%-48s %10.3f %10.3f\n", name, other.seal / library.seal, other.open / library.open);
}

int main(int argc, char **argv)
{
    prepare();
    if (argc == 2 && strcmp(argv[1], CHILD) == 0) {
        const struct seconds s = measure(openssl_seal, openssl_open);
        const char *settings = OPENSSL_info(OPENSSL_INFO_CPU_SETTINGS);
        printf("%.9f %.9f %s\n", s.seal, s.open, settings == NULL ? "not known" : settings);
        return 0;
    }

    char as_it_is_settings[200], without_settings[200];
    const struct seconds library = measure(library_seal, library_open);
    const struct seconds as_it_is =
        openssl_in_child(NULL, as_it_is_settings, sizeof as_it_is_settings);
    const struct seconds without =
        openssl_in_child(WITHOUT_AES, without_settings, sizeof without_settings);

    printf("%s\n", OpenSSL_version(OPENSSL_VERSION));
    printf("  as it is:                 %s", as_it_is_settings);
    printf("  without AES instructions: %s\n", without_settings);
    printf("%d bytes, best of %d; MB/s, an MB of 1000000 bytes\n", S100_DATASET_MAX, REPETITIONS);
    printf("%-48s %10s %10s\n", "", "seal", "open");
    print_speeds("this library", library);
    print_speeds("OpenSSL as it is", as_it_is);
    print_speeds("OpenSSL without AES instructions", without);
    print_ratio("this library / OpenSSL as it is", library, as_it_is);
    print_ratio("this library / OpenSSL without AES instructions", library, without);
    return 0;
}
