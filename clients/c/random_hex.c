/* random_hex BYTES: prints so many random bytes in hexadecimal, by HMAC_DRBG over SHA-256 seeded from the system.
 *
 * An example to copy from: instantiate with entropy and a nonce, ask for at most RBG_MAX_LEN bytes at a time, reseed where the
 * library asks for it, look at each status, and clear what is secret on every way out.
 *
 *   cc -std=c99 -Iinclude clients/c/random_hex.c crates/rbg/out/librbg.a -o random_hex
 */
#define _DEFAULT_SOURCE
#include <errno.h>
#include <stdio.h>
#include <stdlib.h>
#include <string.h>
#include <sys/random.h>

#include "rbg.h"

/* How many generates one seed serves. The standard allows up to RBG_MAX_INTERVAL. */
#define INTERVAL 1000

/* Fills a buffer from the system, which gives at most 256 bytes in one call for sure. Each function here answers NULL where it
 * did its work, and else what went wrong. */
static const char *draw(uint8_t *out, size_t len)
{
    size_t done = 0;
    while (done < len) {
        size_t left = len - done;
        ssize_t got = getrandom(out + done, left < 256 ? left : 256, 0);
        if (got > 0)
            done += (size_t)got;
        else if (got == 0 || errno != EINTR)
            return "the system gives no random bytes";
    }
    return NULL;
}

static const char *start(struct rbg_drbg *state)
{
    static const uint8_t personalization[] = "random_hex";
    uint8_t entropy[32], nonce[16];
    const char *wrong = draw(entropy, sizeof entropy);
    if (wrong == NULL)
        wrong = draw(nonce, sizeof nonce);
    if (wrong == NULL && rbg_drbg_instantiate(state, RBG_HMAC_SHA_256, entropy, sizeof entropy, nonce, sizeof nonce,
                                              personalization, sizeof personalization - 1) != RBG_DONE)
        wrong = "the instantiation was refused";
    explicit_bzero(entropy, sizeof entropy);
    explicit_bzero(nonce, sizeof nonce);
    return wrong;
}

static const char *reseed(struct rbg_drbg *state)
{
    uint8_t entropy[32];
    const char *wrong = draw(entropy, sizeof entropy);
    if (wrong == NULL && rbg_drbg_reseed(state, entropy, sizeof entropy, NULL, 0) != RBG_DONE)
        wrong = "the reseed was refused";
    explicit_bzero(entropy, sizeof entropy);
    return wrong;
}

static const char *give(struct rbg_drbg *state, uint8_t *out, size_t len)
{
    uint32_t status = rbg_drbg_generate(state, NULL, 0, INTERVAL, out, len);
    if (status == RBG_RESEED_REQUIRED) {
        const char *wrong = reseed(state);
        if (wrong != NULL)
            return wrong;
        status = rbg_drbg_generate(state, NULL, 0, INTERVAL, out, len);
    }
    return status == RBG_DONE ? NULL : "the generate was refused";
}

/* Prints so many bytes, piece by piece. */
static const char *print(struct rbg_drbg *state, unsigned long long left)
{
    uint8_t piece[4096];
    const char *wrong = NULL;
    while (wrong == NULL && left > 0) {
        size_t len = left < sizeof piece ? (size_t)left : sizeof piece;
        wrong = give(state, piece, len);
        for (size_t i = 0; wrong == NULL && i < len; i++)
            printf("%02x", piece[i]);
        if (wrong == NULL && ferror(stdout))
            wrong = "the output cannot be written";
        left -= len;
    }
    explicit_bzero(piece, sizeof piece);
    return wrong;
}

static int usage(void)
{
    fputs("usage: random_hex BYTES\n", stderr);
    return 2;
}

int main(int argc, char **argv)
{
    struct rbg_drbg state;
    const char *wrong;
    char *end;
    if (argc != 2 || argv[1][0] < '0' || argv[1][0] > '9')
        return usage();
    errno = 0;
    unsigned long long bytes = strtoull(argv[1], &end, 10);
    if (errno != 0 || *end != '\0')
        return usage();
    wrong = start(&state);
    if (wrong == NULL)
        wrong = print(&state, bytes);
    rbg_drbg_clear(&state);
    if (wrong == NULL && (putchar('\n') == EOF || fflush(stdout) != 0 || ferror(stdout)))
        wrong = "the output cannot be written";
    if (wrong != NULL)
        fprintf(stderr, "random_hex: %s\n", wrong);
    return wrong != NULL;
}
