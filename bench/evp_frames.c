/* The peer of bench/compare, over OpenSSL's EVP_RAND.
 *
 *   evp_frames MECHANISM SEED <FRAMES >REPLIES   Generate frames of 1 to 65,536 bytes, answered from the 48 bytes of the file SEED: with
 *                                                hmac-sha-256 the work of rbgtree seed SEED, with ctr-aes-256 that of rbgtree
 *                                                answer over one node with this DRBG and this seed
 *
 * As there, a read asks for 65,536 bytes, and each reply is one write. Other frames end it with status 1.
 */
#include <stdint.h>
#include <string.h>
#include <unistd.h>

#include "evp_drbg.h"

enum { FRAME = 16, HEAD = 28, PIECE = 65536, LONGEST = 65536 };

static uint32_t count_of(const unsigned char *frame)
{
    return (uint32_t)frame[8] << 24 | frame[9] << 16 | frame[10] << 8 | frame[11];
}

static void write_all(const unsigned char *bytes, size_t len)
{
    while (len > 0) {
        ssize_t taken = write(STDOUT_FILENO, bytes, len);
        if (taken <= 0)
            fail("write");
        bytes += taken;
        len -= taken;
    }
}

static void answer(EVP_RAND_CTX *drbg, const unsigned char *frame)
{
    /* Version 1, Generate, no flags, node 0; no strength, no string. */
    static const unsigned char front[4] = {1, 2, 0, 0}, back[4];
    static unsigned char reply[HEAD + LONGEST];
    uint32_t count = count_of(frame);
    if (memcmp(frame, front, 4) != 0 || memcmp(frame + 12, back, 4) != 0 || count == 0 || count > LONGEST)
        fail("not a Generate frame of 1 to 65,536 bytes");
    reply[0] = 1;
    reply[2] = 2;
    memcpy(reply + 4, frame + 4, 4);
    memcpy(reply + 24, frame + 8, 4);
    if (!EVP_RAND_generate(drbg, reply + HEAD, count, 0, 0, NULL, 0))
        fail("generate");
    write_all(reply, HEAD + count);
}

static void answer_all(EVP_RAND_CTX *drbg)
{
    static unsigned char piece[FRAME + PIECE];
    size_t have = 0;
    for (;;) {
        ssize_t taken = read(STDIN_FILENO, piece + have, PIECE);
        if (taken < 0)
            fail("read");
        if (taken == 0)
            break;
        have += taken;
        size_t at = 0;
        for (; have - at >= FRAME; at += FRAME)
            answer(drbg, piece + at);
        have -= at;
        memmove(piece, piece + at, have);
    }
    if (have > 0)
        fail("input cut");
}

int main(int argc, char **argv)
{
    static const struct mechanism served[] = {
        {"hmac-sha-256", "HMAC-DRBG", OSSL_DRBG_PARAM_DIGEST, "SHA2-256"},
        {"ctr-aes-256", "CTR-DRBG", OSSL_DRBG_PARAM_CIPHER, "AES-256-CTR"},
    };
    unsigned char seed[48];
    FILE *file = argc == 3 ? fopen(argv[2], "rb") : NULL;
    if (file == NULL || fread(seed, 1, sizeof seed, file) != sizeof seed)
        fail("usage: evp_frames MECHANISM SEED, a file of 48 bytes");
    for (size_t i = 0; i < sizeof served / sizeof *served; i++)
        if (strcmp(argv[1], served[i].name) == 0) {
            answer_all(instantiate(&served[i], seed, 32, seed + 32, 16));
            return 0;
        }
    fail("no such mechanism");
}
