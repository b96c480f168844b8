/* The peer of the benchmarks, over OpenSSL's EVP_RAND.
 *
 *   evp_rand MECHANISM BYTES TIMES   the work of rbg_bench, with the same line on standard output
 *   evp_rand sha-256 TIMES           the hash of so many pieces of 65,536 zeros, which is what that work hashes at this length
 */
#include <string.h>

#include "evp_drbg.h"

static const struct mechanism mechanisms[] = {
    {"hmac-sha-224", "HMAC-DRBG", OSSL_DRBG_PARAM_DIGEST, "SHA2-224"},
    {"hmac-sha-256", "HMAC-DRBG", OSSL_DRBG_PARAM_DIGEST, "SHA2-256"},
    {"hmac-sha-384", "HMAC-DRBG", OSSL_DRBG_PARAM_DIGEST, "SHA2-384"},
    {"hmac-sha-512", "HMAC-DRBG", OSSL_DRBG_PARAM_DIGEST, "SHA2-512"},
    {"hmac-sha-512-224", "HMAC-DRBG", OSSL_DRBG_PARAM_DIGEST, "SHA2-512/224"},
    {"hmac-sha-512-256", "HMAC-DRBG", OSSL_DRBG_PARAM_DIGEST, "SHA2-512/256"},
    {"ctr-aes-128", "CTR-DRBG", OSSL_DRBG_PARAM_CIPHER, "AES-128-CTR"},
    {"ctr-aes-192", "CTR-DRBG", OSSL_DRBG_PARAM_CIPHER, "AES-192-CTR"},
    {"ctr-aes-256", "CTR-DRBG", OSSL_DRBG_PARAM_CIPHER, "AES-256-CTR"},
};

static const struct mechanism *mechanism_named(const char *name)
{
    for (size_t i = 0; i < sizeof mechanisms / sizeof *mechanisms; i++)
        if (strcmp(mechanisms[i].name, name) == 0)
            return &mechanisms[i];
    return NULL;
}

static void print_hash_of_outputs(const struct mechanism *m, size_t bytes, long times)
{
    unsigned char entropy[32], nonce[16];
    static unsigned char out[65536];
    EVP_MD_CTX *md = new_digest();
    count_from(entropy, sizeof entropy, 0);
    count_from(nonce, sizeof nonce, sizeof entropy);
    EVP_RAND_CTX *drbg = instantiate(m, entropy, sizeof entropy, nonce, sizeof nonce);
    for (long i = 0; i < times; i++) {
        if (!EVP_RAND_generate(drbg, out, bytes, 0, 0, NULL, 0))
            fail("generate");
        EVP_DigestUpdate(md, out, bytes);
    }
    print_digest(md);
}

static void print_hash_of_zeros(long times)
{
    static const unsigned char piece[65536];
    EVP_MD_CTX *md = new_digest();
    for (long i = 0; i < times; i++)
        EVP_DigestUpdate(md, piece, sizeof piece);
    print_digest(md);
}

int main(int argc, char **argv)
{
    if (argc == 3 && strcmp(argv[1], "sha-256") == 0 && atol(argv[2]) > 0) {
        print_hash_of_zeros(atol(argv[2]));
        return 0;
    }
    if (argc == 4) {
        const struct mechanism *m = mechanism_named(argv[1]);
        long bytes = atol(argv[2]), times = atol(argv[3]);
        if (m != NULL && bytes >= 0 && bytes <= 65536 && times > 0) {
            print_hash_of_outputs(m, bytes, times);
            return 0;
        }
    }
    fail("usage: evp_rand MECHANISM BYTES TIMES, or sha-256 TIMES");
}
