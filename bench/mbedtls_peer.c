/* The peer of bench/primitives over the C of Mbed TLS.
 *
 *   mbedtls_peer ctr-aes-256 BYTES TIMES   CTR_DRBG with AES-256 and the derivation function: the work of rbg_bench, with the same
 *                                          line on standard output; at most 1,024 bytes
 *   mbedtls_peer aes-128-block TIMES       AES-128: the work of rbg_bench, with the same line on standard output
 */
#include <limits.h>
#include <string.h>

#include <mbedtls/aes.h>
#include <mbedtls/ctr_drbg.h>

#include "print_digest.h"

#if defined(MBEDTLS_CTR_DRBG_USE_128_BIT_KEY)
#error "this Mbed TLS has CTR_DRBG with AES-128"
#endif

/* The library asks this before it takes the processor's AES instructions. Here the answer is no, so it runs its tables in C. */
int mbedtls_aesni_has_support(unsigned int what)
{
    (void)what;
    return 0;
}

/* Bytes that count up from 0: 32 of entropy in the first call, 16 of nonce in the second. */
static int count_on(void *next, unsigned char *bytes, size_t len)
{
    for (size_t i = 0; i < len; i++)
        bytes[i] = (*(unsigned char *)next)++;
    return 0;
}

static void print_hash_of_outputs(size_t bytes, long times)
{
    unsigned char next = 0, out[MBEDTLS_CTR_DRBG_MAX_REQUEST];
    EVP_MD_CTX *md = new_digest();
    mbedtls_ctr_drbg_context drbg;
    mbedtls_ctr_drbg_init(&drbg);
    mbedtls_ctr_drbg_set_entropy_len(&drbg, 32);
    if (mbedtls_ctr_drbg_set_nonce_len(&drbg, 16) != 0 || mbedtls_ctr_drbg_seed(&drbg, count_on, &next, NULL, 0) != 0)
        fail("instantiate");
    mbedtls_ctr_drbg_set_reseed_interval(&drbg, INT_MAX);
    for (long i = 0; i < times; i++) {
        if (mbedtls_ctr_drbg_random(&drbg, out, bytes) != 0)
            fail("generate");
        EVP_DigestUpdate(md, out, bytes);
    }
    print_digest(md);
}

/* The zero block, encrypted again and again with the key 00 to 0f. */
static void print_block(long times)
{
    unsigned char key[16], block[16] = {0};
    mbedtls_aes_context aes;
    count_from(key, sizeof key, 0);
    mbedtls_aes_init(&aes);
    if (mbedtls_aes_setkey_enc(&aes, key, 128) != 0)
        fail("the key");
    for (long i = 0; i < times; i++)
        if (mbedtls_aes_crypt_ecb(&aes, MBEDTLS_AES_ENCRYPT, block, block) != 0)
            fail("encrypt");
    for (size_t i = 0; i < sizeof block; i++)
        printf("%02x", block[i]);
    printf("\n");
}

int main(int argc, char **argv)
{
    if (argc == 4 && strcmp(argv[1], "ctr-aes-256") == 0) {
        long bytes = atol(argv[2]), times = atol(argv[3]);
        if (bytes >= 0 && bytes <= MBEDTLS_CTR_DRBG_MAX_REQUEST && times > 0) {
            print_hash_of_outputs(bytes, times);
            return 0;
        }
    }
    if (argc == 3 && strcmp(argv[1], "aes-128-block") == 0 && atol(argv[2]) > 0) {
        print_block(atol(argv[2]));
        return 0;
    }
    fail("usage: mbedtls_peer ctr-aes-256 BYTES TIMES, or aes-128-block TIMES");
}
