/* What the peers of the benchmarks share: a DRBG of OpenSSL's EVP_RAND (OpenSSL 3) from a given seed. */
#ifndef EVP_DRBG_H
#define EVP_DRBG_H

#include <openssl/core_names.h>
#include <openssl/params.h>

#include "print_digest.h"

/* A name for the words, the DRBG's name in OpenSSL, and the parameter that chooses its hash function or cipher. */
struct mechanism {
    const char *name, *drbg, *parameter, *value;
};

static inline EVP_RAND_CTX *new_rand(const char *name, EVP_RAND_CTX *parent)
{
    EVP_RAND *kind = EVP_RAND_fetch(NULL, name, NULL);
    EVP_RAND_CTX *rand = kind ? EVP_RAND_CTX_new(kind, parent) : NULL;
    if (rand == NULL)
        fail(name);
    EVP_RAND_free(kind);
    return rand;
}

/* A DRBG that never reseeds by itself, over a parent that hands out the entropy and the nonce given here. */
static inline EVP_RAND_CTX *instantiate(const struct mechanism *m, unsigned char *entropy, size_t entropy_len,
                                 unsigned char *nonce, size_t nonce_len)
{
    unsigned int strength = 256, never = 0;
    int derived = 1;
    time_t no_time = 0;
    EVP_RAND_CTX *parent = new_rand("TEST-RAND", NULL);
    EVP_RAND_CTX *drbg = new_rand(m->drbg, parent);
    OSSL_PARAM seed[] = {
        OSSL_PARAM_construct_uint(OSSL_RAND_PARAM_STRENGTH, &strength),
        OSSL_PARAM_construct_octet_string(OSSL_RAND_PARAM_TEST_ENTROPY, entropy, entropy_len),
        OSSL_PARAM_construct_octet_string(OSSL_RAND_PARAM_TEST_NONCE, nonce, nonce_len),
        OSSL_PARAM_construct_end(),
    };
    OSSL_PARAM choice[] = {
        OSSL_PARAM_construct_utf8_string(m->parameter, (char *)m->value, 0),
        /* HMAC-DRBG reads the one of these, CTR-DRBG the other. */
        OSSL_PARAM_construct_utf8_string(OSSL_DRBG_PARAM_MAC, "HMAC", 0),
        OSSL_PARAM_construct_int(OSSL_DRBG_PARAM_USE_DF, &derived),
        OSSL_PARAM_construct_uint(OSSL_DRBG_PARAM_RESEED_REQUESTS, &never),
        OSSL_PARAM_construct_time_t(OSSL_DRBG_PARAM_RESEED_TIME_INTERVAL, &no_time),
        OSSL_PARAM_construct_end(),
    };
    /* A personalization string that is given and empty, since a missing one is filled in. */
    static const unsigned char none[1];
    if (!EVP_RAND_CTX_set_params(parent, seed) || !EVP_RAND_instantiate(parent, 256, 0, NULL, 0, NULL))
        fail("the parent");
    if (!EVP_RAND_CTX_set_params(drbg, choice) || !EVP_RAND_instantiate(drbg, 0, 0, none, 0, NULL))
        fail("instantiate");
    return drbg;
}

#endif
