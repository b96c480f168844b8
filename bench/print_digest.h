/* What the peers of rbg_bench share: bytes that count up, and the line with the SHA-256 of all output. */
#ifndef PRINT_DIGEST_H
#define PRINT_DIGEST_H

#include <stdio.h>
#include <stdlib.h>

#include <openssl/evp.h>

static void fail(const char *what)
{
    fprintf(stderr, "peer: %s\n", what);
    exit(1);
}

/* So many bytes that count up from a first one. */
static inline void count_from(unsigned char *bytes, size_t len, unsigned char first)
{
    for (size_t i = 0; i < len; i++)
        bytes[i] = first + i;
}

static inline EVP_MD_CTX *new_digest(void)
{
    EVP_MD_CTX *md = EVP_MD_CTX_new();
    if (md == NULL || !EVP_DigestInit_ex(md, EVP_sha256(), NULL))
        fail("SHA-256");
    return md;
}

static inline void print_digest(EVP_MD_CTX *md)
{
    unsigned char hash[32];
    EVP_DigestFinal_ex(md, hash, NULL);
    for (size_t i = 0; i < sizeof hash; i++)
        printf("%02x", hash[i]);
    printf("\n");
}

#endif
