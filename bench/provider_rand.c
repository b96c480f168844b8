/* Generates of a DRBG by EVP_RAND_generate, from one of two providers.
 *
 *   provider_rand PROVIDER MECHANISM BYTES TIMES   PROVIDER is default, or rbgtree of clients/out/rbgtree.so
 *
 * One line on standard output: the hash of the last output. TIMES may be 0, which makes all but the generates.
 */
#include <string.h>

#include <openssl/provider.h>

#include "evp_drbg.h"

static const struct mechanism mechanisms[] = {
    {"hmac-sha-256", "HMAC-DRBG", OSSL_DRBG_PARAM_DIGEST, "SHA2-256"},
    {"ctr-aes-256", "CTR-DRBG", OSSL_DRBG_PARAM_CIPHER, "AES-256-CTR"},
};

int main(int argc, char **argv)
{
    static unsigned char out[65536];
    unsigned char entropy[32], nonce[16];
    const struct mechanism *m = NULL;
    for (size_t i = 0; argc == 5 && i < sizeof mechanisms / sizeof *mechanisms; i++)
        if (strcmp(mechanisms[i].name, argv[2]) == 0)
            m = &mechanisms[i];
    if (m == NULL)
        fail("usage: provider_rand PROVIDER MECHANISM BYTES TIMES");
    long bytes = atol(argv[3]), times = atol(argv[4]);
    if (bytes < 1 || bytes > 65536 || times < 0)
        fail("BYTES are 1 to 65536");
    if (OSSL_PROVIDER_load(NULL, "default") == NULL)
        fail("the provider default");
    if (strcmp(argv[1], "rbgtree") == 0 &&
        (!OSSL_PROVIDER_set_default_search_path(NULL, "clients/out") || OSSL_PROVIDER_load(NULL, "rbgtree") == NULL ||
         !EVP_set_default_properties(NULL, "?provider=rbgtree")))
        fail("the provider rbgtree");
    count_from(entropy, sizeof entropy, 0);
    count_from(nonce, sizeof nonce, sizeof entropy);
    EVP_RAND_CTX *drbg = instantiate(m, entropy, sizeof entropy, nonce, sizeof nonce);
    const OSSL_PROVIDER *from = EVP_RAND_get0_provider(EVP_RAND_CTX_get0_rand(drbg));
    if (strcmp(OSSL_PROVIDER_get0_name(from), argv[1]) != 0)
        fail("the DRBG is another provider's");
    for (long i = 0; i < times; i++)
        if (!EVP_RAND_generate(drbg, out, (size_t)bytes, 0, 0, NULL, 0))
            fail("generate");
    EVP_MD_CTX *md = new_digest();
    EVP_DigestUpdate(md, out, (size_t)bytes);
    print_digest(md);
    return 0;
}
