/* The peer of bench/shared: one HMAC_DRBG of OpenSSL under a pthread mutex.
 *
 *   shared_peer CALLERS BYTES TIMES   in each of CALLERS threads, TIMES times: locks the mutex, generates BYTES bytes, unlocks it
 *
 * The line on standard output is that of shared_bench with the same words over a plan of one RBG1 with HMAC-SHA-256.
 */
#include <pthread.h>
#include <stdint.h>

#include "evp_drbg.h"

static const struct mechanism hmac = {"hmac-sha-256", "HMAC-DRBG", OSSL_DRBG_PARAM_DIGEST, "SHA2-256"};
static pthread_mutex_t mutex = PTHREAD_MUTEX_INITIALIZER;
static EVP_RAND_CTX *drbg;
static size_t bytes;
static long times;
static uint64_t sums[64];

static void *ask(void *place)
{
    static _Thread_local unsigned char out[65536];
    uint64_t sum = 0;
    for (long i = 0; i < times; i++) {
        pthread_mutex_lock(&mutex);
        int done = EVP_RAND_generate(drbg, out, bytes, 0, 0, NULL, 0);
        pthread_mutex_unlock(&mutex);
        if (!done)
            fail("generate");
        for (int k = 0; k < 8; k++)
            sum += (uint64_t)out[k] << 8 * k;
    }
    *(uint64_t *)place = sum;
    return NULL;
}

int main(int argc, char **argv)
{
    pthread_t threads[64];
    unsigned char entropy[32], nonce[16];
    uint64_t sum = 0;
    long callers = argc == 4 ? atol(argv[1]) : 0;
    if (callers < 1 || callers > 64 || atol(argv[2]) < 8 || atol(argv[2]) > 65536 || atol(argv[3]) < 1)
        fail("usage: shared_peer CALLERS BYTES TIMES");
    bytes = atol(argv[2]);
    times = atol(argv[3]);
    count_from(entropy, sizeof entropy, 0);
    count_from(nonce, sizeof nonce, sizeof entropy);
    drbg = instantiate(&hmac, entropy, sizeof entropy, nonce, sizeof nonce);
    for (long k = 0; k < callers; k++)
        if (pthread_create(&threads[k], NULL, ask, &sums[k]) != 0)
            fail("pthread_create");
    for (long k = 0; k < callers; k++) {
        pthread_join(threads[k], NULL);
        sum += sums[k];
    }
    printf("%ld done, %llu\n", callers * times, (unsigned long long)sum);
    return 0;
}
