/* The provider against OpenSSL's own DRBGs: the same seeds by TEST-RAND on both sides, and the same calls.
 *
 *   provider FOLDER     where FOLDER has rbgtree.so
 *
 * For each kind some dozens of cases, each a row of steps: generates of several lengths with additional input and without, with
 * prediction resistance and without, reseeds with the caller's entropy and without, and reseeds that come by themselves after a
 * few generates. Then reseeds by time, a process that is forked, chains, threads, a DRBG without a parent, and what is refused.
 */
#include <pthread.h>
#include <stdio.h>
#include <stdlib.h>
#include <string.h>
#include <sys/wait.h>
#include <unistd.h>

#include <openssl/core_names.h>
#include <openssl/err.h>
#include <openssl/evp.h>
#include <openssl/params.h>
#include <openssl/provider.h>
#include <openssl/proverr.h>
#include <openssl/rand.h>

static int failures;

static int expect(int holds, const char *what, const char *kind, unsigned int number)
{
    if (!holds) {
        printf("provider: not so: %s (%s, case %u)\n", what, kind, number);
        failures++;
    }
    return holds;
}

struct kind {
    const char *drbg, *parameter, *value;
    size_t entropy;
};

#define KINDS 6

static const struct kind kinds[KINDS] = {
    {"HMAC-DRBG", OSSL_DRBG_PARAM_DIGEST, "SHA2-256", 32},   {"HMAC-DRBG", OSSL_DRBG_PARAM_DIGEST, "SHA384", 32},
    {"HMAC-DRBG", OSSL_DRBG_PARAM_DIGEST, "SHA2-512", 32},   {"CTR-DRBG", OSSL_DRBG_PARAM_CIPHER, "AES-128-CTR", 16},
    {"CTR-DRBG", OSSL_DRBG_PARAM_CIPHER, "AES-192-CTR", 24}, {"CTR-DRBG", OSSL_DRBG_PARAM_CIPHER, "AES-256-CTR", 32},
};

/* Numbers by a formula, so that a case can be made again. */
static unsigned int seed;

static unsigned int next(unsigned int below)
{
    seed = seed * 1103515245u + 12345u;
    return (seed >> 8) % below;
}

static void fill(unsigned char *out, size_t len)
{
    for (size_t i = 0; i < len; i++)
        out[i] = (unsigned char)next(256);
}

/* A DRBG with its parent. */
struct pair {
    EVP_RAND_CTX *parent, *drbg;
};

static EVP_RAND_CTX *make(const char *name, const char *properties, EVP_RAND_CTX *parent)
{
    EVP_RAND *rand = EVP_RAND_fetch(NULL, name, properties);
    EVP_RAND_CTX *made = rand != NULL ? EVP_RAND_CTX_new(rand, parent) : NULL;
    EVP_RAND_free(rand);
    return made;
}

static int set_seed(struct pair *p, unsigned char *entropy, size_t entropy_len, unsigned char *nonce, size_t nonce_len)
{
    unsigned int strength = 256;
    OSSL_PARAM params[] = {
        OSSL_PARAM_construct_uint(OSSL_RAND_PARAM_STRENGTH, &strength),
        OSSL_PARAM_construct_octet_string(OSSL_RAND_PARAM_TEST_ENTROPY, entropy, entropy_len),
        OSSL_PARAM_construct_octet_string(OSSL_RAND_PARAM_TEST_NONCE, nonce, nonce_len),
        OSSL_PARAM_construct_end(),
    };
    return EVP_RAND_CTX_set_params(p->parent, params);
}

static int set_kind(EVP_RAND_CTX *drbg, const struct kind *k, unsigned int requests, uint64_t seconds)
{
    int derived = 1;
    OSSL_PARAM params[] = {
        OSSL_PARAM_construct_utf8_string(k->parameter, (char *)k->value, 0),
        OSSL_PARAM_construct_utf8_string(OSSL_DRBG_PARAM_MAC, (char *)"HMAC", 0),
        OSSL_PARAM_construct_int(OSSL_DRBG_PARAM_USE_DF, &derived),
        OSSL_PARAM_construct_uint(OSSL_DRBG_PARAM_RESEED_REQUESTS, &requests),
        OSSL_PARAM_construct_uint64(OSSL_DRBG_PARAM_RESEED_TIME_INTERVAL, &seconds),
        OSSL_PARAM_construct_end(),
    };
    return EVP_RAND_CTX_set_params(drbg, params);
}

static struct pair pair_of(const struct kind *k, const char *properties, unsigned int requests, uint64_t seconds)
{
    struct pair p;
    p.parent = make("TEST-RAND", "provider=default", NULL);
    p.drbg = make(k->drbg, properties, p.parent);
    if (p.parent == NULL || p.drbg == NULL || !set_kind(p.drbg, k, requests, seconds)) {
        printf("provider: no %s with %s\n", k->drbg, properties);
        exit(1);
    }
    return p;
}

/* Begins a pair with this seed. */
static int begin_pair(struct pair *p, unsigned char *entropy, size_t entropy_len, unsigned char *nonce, size_t nonce_len)
{
    return set_seed(p, entropy, entropy_len, nonce, nonce_len) && EVP_RAND_instantiate(p->parent, 256, 0, NULL, 0, NULL) &&
           EVP_RAND_instantiate(p->drbg, 0, 0, NULL, 0, NULL);
}

static int next_bytes(EVP_RAND_CTX *drbg, unsigned char *out, size_t len)
{
    return EVP_RAND_generate(drbg, out, len, 0, 0, NULL, 0);
}

/* Whether the next 32 bytes of both are there and the same. */
static int same_bytes(EVP_RAND_CTX *one, EVP_RAND_CTX *other)
{
    unsigned char first[32], second[32];
    return next_bytes(one, first, 32) && next_bytes(other, second, 32) && memcmp(first, second, 32) == 0;
}

static void free_pair(struct pair *p)
{
    EVP_RAND_CTX_free(p->drbg);
    EVP_RAND_CTX_free(p->parent);
}

/* A number that a DRBG tells, or -1 where it tells none. */
static long long number_of(EVP_RAND_CTX *drbg, const char *name)
{
    unsigned int number = 0;
    OSSL_PARAM params[] = {OSSL_PARAM_construct_uint(name, &number), OSSL_PARAM_construct_end()};
    return EVP_RAND_CTX_get_params(drbg, params) && OSSL_PARAM_modified(params) ? (long long)number : -1;
}

static long long reseeds_of(EVP_RAND_CTX *drbg)
{
    return number_of(drbg, OSSL_DRBG_PARAM_RESEED_COUNTER);
}

/* Whether both tell the same number by this name. */
static int same_number(EVP_RAND_CTX *one, EVP_RAND_CTX *other, const char *name)
{
    long long number = number_of(one, name);
    return number >= 0 && number == number_of(other, name);
}

static void agrees(const struct kind *k, unsigned int number)
{
    static unsigned char ours[70000], theirs[70000], given[600], additional[600], entropy[200], nonce[100], name[100];
    unsigned int requests = number % 3 == 0 ? 3 : 0, strength = number % 2 ? (unsigned int)k->entropy * 8 : 0;
    struct pair a = pair_of(k, "provider=rbgtree", requests, 0), b = pair_of(k, "provider=default", requests, 0);
    size_t entropy_len = k->entropy + next(60), nonce_len = k->entropy / 2 + next(40), name_len = next(90);
    int fresh = number % 5 == 0;
    fill(entropy, sizeof entropy);
    fill(nonce, sizeof nonce);
    fill(name, sizeof name);
    expect(set_seed(&a, entropy, entropy_len, nonce, nonce_len) && set_seed(&b, entropy, entropy_len, nonce, nonce_len) &&
               EVP_RAND_instantiate(a.parent, 256, 0, NULL, 0, NULL) && EVP_RAND_instantiate(b.parent, 256, 0, NULL, 0, NULL),
           "the parents begin", k->value, number);
    /* Without a personalization string both take OpenSSL's own. */
    const unsigned char *personalization = number % 4 == 0 ? NULL : name;
    expect(EVP_RAND_instantiate(b.drbg, strength, fresh, personalization, personalization ? name_len : 0, NULL),
           "OpenSSL's begins", k->value, number);
    expect(EVP_RAND_instantiate(a.drbg, strength, fresh, personalization, personalization ? name_len : 0, NULL), "ours begins",
           k->value, number);
    for (unsigned int step = 0; step < 8; step++) {
        size_t len = next(8) == 0 ? 65530 + next(4000) : next(300), additional_len = next(3) == 0 ? 0 : next(600);
        fresh = next(4) == 0;
        fill(additional, sizeof additional);
        fill(entropy, sizeof entropy);
        fill(given, sizeof given);
        expect(set_seed(&a, entropy, entropy_len, nonce, nonce_len) && set_seed(&b, entropy, entropy_len, nonce, nonce_len),
               "new entropy", k->value, number);
        if (next(4) == 0) {
            size_t given_len = next(2) ? 0 : k->entropy + next(500);
            const unsigned char *from = given_len ? given : NULL;
            expect(EVP_RAND_reseed(a.drbg, fresh, from, given_len, additional, additional_len) &&
                       EVP_RAND_reseed(b.drbg, fresh, from, given_len, additional, additional_len),
                   "both reseed", k->value, number);
        }
        expect(EVP_RAND_generate(a.drbg, ours, len, strength, fresh, additional, additional_len) &&
                   EVP_RAND_generate(b.drbg, theirs, len, strength, fresh, additional, additional_len),
               "both generate", k->value, number);
        expect(memcmp(ours, theirs, len) == 0, "the same bytes", k->value, number);
    }
    static const char *const numbers[] = {OSSL_RAND_PARAM_STRENGTH, OSSL_RAND_PARAM_MAX_REQUEST, OSSL_DRBG_PARAM_RESEED_REQUESTS,
                                          OSSL_DRBG_PARAM_MIN_ENTROPYLEN, OSSL_DRBG_PARAM_MIN_NONCELEN};
    for (size_t i = 0; i < sizeof numbers / sizeof *numbers; i++)
        expect(same_number(a.drbg, b.drbg, numbers[i]), numbers[i], k->value, number);
    expect(EVP_RAND_get_state(a.drbg) == EVP_RAND_STATE_READY, "it is ready", k->value, number);
    expect(EVP_RAND_uninstantiate(a.drbg) && EVP_RAND_verify_zeroization(a.drbg), "it is cleared", k->value, number);
    expect(EVP_RAND_get_state(a.drbg) == EVP_RAND_STATE_UNINITIALISED, "it has ended", k->value, number);
    free_pair(&a);
    free_pair(&b);
}

/* What is no kind of the library's is refused where it is set, and a DRBG of which none is set doesn't begin. */
static void refuses(void)
{
    static const struct {
        const char *drbg, *parameter, *value;
    } rows[] = {
        {"HMAC-DRBG", OSSL_DRBG_PARAM_DIGEST, "SHA1"},       {"HMAC-DRBG", OSSL_DRBG_PARAM_DIGEST, "SHA2-224"},
        {"HMAC-DRBG", OSSL_DRBG_PARAM_DIGEST, "SHA3-256"},   {"HMAC-DRBG", OSSL_DRBG_PARAM_MAC, "KMAC-128"},
        {"CTR-DRBG", OSSL_DRBG_PARAM_CIPHER, "AES-256-CBC"}, {"CTR-DRBG", OSSL_DRBG_PARAM_CIPHER, "ARIA-256-CTR"},
    };
    unsigned char byte;
    int derived = 0;
    OSSL_PARAM without[] = {OSSL_PARAM_construct_int(OSSL_DRBG_PARAM_USE_DF, &derived), OSSL_PARAM_construct_end()};
    for (unsigned int i = 0; i < sizeof rows / sizeof *rows; i++) {
        EVP_RAND_CTX *drbg = make(rows[i].drbg, "provider=rbgtree", NULL);
        OSSL_PARAM params[] = {OSSL_PARAM_construct_utf8_string(rows[i].parameter, (char *)rows[i].value, 0),
                               OSSL_PARAM_construct_end()};
        expect(!EVP_RAND_CTX_set_params(drbg, params), "it is refused", rows[i].value, i);
        expect(!EVP_RAND_instantiate(drbg, 0, 0, NULL, 0, NULL), "no kind, no start", rows[i].value, i);
        expect(!EVP_RAND_generate(drbg, &byte, 1, 0, 0, NULL, 0), "no kind, no byte", rows[i].value, i);
        EVP_RAND_CTX_free(drbg);
    }
    EVP_RAND_CTX *drbg = make("CTR-DRBG", "provider=rbgtree", NULL);
    expect(!EVP_RAND_CTX_set_params(drbg, without), "no derivation function", "CTR-DRBG", 0);
    EVP_RAND_CTX_free(drbg);
}

/* Whether this is the first cause in OpenSSL's queue of errors, which is emptied. */
static int named(int cause)
{
    int holds = ERR_GET_REASON(ERR_peek_error()) == cause;
    ERR_clear_error();
    return holds;
}

/* What is refused of a kind, and what a refusal leaves: each of these calls stands between the same generates on both sides. */
static void refuses_of(const struct kind *k, unsigned int which)
{
    static unsigned char long_string[65537];
    const size_t more = sizeof long_string;
    unsigned char entropy[32] = {1}, nonce[16] = {2}, out[32];
    unsigned int above = (unsigned int)k->entropy * 8 + 1;
    const struct kind *other = &kinds[which % 3 == 0 ? which + 1 : which - 1];
    struct pair a = pair_of(k, "provider=rbgtree", 0, 0), b = pair_of(k, "provider=default", 0, 0);
    expect(set_seed(&a, entropy, k->entropy - 1, nonce, 16) && EVP_RAND_instantiate(a.parent, 256, 0, NULL, 0, NULL),
           "the parent begins", k->value, 0);
    ERR_clear_error();
    expect(!EVP_RAND_instantiate(a.drbg, 0, 0, long_string, more, NULL) &&
               named(PROV_R_PERSONALISATION_STRING_TOO_LONG),
           "a long personalization string", k->value, 0);
    expect(!EVP_RAND_instantiate(a.drbg, above, 0, NULL, 0, NULL) &&
               named(PROV_R_INSUFFICIENT_DRBG_STRENGTH),
           "a strength above the kind's at the start", k->value, 0);
    expect(EVP_RAND_get_state(a.drbg) == EVP_RAND_STATE_UNINITIALISED, "both leave it before its start", k->value, 0);
    expect(!EVP_RAND_instantiate(a.drbg, 0, 0, NULL, 0, NULL) && named(PROV_R_ERROR_RETRIEVING_ENTROPY),
           "too little entropy at the start", k->value, 0);
    expect(EVP_RAND_get_state(a.drbg) == EVP_RAND_STATE_ERROR && EVP_RAND_verify_zeroization(a.drbg), "it has failed", k->value, 0);
    expect(!EVP_RAND_instantiate(a.drbg, 0, 0, NULL, 0, NULL) && EVP_RAND_uninstantiate(a.drbg), "it has to end first", k->value, 0);

    expect(begin_pair(&a, entropy, 32, nonce, 16) && begin_pair(&b, entropy, 32, nonce, 16) && same_bytes(a.drbg, b.drbg),
           "both begin", k->value, 0);
    ERR_clear_error();
    expect(!set_kind(a.drbg, other, 0, 0) && named(PROV_R_ALREADY_INSTANTIATED), "another kind", k->value, 0);
    expect(set_kind(a.drbg, k, 0, 0), "the same kind", k->value, 0);
    expect(!EVP_RAND_generate(a.drbg, out, 32, 0, 0, long_string, more) &&
               named(PROV_R_ADDITIONAL_INPUT_TOO_LONG),
           "long additional input", k->value, 0);
    expect(!EVP_RAND_reseed(a.drbg, 0, NULL, 0, long_string, more) &&
               named(PROV_R_ADDITIONAL_INPUT_TOO_LONG),
           "long additional input at a reseed", k->value, 0);
    expect(!EVP_RAND_generate(a.drbg, out, 32, above, 0, NULL, 0) &&
               named(PROV_R_INSUFFICIENT_DRBG_STRENGTH),
           "a strength above the kind's", k->value, 0);
    expect(same_bytes(a.drbg, b.drbg), "a refusal leaves the state", k->value, 0);

    /* A reseed that fails, and the start anew that the next call brings. */
    expect(set_seed(&a, entropy, k->entropy - 1, nonce, 16) && set_seed(&b, entropy, k->entropy - 1, nonce, 16), "little entropy",
           k->value, 0);
    ERR_clear_error();
    expect(!EVP_RAND_reseed(b.drbg, 0, NULL, 0, NULL, 0), "OpenSSL's has too little entropy", k->value, 0);
    ERR_clear_error();
    expect(!EVP_RAND_reseed(a.drbg, 0, NULL, 0, NULL, 0) && named(PROV_R_ERROR_RETRIEVING_ENTROPY),
           "ours has too little entropy", k->value, 0);
    expect(EVP_RAND_get_state(a.drbg) == EVP_RAND_STATE_ERROR && EVP_RAND_verify_zeroization(a.drbg), "a failed one is cleared",
           k->value, 0);
    expect(!next_bytes(a.drbg, out, 32) && !next_bytes(b.drbg, out, 32), "no bytes without entropy", k->value, 0);
    expect(set_seed(&a, entropy, 32, nonce, 16) && set_seed(&b, entropy, 32, nonce, 16) && same_bytes(a.drbg, b.drbg),
           "both recover alike", k->value, 0);
    expect(!EVP_RAND_reseed(a.drbg, 0, entropy, k->entropy - 1, NULL, 0) &&
               !EVP_RAND_reseed(b.drbg, 0, entropy, k->entropy - 1, NULL, 0) &&
               EVP_RAND_get_state(a.drbg) == EVP_RAND_get_state(b.drbg) && same_bytes(a.drbg, b.drbg),
           "too short a seed of the caller's", k->value, 0);
    free_pair(&a);
    free_pair(&b);

    EVP_RAND_CTX *empty = make("TEST-RAND", "provider=default", NULL), *below = make(k->drbg, "provider=rbgtree", empty);
    ERR_clear_error();
    expect(set_kind(below, k, 0, 0) && !EVP_RAND_instantiate(below, 0, 0, NULL, 0, NULL) && named(PROV_R_ERROR_RETRIEVING_NONCE),
           "a parent without a nonce", k->value, 0);
    EVP_RAND_CTX_free(below);
    EVP_RAND_CTX_free(empty);
    empty = make(k->drbg, "provider=rbgtree", NULL);
    below = make(k->drbg, "provider=rbgtree", empty);
    expect(set_kind(below, k, 0, 0) && !EVP_RAND_instantiate(below, 0, 0, NULL, 0, NULL) && named(PROV_R_UNABLE_TO_GET_PARENT_STRENGTH),
           "a parent without a strength", k->value, 0);
    EVP_RAND_CTX_free(below);
    EVP_RAND_CTX_free(empty);
}

/* NULL is an empty additional input, whatever the length beside it. */
static void takes_null_as_empty(const struct kind *k)
{
    unsigned char entropy[32] = {3}, nonce[16] = {4}, first[32], second[32];
    struct pair a = pair_of(k, "provider=rbgtree", 0, 0), b = pair_of(k, "provider=rbgtree", 0, 0);
    expect(begin_pair(&a, entropy, 32, nonce, 16) && begin_pair(&b, entropy, 32, nonce, 16), "both begin", k->value, 0);
    for (int fresh = 0; fresh < 2; fresh++)
        expect(EVP_RAND_generate(a.drbg, first, 32, 0, fresh, NULL, 99) && EVP_RAND_generate(b.drbg, second, 32, 0, fresh, first, 0) &&
                   memcmp(first, second, 32) == 0,
               "NULL with a length", k->value, (unsigned int)fresh);
    expect(EVP_RAND_reseed(a.drbg, 0, NULL, 0, NULL, 70000) && EVP_RAND_reseed(b.drbg, 0, NULL, 0, NULL, 0) && same_bytes(a.drbg, b.drbg),
           "NULL with a length at a reseed", k->value, 0);
    free_pair(&a);
    free_pair(&b);
}

/* What is set where nothing is, and the names that each mechanism tells before there is a context. */
static void tells_numbers(void)
{
    static const char *const names[] = {"HMAC-DRBG", "CTR-DRBG"};
    for (unsigned int i = 0; i < 2; i++) {
        EVP_RAND_CTX *ours = make(names[i], "provider=rbgtree", NULL), *theirs = make(names[i], "provider=default", NULL);
        expect(number_of(ours, OSSL_DRBG_PARAM_RESEED_REQUESTS) == 256 && same_number(ours, theirs, OSSL_DRBG_PARAM_RESEED_REQUESTS),
               "256 generates", names[i], 0);
        expect(number_of(ours, OSSL_DRBG_PARAM_RESEED_TIME_INTERVAL) == 3600 &&
                   same_number(ours, theirs, OSSL_DRBG_PARAM_RESEED_TIME_INTERVAL),
               "3,600 seconds", names[i], 0);
        EVP_RAND_CTX_free(ours);
        EVP_RAND_CTX_free(theirs);
        EVP_RAND *rand = EVP_RAND_fetch(NULL, names[i], "provider=rbgtree");
        const OSSL_PARAM *rows[] = {EVP_RAND_settable_ctx_params(rand), EVP_RAND_gettable_ctx_params(rand)};
        for (unsigned int j = 0; j < 2; j++)
            expect((OSSL_PARAM_locate_const(rows[j], OSSL_DRBG_PARAM_MAC) != NULL) == (i == 0) &&
                       (OSSL_PARAM_locate_const(rows[j], OSSL_DRBG_PARAM_DIGEST) != NULL) == (i == 0) &&
                       (OSSL_PARAM_locate_const(rows[j], OSSL_DRBG_PARAM_USE_DF) != NULL) == (i == 1) &&
                       (OSSL_PARAM_locate_const(rows[j], OSSL_DRBG_PARAM_CIPHER) != NULL) == (i == 1) &&
                       OSSL_PARAM_locate_const(rows[j], OSSL_DRBG_PARAM_RESEED_REQUESTS) != NULL,
                   "the parameters of a mechanism", names[i], j);
        EVP_RAND_free(rand);
    }
}

/* Reseeds that come by themselves after a second, on both sides. All kinds wait together. */
static void reseeds_by_time(void)
{
    struct pair a[KINDS], b[KINDS];
    unsigned char entropy[32] = {5}, nonce[16] = {6};
    long long ours[KINDS], theirs[KINDS];
    for (size_t i = 0; i < KINDS; i++) {
        a[i] = pair_of(&kinds[i], "provider=rbgtree", 0, 1);
        b[i] = pair_of(&kinds[i], "provider=default", 0, 1);
        entropy[1] = 0;
        expect(begin_pair(&a[i], entropy, 32, nonce, 16) && begin_pair(&b[i], entropy, 32, nonce, 16), "both begin", kinds[i].value, 0);
        ours[i] = reseeds_of(a[i].drbg);
        theirs[i] = reseeds_of(b[i].drbg);
        entropy[1] = 1;
        expect(set_seed(&a[i], entropy, 32, nonce, 16) && set_seed(&b[i], entropy, 32, nonce, 16), "new entropy", kinds[i].value, 0);
    }
    sleep(2);
    for (size_t i = 0; i < KINDS; i++) {
        expect(same_bytes(a[i].drbg, b[i].drbg), "the same bytes after two seconds", kinds[i].value, 0);
        expect(ours[i] >= 0 && reseeds_of(a[i].drbg) == ours[i] + 1 && theirs[i] >= 0 && reseeds_of(b[i].drbg) == theirs[i] + 1,
               "both reseeded", kinds[i].value, 0);
        free_pair(&a[i]);
        free_pair(&b[i]);
    }
}

/* In a forked process the next output comes after a reseed: it is that of OpenSSL's own, which reseeds there, and not the bytes
 * that come next in the process that was copied. */
static void reseeds_in_a_forked_process(const struct kind *k)
{
    unsigned char entropy[32], nonce[16], ours[32], theirs[32], in_child[32];
    struct pair a = pair_of(k, "provider=rbgtree", 0, 0), b = pair_of(k, "provider=default", 0, 0);
    int ends[2] = {-1, -1}, status = 1;
    fill(entropy, sizeof entropy);
    fill(nonce, sizeof nonce);
    expect(begin_pair(&a, entropy, 32, nonce, 16) && begin_pair(&b, entropy, 32, nonce, 16) && same_bytes(a.drbg, b.drbg) &&
               pipe(ends) == 0,
           "the pair begins", k->value, 0);
    fflush(stdout);
    pid_t child = fork();
    if (child == 0) {
        int same = next_bytes(a.drbg, ours, 32) && next_bytes(b.drbg, theirs, 32) && memcmp(ours, theirs, 32) == 0 &&
                   write(ends[1], ours, 32) == 32;
        _exit(!same);
    }
    expect(child > 0 && waitpid(child, &status, 0) == child && WIFEXITED(status) && WEXITSTATUS(status) == 0,
           "the child's bytes are OpenSSL's", k->value, 0);
    expect(status == 0 && read(ends[0], in_child, 32) == 32, "the child's bytes are read", k->value, 0);
    expect(next_bytes(a.drbg, ours, 32) && memcmp(ours, in_child, 32) != 0, "the child reseeded", k->value, 0);
    close(ends[0]);
    close(ends[1]);
    free_pair(&a);
    free_pair(&b);
}

/* A chain over the system's entropy: a DRBG seeded by one above it, which the system seeds. */
struct chain {
    EVP_RAND_CTX *source, *upper, *lower;
};

static struct chain chain_of(const struct kind *k, unsigned int requests)
{
    struct chain c;
    c.source = make("SEED-SRC", "provider=default", NULL);
    c.upper = make(k->drbg, "provider=rbgtree", c.source);
    c.lower = make(k->drbg, "provider=rbgtree", c.upper);
    expect(c.lower != NULL && EVP_RAND_instantiate(c.source, 0, 0, NULL, 0, NULL) && set_kind(c.upper, k, requests, 0) &&
               EVP_RAND_instantiate(c.upper, 0, 0, NULL, 0, NULL) && set_kind(c.lower, k, requests, 0) &&
               EVP_RAND_enable_locking(c.lower) && EVP_RAND_instantiate(c.lower, 0, 0, NULL, 0, NULL),
           "a chain begins", k->value, 0);
    return c;
}

static void free_chain(struct chain *c)
{
    EVP_RAND_CTX_free(c->lower);
    EVP_RAND_CTX_free(c->upper);
    EVP_RAND_CTX_free(c->source);
}

/* Whether the counts of reseeds are as much higher as told. */
static int reseeded(const struct chain *c, long long upper, long long lower, long long more)
{
    return upper >= 0 && lower >= 0 && reseeds_of(c->upper) == upper + more && reseeds_of(c->lower) == lower + more;
}

/* The lower one follows the reseeds of the upper one. */
static void seeds_a_chain(const struct kind *k)
{
    struct chain c = chain_of(k, 0);
    unsigned char first[32], second[32];
    long long upper = reseeds_of(c.upper), lower = reseeds_of(c.lower);
    expect(next_bytes(c.lower, first, 32) && reseeded(&c, upper, lower, 0), "no reseed by itself", k->value, 0);
    expect(EVP_RAND_reseed(c.upper, 1, NULL, 0, NULL, 0) && next_bytes(c.lower, second, 32) && reseeded(&c, upper, lower, 1),
           "the parent's reseed is followed", k->value, 0);
    expect(memcmp(first, second, 32) != 0, "other bytes", k->value, 0);
    free_chain(&c);
}

/* In a forked process both reseed before the next output, once. */
static void reseeds_a_forked_chain(const struct kind *k)
{
    struct chain c = chain_of(k, 0);
    unsigned char bytes[32], in_child[32];
    int ends[2] = {-1, -1}, status = 1;
    expect(next_bytes(c.lower, bytes, 32) && pipe(ends) == 0, "the chain gives", k->value, 0);
    long long upper = reseeds_of(c.upper), lower = reseeds_of(c.lower);
    fflush(stdout);
    pid_t child = fork();
    if (child == 0) {
        int so = next_bytes(c.lower, bytes, 32) && write(ends[1], bytes, 32) == 32 && reseeded(&c, upper, lower, 1) &&
                 next_bytes(c.lower, bytes, 32) && reseeded(&c, upper, lower, 1);
        _exit(!so);
    }
    expect(child > 0 && waitpid(child, &status, 0) == child && WIFEXITED(status) && WEXITSTATUS(status) == 0,
           "both reseed in the child", k->value, 0);
    expect(status == 0 && read(ends[0], in_child, 32) == 32 && next_bytes(c.lower, bytes, 32) && memcmp(bytes, in_child, 32) != 0 &&
               reseeded(&c, upper, lower, 0),
           "and not in the parent", k->value, 0);
    close(ends[0]);
    close(ends[1]);
    free_chain(&c);
}

/* Threads that draw from one locked DRBG at a time, whose locked parent seeds it again and again. */
#define THREADS 4
#define DRAWS 250
#define DRAWN 32

struct work {
    EVP_RAND_CTX *drbg;
    unsigned char *out;
    int done;
};

static void *draw(void *given)
{
    struct work *w = given;
    w->done = 1;
    for (size_t i = 0; i < DRAWS; i++)
        w->done &= next_bytes(w->drbg, w->out + i * DRAWN, DRAWN);
    return NULL;
}

static int compare(const void *one, const void *other)
{
    return memcmp(one, other, DRAWN);
}

static void serves_threads(const struct kind *k)
{
    static unsigned char out[THREADS * DRAWS][DRAWN];
    struct chain c = chain_of(k, 5);
    struct work works[THREADS];
    pthread_t threads[THREADS];
    int alike = 0, started = 0;
    memset(out, 0, sizeof out);
    for (; started < THREADS; started++) {
        works[started] = (struct work){c.lower, out[started * DRAWS], 0};
        if (!expect(pthread_create(&threads[started], NULL, draw, &works[started]) == 0, "a thread", k->value, (unsigned int)started))
            break;
    }
    for (int i = 0; i < started; i++)
        expect(pthread_join(threads[i], NULL) == 0 && works[i].done, "a thread's bytes", k->value, (unsigned int)i);
    qsort(out, THREADS * DRAWS, DRAWN, compare);
    for (size_t i = 1; i < THREADS * DRAWS; i++)
        alike += memcmp(out[i - 1], out[i], DRAWN) == 0;
    expect(alike == 0, "no two outputs alike", k->value, (unsigned int)alike);
    free_chain(&c);
}

/* Without a parent OpenSSL's core gives entropy and nonce. */
static void begins_without_a_parent(const struct kind *k)
{
    unsigned char out[4][32];
    EVP_RAND_CTX *one = make(k->drbg, "provider=rbgtree", NULL), *other = make(k->drbg, "provider=rbgtree", NULL);
    expect(set_kind(one, k, 0, 0) && set_kind(other, k, 0, 0) && EVP_RAND_instantiate(one, 0, 0, NULL, 0, NULL) &&
               EVP_RAND_instantiate(other, 0, 1, NULL, 0, NULL),
           "they begin without a parent", k->value, 0);
    expect(next_bytes(one, out[0], 32) && next_bytes(one, out[1], 32) && next_bytes(other, out[2], 32) &&
               EVP_RAND_reseed(one, 0, NULL, 0, NULL, 0) && next_bytes(one, out[3], 32),
           "they give bytes", k->value, 0);
    for (size_t i = 0; i < 4; i++)
        for (size_t j = 0; j < i; j++)
            expect(memcmp(out[i], out[j], 32) != 0, "no two outputs alike", k->value, (unsigned int)(i * 4 + j));
    EVP_RAND_CTX_free(one);
    EVP_RAND_CTX_free(other);
}

int main(int argc, char **argv)
{
    OSSL_PROVIDER *theirs = OSSL_PROVIDER_load(NULL, "default"), *ours = NULL;
    if (argc == 2 && OSSL_PROVIDER_set_default_search_path(NULL, argv[1]))
        ours = OSSL_PROVIDER_load(NULL, "rbgtree");
    if (theirs == NULL || ours == NULL) {
        puts("provider: no rbgtree.so; usage: provider FOLDER");
        return 1;
    }
    unsigned int cases = 0;
    for (unsigned int i = 0; i < KINDS; i++) {
        for (unsigned int number = 0; number < 40; number++, cases++) {
            seed = number * 1000 + i;
            agrees(&kinds[i], number);
        }
        reseeds_in_a_forked_process(&kinds[i]);
        seeds_a_chain(&kinds[i]);
        reseeds_a_forked_chain(&kinds[i]);
        serves_threads(&kinds[i]);
        begins_without_a_parent(&kinds[i]);
        takes_null_as_empty(&kinds[i]);
        refuses_of(&kinds[i], i);
    }
    refuses();
    tells_numbers();
    reseeds_by_time();
    expect(OSSL_PROVIDER_unload(ours) && OSSL_PROVIDER_unload(theirs), "the providers are unloaded", argv[1], 0);
    if (failures == 0)
        printf("provider: %u cases as OpenSSL's own; forks, chains, threads and refusals for each kind\n", cases);
    return failures != 0;
}
