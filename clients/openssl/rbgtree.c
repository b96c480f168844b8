/* A provider for OpenSSL 3 that offers HMAC-DRBG and CTR-DRBG over librbg, with the property provider=rbgtree.
 *
 * The mechanisms are the library's, which are proved. This file is the envelope around them, and is only tested: it takes seeds
 * from a parent, or from OpenSSL's core where there is none; it reseeds after so many generates, after so much time, where the
 * parent was reseeded, and in a process that was forked; and it reads and tells the parameters. The rules are those of OpenSSL's
 * own DRBGs (providers/implementations/rands/drbg.c of OpenSSL 3.0), so that the same seeds give the same bytes.
 *
 *   cc -O2 -fPIC -shared -Iinclude clients/openssl/rbgtree.c crates/rbg/out/librbg.a -lcrypto -o rbgtree.so
 */
#include <limits.h>
#include <stdatomic.h>
#include <string.h>
#include <strings.h>
#include <time.h>
#include <unistd.h>

#include <openssl/core.h>
#include <openssl/core_dispatch.h>
#include <openssl/core_names.h>
#include <openssl/crypto.h>
#include <openssl/err.h>
#include <openssl/evp.h>
#include <openssl/params.h>
#include <openssl/proverr.h>

#include "rbg.h"

/* What OpenSSL's DRBGs have where nothing is set: generates and seconds between reseeds. */
#define RESEED_REQUESTS 256
#define RESEED_SECONDS 3600

/* The personalization string of a caller who gives none, with its zero at the end, as OpenSSL's own has it. */
static const unsigned char default_personalization[] = "OpenSSL NIST SP 800-90A DRBG";

struct kind {
    uint32_t number;
    unsigned int strength; /* in bits */
    const char *names[3];  /* of the digest or cipher, the first as it is told */
};

static const struct kind hmac_kinds[] = {
    {RBG_HMAC_SHA_256, 256, {"SHA2-256", "SHA-256", "SHA256"}},
    {RBG_HMAC_SHA_384, 256, {"SHA2-384", "SHA-384", "SHA384"}},
    {RBG_HMAC_SHA_512, 256, {"SHA2-512", "SHA-512", "SHA512"}},
};

static const struct kind ctr_kinds[] = {
    {RBG_CTR_AES_128, 128, {"AES-128-CTR", "id-aes128-CTR", "AES-128-CTR"}},
    {RBG_CTR_AES_192, 192, {"AES-192-CTR", "id-aes192-CTR", "AES-192-CTR"}},
    {RBG_CTR_AES_256, 256, {"AES-256-CTR", "id-aes256-CTR", "AES-256-CTR"}},
};

static const struct kind *kind_named(const struct kind *kinds, const char *name)
{
    for (size_t i = 0; i < 3; i++)
        for (size_t j = 0; j < 3; j++)
            if (strcasecmp(kinds[i].names[j], name) == 0)
                return &kinds[i];
    return NULL;
}

/* The provider, and how the core seeds a DRBG without a parent. */
struct provider {
    const OSSL_CORE_HANDLE *core;
    OSSL_FUNC_get_entropy_fn *get_entropy;
    OSSL_FUNC_cleanup_entropy_fn *cleanup_entropy;
    OSSL_FUNC_get_nonce_fn *get_nonce;
    OSSL_FUNC_cleanup_nonce_fn *cleanup_nonce;
};

struct parent {
    void *rand;
    OSSL_FUNC_rand_enable_locking_fn *enable_locking;
    OSSL_FUNC_rand_lock_fn *lock;
    OSSL_FUNC_rand_unlock_fn *unlock;
    OSSL_FUNC_rand_get_ctx_params_fn *get_ctx_params;
    OSSL_FUNC_rand_nonce_fn *nonce;
    OSSL_FUNC_rand_get_seed_fn *get_seed;
    OSSL_FUNC_rand_clear_seed_fn *clear_seed;
};

struct drbg {
    struct rbg_drbg state;
    const struct provider *provider;
    const struct kind *kinds, *kind; /* the kind is NULL until a digest or cipher is set */
    struct parent parent;
    CRYPTO_RWLOCK *lock;
    int phase; /* EVP_RAND_STATE_ */
    unsigned int requests;
    time_t seconds, seeded_at;
    pid_t process;
    unsigned int reseeds, parent_reseeds;
};

static int refuse(int reason)
{
    ERR_raise(ERR_LIB_PROV, reason);
    return 0;
}

static size_t min_entropy_len(const struct drbg *d)
{
    return d->kind->strength / 8;
}

static size_t min_nonce_len(const struct drbg *d)
{
    return d->kind->strength / 16;
}

/* The parent. */

static int lock_parent(struct drbg *d)
{
    return d->parent.lock == NULL || d->parent.lock(d->parent.rand) || refuse(PROV_R_UNABLE_TO_LOCK_PARENT);
}

static void unlock_parent(struct drbg *d)
{
    if (d->parent.unlock != NULL)
        d->parent.unlock(d->parent.rand);
}

/* A number of the parent's, or 0 where it has none. */
static int parent_number(struct drbg *d, const char *name, unsigned int *number)
{
    OSSL_PARAM params[] = {OSSL_PARAM_construct_uint(name, number), OSSL_PARAM_construct_end()};
    if (!lock_parent(d))
        return 0;
    *number = 0;
    if (d->parent.get_ctx_params == NULL || !d->parent.get_ctx_params(d->parent.rand, params))
        *number = 0;
    unlock_parent(d);
    return 1;
}

static size_t get_entropy(struct drbg *d, unsigned char **out, int bits, size_t min_len, int fresh)
{
    unsigned int strength;
    size_t len;
    if (d->parent.rand == NULL)
        return d->provider->get_entropy == NULL || d->provider->cleanup_entropy == NULL
                   ? 0
                   : d->provider->get_entropy(d->provider->core, out, bits, min_len, RBG_MAX_LEN);
    if (d->parent.get_seed == NULL)
        return (size_t)refuse(PROV_R_PARENT_CANNOT_SUPPLY_ENTROPY_SEED);
    if (!parent_number(d, OSSL_RAND_PARAM_STRENGTH, &strength))
        return 0;
    if (strength == 0)
        return (size_t)refuse(PROV_R_UNABLE_TO_GET_PARENT_STRENGTH);
    if (strength < d->kind->strength)
        return (size_t)refuse(PROV_R_PARENT_STRENGTH_TOO_WEAK);
    if (!lock_parent(d))
        return 0;
    /* This context's place in memory tells the parent's children apart. */
    len = d->parent.get_seed(d->parent.rand, out, bits, min_len, RBG_MAX_LEN, fresh, (unsigned char *)&d, sizeof d);
    unlock_parent(d);
    return len;
}

/* Gives a seed back to where it came from, to be wiped and freed. A parent that takes none back owns it. */
static void give_back_entropy(struct drbg *d, unsigned char *entropy, size_t len)
{
    if (entropy == NULL)
        return;
    if (d->parent.rand == NULL) {
        d->provider->cleanup_entropy(d->provider->core, entropy, len);
    } else if (d->parent.clear_seed != NULL) {
        if (lock_parent(d)) {
            d->parent.clear_seed(d->parent.rand, entropy, len);
            unlock_parent(d);
        } else {
            OPENSSL_cleanse(entropy, len);
        }
    }
}

/* Entropy of at least so many bits and bytes, to be given back, or NULL. */
static unsigned char *draw(struct drbg *d, int bits, size_t min_len, int fresh, size_t *len)
{
    unsigned char *entropy = NULL;
    *len = get_entropy(d, &entropy, bits, min_len, fresh);
    if (entropy != NULL && *len >= min_len && *len <= RBG_MAX_LEN)
        return entropy;
    give_back_entropy(d, entropy, *len);
    refuse(PROV_R_ERROR_RETRIEVING_ENTROPY);
    return NULL;
}

/* The core's nonce. It is made of a salt that no other context and no other instantiation in this process has, of the process and
 * of the time. */
static int core_nonce(struct drbg *d, unsigned char **nonce, size_t *len)
{
    static _Atomic uint64_t nonces;
    struct {
        const void *drbg;
        uint64_t count;
    } salt;
    unsigned char *given = NULL;
    memset(&salt, 0, sizeof salt);
    salt.drbg = d;
    salt.count = atomic_fetch_add(&nonces, 1);
    if (d->provider->get_nonce != NULL && d->provider->cleanup_nonce != NULL)
        *len = d->provider->get_nonce(d->provider->core, &given, min_nonce_len(d), RBG_MAX_LEN, &salt, sizeof salt);
    if (given != NULL && *len >= min_nonce_len(d) && *len <= RBG_MAX_LEN)
        *nonce = OPENSSL_memdup(given, *len);
    if (given != NULL)
        d->provider->cleanup_nonce(d->provider->core, given, *len);
    return *nonce != NULL || refuse(PROV_R_ERROR_RETRIEVING_NONCE);
}

/* The nonce that the parent gives, or the core where there is no parent. A parent without nonces gives more entropy instead (SP
 * 800-90A Rev. 1, 9.1), and then the nonce stays empty. It is NULL or a buffer to be freed. */
static int get_nonce(struct drbg *d, unsigned char **nonce, size_t *len)
{
    size_t want = min_nonce_len(d);
    *nonce = NULL;
    *len = 0;
    if (d->parent.rand == NULL)
        return core_nonce(d, nonce, len);
    if (d->parent.nonce == NULL)
        return 1;
    *len = d->parent.nonce(d->parent.rand, NULL, d->kind->strength, want, RBG_MAX_LEN);
    if (*len < want || *len > RBG_MAX_LEN || (*nonce = OPENSSL_malloc(*len)) == NULL)
        return refuse(PROV_R_ERROR_RETRIEVING_NONCE);
    if (d->parent.nonce(d->parent.rand, *nonce, d->kind->strength, want, RBG_MAX_LEN) == *len)
        return 1;
    OPENSSL_clear_free(*nonce, *len);
    *nonce = NULL;
    return refuse(PROV_R_ERROR_RETRIEVING_NONCE);
}

/* Seeding. */

/* Ends a context's state for good: the next call that needs one instantiates anew. */
static int fail(struct drbg *d)
{
    rbg_drbg_clear(&d->state);
    d->phase = EVP_RAND_STATE_ERROR;
    return 0;
}

static int was_seeded(struct drbg *d)
{
    d->phase = EVP_RAND_STATE_READY;
    d->seeded_at = time(NULL);
    d->process = getpid();
    d->reseeds = d->reseeds == UINT_MAX ? 1 : d->reseeds + 1;
    return d->parent.rand == NULL || parent_number(d, OSSL_DRBG_PARAM_RESEED_COUNTER, &d->parent_reseeds) || fail(d);
}

static int begin(struct drbg *d, int fresh, const unsigned char *personalization, size_t personalization_len)
{
    unsigned char *entropy, *nonce;
    size_t entropy_len, nonce_len, min_len = min_entropy_len(d);
    int bits = (int)d->kind->strength;
    uint32_t status = RBG_BAD_STATE;
    if (personalization == NULL) {
        personalization = default_personalization;
        personalization_len = sizeof default_personalization;
    }
    if (personalization_len > RBG_MAX_LEN)
        return refuse(PROV_R_PERSONALISATION_STRING_TOO_LONG);
    fail(d);
    if (!get_nonce(d, &nonce, &nonce_len))
        return 0;
    if (nonce == NULL) {
        bits += bits / 2;
        min_len += min_nonce_len(d);
    }
    if ((entropy = draw(d, bits, min_len, fresh, &entropy_len)) != NULL) {
        status = rbg_drbg_instantiate(&d->state, d->kind->number, entropy, entropy_len, nonce, nonce_len, personalization,
                                      personalization_len);
        give_back_entropy(d, entropy, entropy_len);
        if (status != RBG_DONE)
            refuse(PROV_R_ERROR_INSTANTIATING_DRBG);
    }
    OPENSSL_clear_free(nonce, nonce_len);
    return status == RBG_DONE && was_seeded(d);
}

/* Reseeds with what the caller gives, where it gives some, and then with what is drawn. */
static int reseed(struct drbg *d, int fresh, const unsigned char *given, size_t given_len, const unsigned char *additional,
                  size_t additional_len)
{
    unsigned char *entropy;
    size_t len;
    uint32_t status;
    if (additional == NULL)
        additional_len = 0;
    if (additional_len > RBG_MAX_LEN)
        return refuse(PROV_R_ADDITIONAL_INPUT_TOO_LONG);
    if (given != NULL) {
        if (given_len < min_entropy_len(d) || given_len > RBG_MAX_LEN)
            return fail(d) || refuse(PROV_R_INVALID_SEED_LENGTH);
        if (rbg_drbg_reseed(&d->state, given, given_len, additional, additional_len) != RBG_DONE)
            return fail(d) || refuse(PROV_R_UNABLE_TO_RESEED);
        additional = NULL;
        additional_len = 0;
    }
    if ((entropy = draw(d, (int)d->kind->strength, min_entropy_len(d), fresh, &len)) == NULL)
        return fail(d);
    status = rbg_drbg_reseed(&d->state, entropy, len, additional, additional_len);
    give_back_entropy(d, entropy, len);
    if (status != RBG_DONE)
        return fail(d) || refuse(PROV_R_RESEED_ERROR);
    return was_seeded(d);
}

static int has_kind(const struct drbg *d)
{
    return d->kind != NULL || refuse(d->kinds == hmac_kinds ? PROV_R_MISSING_MESSAGE_DIGEST : PROV_R_MISSING_CIPHER);
}

/* Makes a DRBG ready that was never instantiated, or that failed, as OpenSSL's own do. */
static int make_ready(struct drbg *d)
{
    if (d->phase == EVP_RAND_STATE_READY)
        return 1;
    return has_kind(d) && begin(d, 0, NULL, 0);
}

static int needs_reseed(struct drbg *d)
{
    uint64_t counter;
    unsigned int parent_reseeds;
    if (d->process != getpid())
        return 1;
    if (rbg_drbg_counter(&d->state, &counter) != RBG_DONE || (d->requests > 0 && counter >= d->requests))
        return 1;
    if (d->seconds > 0) {
        time_t now = time(NULL);
        if (now < d->seeded_at || now - d->seeded_at >= d->seconds)
            return 1;
    }
    return d->parent.rand != NULL && (!parent_number(d, OSSL_DRBG_PARAM_RESEED_COUNTER, &parent_reseeds) ||
                                      parent_reseeds != d->parent_reseeds);
}

/* The functions of the dispatch table. */

static int drbg_generate(void *rand, unsigned char *out, size_t len, unsigned int strength, int fresh,
                         const unsigned char *additional, size_t additional_len)
{
    struct drbg *d = rand;
    if (!make_ready(d))
        return 0;
    if (additional == NULL)
        additional_len = 0;
    if (strength > d->kind->strength)
        return refuse(PROV_R_INSUFFICIENT_DRBG_STRENGTH);
    if (len > RBG_MAX_LEN)
        return refuse(PROV_R_REQUEST_TOO_LARGE_FOR_DRBG);
    if (additional_len > RBG_MAX_LEN)
        return refuse(PROV_R_ADDITIONAL_INPUT_TOO_LONG);
    if (fresh || needs_reseed(d)) {
        if (!reseed(d, fresh, NULL, 0, additional, additional_len))
            return 0;
        additional = NULL;
        additional_len = 0;
    }
    if (rbg_drbg_generate(&d->state, additional, additional_len, RBG_MAX_INTERVAL, out, len) == RBG_DONE)
        return 1;
    return fail(d) || refuse(PROV_R_GENERATE_ERROR);
}

static int drbg_reseed(void *rand, int fresh, const unsigned char *given, size_t given_len, const unsigned char *additional,
                       size_t additional_len)
{
    return make_ready(rand) && reseed(rand, fresh, given, given_len, additional, additional_len);
}

static int drbg_uninstantiate(void *rand)
{
    struct drbg *d = rand;
    rbg_drbg_clear(&d->state);
    d->phase = EVP_RAND_STATE_UNINITIALISED;
    return 1;
}

static int drbg_verify_zeroization(void *rand)
{
    static const struct rbg_drbg zeros;
    const struct drbg *d = rand;
    return memcmp(&d->state, &zeros, sizeof zeros) == 0;
}

static int drbg_enable_locking(void *rand)
{
    struct drbg *d = rand;
    if (d->lock != NULL)
        return 1;
    if (d->parent.enable_locking != NULL && !d->parent.enable_locking(d->parent.rand))
        return refuse(PROV_R_PARENT_LOCKING_NOT_ENABLED);
    d->lock = CRYPTO_THREAD_lock_new();
    return d->lock != NULL || refuse(PROV_R_FAILED_TO_CREATE_LOCK);
}

static int drbg_lock(void *rand)
{
    struct drbg *d = rand;
    return d->lock == NULL || CRYPTO_THREAD_write_lock(d->lock);
}

static void drbg_unlock(void *rand)
{
    struct drbg *d = rand;
    if (d->lock != NULL)
        CRYPTO_THREAD_unlock(d->lock);
}

/* What a child is seeded with: the next bytes, with the child's place in memory as additional input. */
static size_t drbg_get_seed(void *rand, unsigned char **out, int bits, size_t min_len, size_t max_len, int fresh,
                            const unsigned char *additional, size_t additional_len)
{
    struct drbg *d = rand;
    size_t len = bits > 0 ? ((size_t)bits + 7) / 8 : 0;
    if (len < min_len)
        len = min_len;
    if (len > max_len)
        len = max_len;
    unsigned char *seed = OPENSSL_secure_malloc(len);
    if (seed == NULL)
        return 0;
    if (d->kind != NULL && drbg_generate(d, seed, len, d->kind->strength, fresh, additional, additional_len)) {
        *out = seed;
        return len;
    }
    OPENSSL_secure_clear_free(seed, len);
    return 0;
}

static void drbg_clear_seed(void *rand, unsigned char *seed, size_t len)
{
    (void)rand;
    OPENSSL_secure_clear_free(seed, len);
}

/* Parameters. */

static int set_kind(struct drbg *d, const OSSL_PARAM *p)
{
    const char *name;
    const struct kind *kind;
    if (!OSSL_PARAM_get_utf8_string_ptr(p, &name) || (kind = kind_named(d->kinds, name)) == NULL)
        return refuse(d->kinds == hmac_kinds ? PROV_R_DIGEST_NOT_ALLOWED : PROV_R_NOT_SUPPORTED);
    if (kind != d->kind && d->phase == EVP_RAND_STATE_READY)
        return refuse(PROV_R_ALREADY_INSTANTIATED);
    d->kind = kind;
    return 1;
}

static int set_param(struct drbg *d, const OSSL_PARAM *p)
{
    const char *name;
    int derived;
    if (strcmp(p->key, OSSL_DRBG_PARAM_RESEED_REQUESTS) == 0)
        return OSSL_PARAM_get_uint(p, &d->requests);
    if (strcmp(p->key, OSSL_DRBG_PARAM_RESEED_TIME_INTERVAL) == 0)
        return OSSL_PARAM_get_time_t(p, &d->seconds);
    if (strcmp(p->key, d->kinds == hmac_kinds ? OSSL_DRBG_PARAM_DIGEST : OSSL_DRBG_PARAM_CIPHER) == 0)
        return set_kind(d, p);
    if (d->kinds == hmac_kinds && strcmp(p->key, OSSL_DRBG_PARAM_MAC) == 0)
        return (OSSL_PARAM_get_utf8_string_ptr(p, &name) && strcasecmp(name, "HMAC") == 0) || refuse(PROV_R_UNSUPPORTED_MAC_TYPE);
    if (d->kinds == ctr_kinds && strcmp(p->key, OSSL_DRBG_PARAM_USE_DF) == 0)
        return (OSSL_PARAM_get_int(p, &derived) && derived != 0) || refuse(PROV_R_NOT_SUPPORTED);
    return 1;
}

static int drbg_set_ctx_params(void *rand, const OSSL_PARAM params[])
{
    for (const OSSL_PARAM *p = params; p != NULL && p->key != NULL; p++)
        if (!set_param(rand, p))
            return 0;
    return 1;
}

static const OSSL_PARAM *hmac_settable_ctx_params(void *rand, void *provider)
{
    static const OSSL_PARAM params[] = {
        OSSL_PARAM_utf8_string(OSSL_DRBG_PARAM_PROPERTIES, NULL, 0), OSSL_PARAM_utf8_string(OSSL_DRBG_PARAM_DIGEST, NULL, 0),
        OSSL_PARAM_utf8_string(OSSL_DRBG_PARAM_MAC, NULL, 0), OSSL_PARAM_uint(OSSL_DRBG_PARAM_RESEED_REQUESTS, NULL),
        OSSL_PARAM_uint64(OSSL_DRBG_PARAM_RESEED_TIME_INTERVAL, NULL), OSSL_PARAM_END};
    (void)rand, (void)provider;
    return params;
}

static const OSSL_PARAM *ctr_settable_ctx_params(void *rand, void *provider)
{
    static const OSSL_PARAM params[] = {
        OSSL_PARAM_utf8_string(OSSL_DRBG_PARAM_PROPERTIES, NULL, 0), OSSL_PARAM_utf8_string(OSSL_DRBG_PARAM_CIPHER, NULL, 0),
        OSSL_PARAM_int(OSSL_DRBG_PARAM_USE_DF, NULL), OSSL_PARAM_uint(OSSL_DRBG_PARAM_RESEED_REQUESTS, NULL),
        OSSL_PARAM_uint64(OSSL_DRBG_PARAM_RESEED_TIME_INTERVAL, NULL), OSSL_PARAM_END};
    (void)rand, (void)provider;
    return params;
}

static int get_param(const struct drbg *d, OSSL_PARAM *p)
{
    const char *key = p->key;
    if (strcmp(key, OSSL_RAND_PARAM_MAX_REQUEST) == 0)
        return OSSL_PARAM_set_size_t(p, RBG_MAX_LEN);
    if (strcmp(key, OSSL_RAND_PARAM_STATE) == 0)
        return OSSL_PARAM_set_int(p, d->phase);
    if (strcmp(key, OSSL_RAND_PARAM_STRENGTH) == 0)
        return OSSL_PARAM_set_uint(p, d->kind != NULL ? d->kind->strength : 0);
    if (strcmp(key, OSSL_DRBG_PARAM_RESEED_COUNTER) == 0)
        return OSSL_PARAM_set_uint(p, d->reseeds);
    if (strcmp(key, OSSL_DRBG_PARAM_RESEED_REQUESTS) == 0)
        return OSSL_PARAM_set_uint(p, d->requests);
    if (strcmp(key, OSSL_DRBG_PARAM_RESEED_TIME) == 0)
        return OSSL_PARAM_set_time_t(p, d->seeded_at);
    if (strcmp(key, OSSL_DRBG_PARAM_RESEED_TIME_INTERVAL) == 0)
        return OSSL_PARAM_set_time_t(p, d->seconds);
    if (strcmp(key, OSSL_DRBG_PARAM_MIN_ENTROPYLEN) == 0)
        return OSSL_PARAM_set_size_t(p, d->kind != NULL ? min_entropy_len(d) : 0);
    if (strcmp(key, OSSL_DRBG_PARAM_MIN_NONCELEN) == 0)
        return OSSL_PARAM_set_size_t(p, d->kind != NULL ? min_nonce_len(d) : 0);
    if (strcmp(key, OSSL_DRBG_PARAM_MAX_ENTROPYLEN) == 0 || strcmp(key, OSSL_DRBG_PARAM_MAX_NONCELEN) == 0 ||
        strcmp(key, OSSL_DRBG_PARAM_MAX_PERSLEN) == 0 || strcmp(key, OSSL_DRBG_PARAM_MAX_ADINLEN) == 0)
        return OSSL_PARAM_set_size_t(p, RBG_MAX_LEN);
    if (strcmp(key, d->kinds == hmac_kinds ? OSSL_DRBG_PARAM_DIGEST : OSSL_DRBG_PARAM_CIPHER) == 0)
        return d->kind != NULL && OSSL_PARAM_set_utf8_string(p, d->kind->names[0]);
    if (d->kinds == hmac_kinds && strcmp(key, OSSL_DRBG_PARAM_MAC) == 0)
        return OSSL_PARAM_set_utf8_string(p, "HMAC");
    if (d->kinds == ctr_kinds && strcmp(key, OSSL_DRBG_PARAM_USE_DF) == 0)
        return OSSL_PARAM_set_int(p, 1);
    return 1;
}

static int drbg_get_ctx_params(void *rand, OSSL_PARAM params[])
{
    for (OSSL_PARAM *p = params; p != NULL && p->key != NULL; p++)
        if (!get_param(rand, p))
            return 0;
    return 1;
}

/* What both tell. */
#define TOLD                                                                                                                 \
    OSSL_PARAM_int(OSSL_RAND_PARAM_STATE, NULL), OSSL_PARAM_uint(OSSL_RAND_PARAM_STRENGTH, NULL),                            \
        OSSL_PARAM_size_t(OSSL_RAND_PARAM_MAX_REQUEST, NULL), OSSL_PARAM_size_t(OSSL_DRBG_PARAM_MIN_ENTROPYLEN, NULL),       \
        OSSL_PARAM_size_t(OSSL_DRBG_PARAM_MAX_ENTROPYLEN, NULL), OSSL_PARAM_size_t(OSSL_DRBG_PARAM_MIN_NONCELEN, NULL),      \
        OSSL_PARAM_size_t(OSSL_DRBG_PARAM_MAX_NONCELEN, NULL), OSSL_PARAM_size_t(OSSL_DRBG_PARAM_MAX_PERSLEN, NULL),         \
        OSSL_PARAM_size_t(OSSL_DRBG_PARAM_MAX_ADINLEN, NULL), OSSL_PARAM_uint(OSSL_DRBG_PARAM_RESEED_COUNTER, NULL),         \
        OSSL_PARAM_time_t(OSSL_DRBG_PARAM_RESEED_TIME, NULL), OSSL_PARAM_uint(OSSL_DRBG_PARAM_RESEED_REQUESTS, NULL),        \
        OSSL_PARAM_time_t(OSSL_DRBG_PARAM_RESEED_TIME_INTERVAL, NULL)

static const OSSL_PARAM *hmac_gettable_ctx_params(void *rand, void *provider)
{
    static const OSSL_PARAM params[] = {TOLD, OSSL_PARAM_utf8_string(OSSL_DRBG_PARAM_DIGEST, NULL, 0),
                                        OSSL_PARAM_utf8_string(OSSL_DRBG_PARAM_MAC, NULL, 0), OSSL_PARAM_END};
    (void)rand, (void)provider;
    return params;
}

static const OSSL_PARAM *ctr_gettable_ctx_params(void *rand, void *provider)
{
    static const OSSL_PARAM params[] = {TOLD, OSSL_PARAM_utf8_string(OSSL_DRBG_PARAM_CIPHER, NULL, 0),
                                        OSSL_PARAM_int(OSSL_DRBG_PARAM_USE_DF, NULL), OSSL_PARAM_END};
    (void)rand, (void)provider;
    return params;
}

static int drbg_instantiate(void *rand, unsigned int strength, int fresh, const unsigned char *personalization, size_t len,
                            const OSSL_PARAM params[])
{
    struct drbg *d = rand;
    if (!drbg_set_ctx_params(d, params) || !has_kind(d))
        return 0;
    if (strength > d->kind->strength)
        return refuse(PROV_R_INSUFFICIENT_DRBG_STRENGTH);
    if (d->phase != EVP_RAND_STATE_UNINITIALISED)
        return refuse(d->phase == EVP_RAND_STATE_ERROR ? PROV_R_IN_ERROR_STATE : PROV_R_ALREADY_INSTANTIATED);
    return begin(d, fresh, personalization, len);
}

/* Contexts. */

static void read_parent(struct parent *parent, void *rand, const OSSL_DISPATCH *calls)
{
    parent->rand = rand;
    for (; calls != NULL && calls->function_id != 0; calls++) {
        if (calls->function_id == OSSL_FUNC_RAND_ENABLE_LOCKING)
            parent->enable_locking = OSSL_FUNC_rand_enable_locking(calls);
        else if (calls->function_id == OSSL_FUNC_RAND_LOCK)
            parent->lock = OSSL_FUNC_rand_lock(calls);
        else if (calls->function_id == OSSL_FUNC_RAND_UNLOCK)
            parent->unlock = OSSL_FUNC_rand_unlock(calls);
        else if (calls->function_id == OSSL_FUNC_RAND_GET_CTX_PARAMS)
            parent->get_ctx_params = OSSL_FUNC_rand_get_ctx_params(calls);
        else if (calls->function_id == OSSL_FUNC_RAND_NONCE)
            parent->nonce = OSSL_FUNC_rand_nonce(calls);
        else if (calls->function_id == OSSL_FUNC_RAND_GET_SEED)
            parent->get_seed = OSSL_FUNC_rand_get_seed(calls);
        else if (calls->function_id == OSSL_FUNC_RAND_CLEAR_SEED)
            parent->clear_seed = OSSL_FUNC_rand_clear_seed(calls);
    }
}

static void *drbg_new(void *provider, void *parent, const OSSL_DISPATCH *calls, const struct kind *kinds)
{
    struct drbg *d = OPENSSL_secure_zalloc(sizeof *d);
    if (d == NULL)
        return NULL;
    d->provider = provider;
    d->kinds = kinds;
    d->phase = EVP_RAND_STATE_UNINITIALISED;
    d->requests = RESEED_REQUESTS;
    d->seconds = RESEED_SECONDS;
    read_parent(&d->parent, parent, parent != NULL ? calls : NULL);
    return d;
}

static void *hmac_new(void *provider, void *parent, const OSSL_DISPATCH *calls)
{
    return drbg_new(provider, parent, calls, hmac_kinds);
}

static void *ctr_new(void *provider, void *parent, const OSSL_DISPATCH *calls)
{
    return drbg_new(provider, parent, calls, ctr_kinds);
}

static void drbg_free(void *rand)
{
    struct drbg *d = rand;
    if (d == NULL)
        return;
    CRYPTO_THREAD_lock_free(d->lock);
    OPENSSL_secure_clear_free(d, sizeof *d);
}

#define CALLS(sort)                                                                             \
    {                                                                                           \
        {OSSL_FUNC_RAND_NEWCTX, (void (*)(void))sort##_new},                                    \
        {OSSL_FUNC_RAND_FREECTX, (void (*)(void))drbg_free},                                    \
        {OSSL_FUNC_RAND_INSTANTIATE, (void (*)(void))drbg_instantiate},                         \
        {OSSL_FUNC_RAND_UNINSTANTIATE, (void (*)(void))drbg_uninstantiate},                     \
        {OSSL_FUNC_RAND_GENERATE, (void (*)(void))drbg_generate},                               \
        {OSSL_FUNC_RAND_RESEED, (void (*)(void))drbg_reseed},                                   \
        {OSSL_FUNC_RAND_ENABLE_LOCKING, (void (*)(void))drbg_enable_locking},                   \
        {OSSL_FUNC_RAND_LOCK, (void (*)(void))drbg_lock},                                       \
        {OSSL_FUNC_RAND_UNLOCK, (void (*)(void))drbg_unlock},                                   \
        {OSSL_FUNC_RAND_SETTABLE_CTX_PARAMS, (void (*)(void))sort##_settable_ctx_params},       \
        {OSSL_FUNC_RAND_SET_CTX_PARAMS, (void (*)(void))drbg_set_ctx_params},                   \
        {OSSL_FUNC_RAND_GETTABLE_CTX_PARAMS, (void (*)(void))sort##_gettable_ctx_params},       \
        {OSSL_FUNC_RAND_GET_CTX_PARAMS, (void (*)(void))drbg_get_ctx_params},                   \
        {OSSL_FUNC_RAND_VERIFY_ZEROIZATION, (void (*)(void))drbg_verify_zeroization},           \
        {OSSL_FUNC_RAND_GET_SEED, (void (*)(void))drbg_get_seed},                               \
        {OSSL_FUNC_RAND_CLEAR_SEED, (void (*)(void))drbg_clear_seed},                           \
        {0, NULL},                                                                              \
    }

static const OSSL_DISPATCH hmac_calls[] = CALLS(hmac);
static const OSSL_DISPATCH ctr_calls[] = CALLS(ctr);

static const OSSL_ALGORITHM rands[] = {
    {"HMAC-DRBG", "provider=rbgtree", hmac_calls, "HMAC_DRBG of librbg"},
    {"CTR-DRBG", "provider=rbgtree", ctr_calls, "CTR_DRBG of librbg"},
    {NULL, NULL, NULL, NULL},
};

/* The provider. */

static const OSSL_ALGORITHM *query(void *provider, int operation, int *no_cache)
{
    (void)provider;
    *no_cache = 0;
    return operation == OSSL_OP_RAND ? rands : NULL;
}

static const OSSL_PARAM *gettable_params(void *provider)
{
    static const OSSL_PARAM params[] = {OSSL_PARAM_utf8_ptr(OSSL_PROV_PARAM_NAME, NULL, 0),
                                        OSSL_PARAM_int(OSSL_PROV_PARAM_STATUS, NULL), OSSL_PARAM_END};
    (void)provider;
    return params;
}

static int get_params(void *provider, OSSL_PARAM params[])
{
    OSSL_PARAM *name = OSSL_PARAM_locate(params, OSSL_PROV_PARAM_NAME);
    OSSL_PARAM *status = OSSL_PARAM_locate(params, OSSL_PROV_PARAM_STATUS);
    (void)provider;
    return (name == NULL || OSSL_PARAM_set_utf8_ptr(name, "rbgtree: proved DRBGs")) &&
           (status == NULL || OSSL_PARAM_set_int(status, 1));
}

static void teardown(void *provider)
{
    OPENSSL_free(provider);
}

static const OSSL_DISPATCH provider_calls[] = {
    {OSSL_FUNC_PROVIDER_TEARDOWN, (void (*)(void))teardown},
    {OSSL_FUNC_PROVIDER_GETTABLE_PARAMS, (void (*)(void))gettable_params},
    {OSSL_FUNC_PROVIDER_GET_PARAMS, (void (*)(void))get_params},
    {OSSL_FUNC_PROVIDER_QUERY_OPERATION, (void (*)(void))query},
    {0, NULL},
};

int OSSL_provider_init(const OSSL_CORE_HANDLE *core, const OSSL_DISPATCH *in, const OSSL_DISPATCH **out, void **context)
{
    struct provider *provider = OPENSSL_zalloc(sizeof *provider);
    if (provider == NULL)
        return 0;
    provider->core = core;
    for (; in->function_id != 0; in++) {
        if (in->function_id == OSSL_FUNC_GET_ENTROPY)
            provider->get_entropy = OSSL_FUNC_get_entropy(in);
        else if (in->function_id == OSSL_FUNC_CLEANUP_ENTROPY)
            provider->cleanup_entropy = OSSL_FUNC_cleanup_entropy(in);
        else if (in->function_id == OSSL_FUNC_GET_NONCE)
            provider->get_nonce = OSSL_FUNC_get_nonce(in);
        else if (in->function_id == OSSL_FUNC_CLEANUP_NONCE)
            provider->cleanup_nonce = OSSL_FUNC_cleanup_nonce(in);
    }
    *context = provider;
    *out = provider_calls;
    return 1;
}
