/* The peer of bench/replay, over OpenSSL's EVP_RAND with test entropy. It takes a text for the one family that its mechanisms are of.
 *
 *   replay_peer <TEXT              runs the cases of a text of docs/RESPONSES.md without faults, and writes what `rbgtree replay` writes
 *   replay_peer make FAMILY CASES  writes a text of so many cases with the bytes that the mechanisms give; FAMILY is hmac or ctr
 */
#include <string.h>

#include "evp_drbg.h"

enum { MOST = 4096, LINE = 16384 };

struct named {
    const char *section;
    struct mechanism mechanism;
    size_t seed; /* the bytes of entropy without the derivation function, 0 with it and for HMAC_DRBG */
};

static const struct named hmac_kinds[] = {
    {"SHA-224", {"", "HMAC-DRBG", OSSL_DRBG_PARAM_DIGEST, "SHA2-224"}, 0},
    {"SHA-256", {"", "HMAC-DRBG", OSSL_DRBG_PARAM_DIGEST, "SHA2-256"}, 0},
    {"SHA-384", {"", "HMAC-DRBG", OSSL_DRBG_PARAM_DIGEST, "SHA2-384"}, 0},
    {"SHA-512", {"", "HMAC-DRBG", OSSL_DRBG_PARAM_DIGEST, "SHA2-512"}, 0},
    {"SHA-512/224", {"", "HMAC-DRBG", OSSL_DRBG_PARAM_DIGEST, "SHA2-512/224"}, 0},
    {"SHA-512/256", {"", "HMAC-DRBG", OSSL_DRBG_PARAM_DIGEST, "SHA2-512/256"}, 0},
};
static const struct named ctr_kinds[] = {
    {"AES-128 use df", {"", "CTR-DRBG", OSSL_DRBG_PARAM_CIPHER, "AES-128-CTR"}, 0},
    {"AES-192 use df", {"", "CTR-DRBG", OSSL_DRBG_PARAM_CIPHER, "AES-192-CTR"}, 0},
    {"AES-256 use df", {"", "CTR-DRBG", OSSL_DRBG_PARAM_CIPHER, "AES-256-CTR"}, 0},
    {"AES-128 no df", {"", "CTR-DRBG", OSSL_DRBG_PARAM_CIPHER, "AES-128-CTR"}, 32},
    {"AES-192 no df", {"", "CTR-DRBG", OSSL_DRBG_PARAM_CIPHER, "AES-192-CTR"}, 40},
    {"AES-256 no df", {"", "CTR-DRBG", OSSL_DRBG_PARAM_CIPHER, "AES-256-CTR"}, 48},
};
enum { KINDS = 6 };

/* A byte string, and whether its line stood. */
struct string {
    unsigned char bytes[MOST];
    size_t len;
    int stands;
};

enum field { ENTROPY, NONCE, PERS, RESEED, ADD_RESEED, ADD1, ADD2, PR1, PR2, RETURNED, FIELDS };

struct group {
    int open;
    unsigned long line;
    unsigned long long count;
    struct string strings[FIELDS];
};

/* A mechanism as it is used for all cases of a section: a DRBG over a parent whose entropy is set before each call. */
static EVP_RAND_CTX *parent, *drbg;

static void use(const struct named *n)
{
    unsigned int never = 0;
    int derived = n->seed == 0;
    time_t no_time = 0;
    OSSL_PARAM choice[] = {
        OSSL_PARAM_construct_utf8_string(n->mechanism.parameter, (char *)n->mechanism.value, 0),
        OSSL_PARAM_construct_utf8_string(OSSL_DRBG_PARAM_MAC, "HMAC", 0),
        OSSL_PARAM_construct_int(OSSL_DRBG_PARAM_USE_DF, &derived),
        OSSL_PARAM_construct_uint(OSSL_DRBG_PARAM_RESEED_REQUESTS, &never),
        OSSL_PARAM_construct_time_t(OSSL_DRBG_PARAM_RESEED_TIME_INTERVAL, &no_time),
        OSSL_PARAM_construct_end(),
    };
    EVP_RAND_CTX_free(drbg);
    EVP_RAND_CTX_free(parent);
    parent = new_rand("TEST-RAND", NULL);
    drbg = new_rand(n->mechanism.drbg, parent);
    if (!EVP_RAND_CTX_set_params(drbg, choice))
        fail("a mechanism");
}

/* What the parent hands out from now on. */
static void feed(const struct string *entropy, const struct string *nonce)
{
    unsigned int strength = 256;
    OSSL_PARAM seed[] = {
        OSSL_PARAM_construct_uint(OSSL_RAND_PARAM_STRENGTH, &strength),
        OSSL_PARAM_construct_octet_string(OSSL_RAND_PARAM_TEST_ENTROPY, (void *)entropy->bytes, entropy->len),
        nonce ? OSSL_PARAM_construct_octet_string(OSSL_RAND_PARAM_TEST_NONCE, (void *)nonce->bytes, nonce->len)
              : OSSL_PARAM_construct_end(),
        OSSL_PARAM_construct_end(),
    };
    if (!EVP_RAND_CTX_set_params(parent, seed))
        fail("entropy");
}

static void generate(const struct group *g, int pr, enum field add, enum field entropy, unsigned char *out)
{
    const struct string *a = &g->strings[add];
    if (pr)
        feed(&g->strings[entropy], NULL);
    if (!EVP_RAND_generate(drbg, out, g->strings[RETURNED].len, 0, pr, a->bytes, a->len))
        fail("generate");
}

/* The run of a case: an instantiation, a reseed where there is one, and two generates, the second of which is kept. */
static void run(const struct group *g, int pr, unsigned char *out)
{
    const struct string *s = g->strings;
    feed(&s[ENTROPY], &s[NONCE]);
    if (!EVP_RAND_instantiate(parent, 256, 0, NULL, 0, NULL))
        fail("the parent");
    if (!EVP_RAND_instantiate(drbg, 0, 0, s[PERS].bytes, s[PERS].len, NULL))
        fail("instantiate");
    if (s[RESEED].stands) {
        feed(&s[RESEED], NULL);
        if (!EVP_RAND_reseed(drbg, 0, NULL, 0, s[ADD_RESEED].bytes, s[ADD_RESEED].len))
            fail("reseed");
    }
    generate(g, pr, ADD1, PR1, out);
    generate(g, pr, ADD2, PR2, out);
    EVP_RAND_uninstantiate(drbg);
}

static void print_bytes(const char *name, const unsigned char *bytes, size_t len)
{
    static const char digits[] = "0123456789abcdef";
    static char text[2 * MOST];
    for (size_t i = 0; i < len; i++) {
        text[2 * i] = digits[bytes[i] >> 4];
        text[2 * i + 1] = digits[bytes[i] & 15];
    }
    printf("%s%.*s\n", name, (int)(2 * len), text);
}

/* ---- a text that is read */

static unsigned long passed, differed, skipped;

static void judge(struct group *g, int pr)
{
    static unsigned char out[MOST];
    if (!g->open)
        return;
    g->open = 0;
    run(g, pr, out);
    const struct string *wanted = &g->strings[RETURNED];
    if (memcmp(out, wanted->bytes, wanted->len) == 0) {
        passed++;
        return;
    }
    differed++;
    printf("differs line %lu count %llu\n", g->line, g->count);
    print_bytes("want ", wanted->bytes, wanted->len);
    print_bytes("got ", out, wanted->len);
}

static int digit(char c)
{
    if (c >= '0' && c <= '9')
        return c - '0';
    c |= 32;
    return c >= 'a' && c <= 'f' ? c - 'a' + 10 : -1;
}

static void keep(struct string *s, const char *value)
{
    size_t n = 0;
    while (value[0] != 0 && value[1] != 0 && n < MOST) {
        int high = digit(value[0]), low = digit(value[1]);
        if (high < 0 || low < 0)
            fail("a value");
        s->bytes[n++] = (unsigned char)(high << 4 | low);
        value += 2;
    }
    s->len = n;
    s->stands = 1;
}

static void field(struct group *g, const char *name, const char *value)
{
    static const struct { const char *name; enum field first, second; } table[] = {
        {"EntropyInput", ENTROPY, ENTROPY}, {"Nonce", NONCE, NONCE}, {"PersonalizationString", PERS, PERS},
        {"EntropyInputReseed", RESEED, RESEED}, {"AdditionalInputReseed", ADD_RESEED, ADD_RESEED},
        {"AdditionalInput", ADD1, ADD2}, {"EntropyInputPR", PR1, PR2}, {"ReturnedBits", RETURNED, RETURNED},
    };
    for (size_t i = 0; i < sizeof table / sizeof *table; i++)
        if (strcmp(table[i].name, name) == 0) {
            struct string *s = &g->strings[table[i].first];
            keep(s->stands ? &g->strings[table[i].second] : s, value);
            return;
        }
}

static char *trim(char *text)
{
    char *end = text + strlen(text);
    while (end > text && strchr(" \t\r\n", end[-1]))
        *--end = 0;
    while (*text == ' ' || *text == '\t')
        text++;
    return text;
}

/* Parts a line at its `=`, and says whether it has one. */
static int part(char *line, char **name, char **value)
{
    char *sign = strchr(line, '=');
    if (sign == NULL)
        return 0;
    *sign = 0;
    *name = trim(line);
    *value = trim(sign + 1);
    return 1;
}

static const struct named *kind_of(const char *section)
{
    for (int i = 0; i < KINDS; i++) {
        if (strcmp(hmac_kinds[i].section, section) == 0)
            return &hmac_kinds[i];
        if (strcmp(ctr_kinds[i].section, section) == 0)
            return &ctr_kinds[i];
    }
    return NULL;
}

static void begin(struct group *g, unsigned long line, const char *count)
{
    for (int i = 0; i < FIELDS; i++)
        g->strings[i].len = 0, g->strings[i].stands = 0;
    g->open = 1;
    g->line = line;
    g->count = strtoull(count, NULL, 10);
}

static void replay(void)
{
    static struct group g;
    static char buffer[LINE + 3];
    const struct named *kind = NULL;
    int pr = 0;
    char *name, *value;
    for (unsigned long number = 1; fgets(buffer, sizeof buffer, stdin); number++) {
        char *line = trim(buffer);
        size_t len = strlen(line);
        if (len == 0 || *line == '#' || strncmp(line, "**", 2) == 0)
            continue;
        if (*line == '[' && line[len - 1] == ']') {
            judge(&g, pr);
            line[len - 1] = 0;
            if (!part(line + 1, &name, &value)) {
                kind = kind_of(line + 1);
                pr = 0;
                if (kind != NULL)
                    use(kind);
            } else if (strcmp(name, "PredictionResistance") == 0) {
                pr = strcmp(value, "True") == 0;
            }
        } else if (part(line, &name, &value)) {
            if (strcmp(name, "COUNT") != 0) {
                if (g.open)
                    field(&g, name, value);
                continue;
            }
            judge(&g, pr);
            if (kind == NULL)
                skipped++;
            else
                begin(&g, number, value);
        }
    }
    judge(&g, pr);
    printf("passed %lu differed %lu skipped %lu\n", passed, differed, skipped);
}

/* ---- a text that is made */

static unsigned long long state = 1;

/* The next number below n, by the generator of splitmix64. */
static size_t below(size_t n)
{
    unsigned long long z = state += 0x9e3779b97f4a7c15;
    z = (z ^ z >> 30) * 0xbf58476d1ce4e5b9;
    z = (z ^ z >> 27) * 0x94d049bb133111eb;
    return (size_t)((z ^ z >> 31) >> 11) % n;
}

static void fill(struct string *s, size_t len)
{
    for (size_t i = 0; i < len; i++)
        s->bytes[i] = (unsigned char)below(256);
    s->len = len;
    s->stands = 1;
}

/* An additional input or a personalization string: none, or up to 32 bytes. */
static void fill_some(struct string *s)
{
    fill(s, below(2) ? 1 + below(32) : 0);
}

static void make(const struct named *kinds, long cases)
{
    static struct group g;
    static unsigned char out[MOST];
    printf("# %ld cases, made by bench/replay_peer over OpenSSL\n", cases);
    for (long i = 0; i < cases; i++) {
        int section = (int)(i * (2 * KINDS) / cases), pr = section % 2, count = (int)(i - (section * cases + 2 * KINDS - 1) / (2 * KINDS));
        const struct named *n = &kinds[section / 2];
        size_t entropy = n->seed ? n->seed : 32;
        struct string *s = g.strings;
        if (count == 0) {
            use(n);
            printf("\n[%s]\n[PredictionResistance = %s]\n", n->section, pr ? "True" : "False");
        }
        begin(&g, 0, "0");
        fill(&s[ENTROPY], entropy);
        fill(&s[NONCE], 16);
        fill_some(&s[PERS]);
        if (below(2)) {
            fill(&s[RESEED], entropy);
            fill_some(&s[ADD_RESEED]);
        }
        fill_some(&s[ADD1]);
        fill_some(&s[ADD2]);
        fill(&s[PR1], pr ? entropy : 0);
        fill(&s[PR2], pr ? entropy : 0);
        s[RETURNED].len = 16 * (1 + below(8));
        run(&g, pr, out);
        printf("\nCOUNT = %d\n", count);
        print_bytes("EntropyInput = ", s[ENTROPY].bytes, s[ENTROPY].len);
        print_bytes("Nonce = ", s[NONCE].bytes, s[NONCE].len);
        print_bytes("PersonalizationString = ", s[PERS].bytes, s[PERS].len);
        if (s[RESEED].stands) {
            print_bytes("EntropyInputReseed = ", s[RESEED].bytes, s[RESEED].len);
            print_bytes("AdditionalInputReseed = ", s[ADD_RESEED].bytes, s[ADD_RESEED].len);
        }
        for (int k = 0; k < 2; k++) {
            print_bytes("AdditionalInput = ", s[ADD1 + k].bytes, s[ADD1 + k].len);
            if (pr)
                print_bytes("EntropyInputPR = ", s[PR1 + k].bytes, s[PR1 + k].len);
        }
        print_bytes("ReturnedBits = ", out, s[RETURNED].len);
    }
}

int main(int argc, char **argv)
{
    if (argc == 1) {
        replay();
        return differed ? 8 : 0;
    }
    if (argc == 4 && strcmp(argv[1], "make") == 0 && atol(argv[3]) >= 2 * KINDS) {
        make(strcmp(argv[2], "ctr") == 0 ? ctr_kinds : hmac_kinds, atol(argv[3]));
        return 0;
    }
    fail("usage: replay_peer, or replay_peer make FAMILY CASES");
}
