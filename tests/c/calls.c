/* Calls of librbg from C: one output that another implementation computed, where the fields lie, a refusal for each status, what a
 * refusal leaves, NULL for an empty string, and what clear leaves. */
#include <stdio.h>
#include <string.h>

#include "rbg.h"

static int failures;

static void expect(int holds, const char *what)
{
    if (!holds) {
        printf("calls: not so: %s\n", what);
        failures++;
    }
}

static uint8_t long_string[RBG_MAX_LEN + 1], long_output[RBG_MAX_LEN + 1];
static uint8_t counting[48];

static int same(const struct rbg_drbg *one, const struct rbg_drbg *other)
{
    return memcmp(one, other, sizeof *one) == 0;
}

static struct rbg_drbg begun(uint32_t kind)
{
    struct rbg_drbg state;
    memset(&state, 0xee, sizeof state);
    expect(rbg_drbg_instantiate(&state, kind, counting, 32, counting + 32, 16, NULL, 0) == RBG_DONE, "it begins");
    return state;
}

/* HMAC_DRBG over SHA-256 with entropy 00 to 1f and nonce 20 to 2f. */
static void gives_known_bytes(void)
{
    static const uint8_t first[32] = {0x0f, 0xfb, 0x80, 0x87, 0x5a, 0x3e, 0x90, 0x22, 0xa4, 0x94, 0x1a,
                                      0x3f, 0xa1, 0xb0, 0xd3, 0x61, 0x1d, 0xf1, 0x4e, 0x1c, 0xf6, 0x51,
                                      0xa7, 0x3c, 0xe9, 0x22, 0x9b, 0x9f, 0x3a, 0xd5, 0x68, 0x87};
    struct rbg_drbg state = begun(RBG_HMAC_SHA_256);
    uint8_t out[34] = {0};
    uint64_t counter = 0;
    expect(rbg_drbg_generate(&state, NULL, 0, 1, out + 1, 32) == RBG_DONE, "a generate");
    expect(memcmp(out + 1, first, 32) == 0, "the bytes are another implementation's");
    expect(out[0] == 0 && out[33] == 0, "nothing is written beside the output");
    expect(rbg_drbg_counter(&state, &counter) == RBG_DONE && counter == 2 && state.counter == 2, "the counter is 2");
    expect(rbg_drbg_generate_fresh(&state, counting, 32, counting, 5, out, 34) == RBG_DONE, "fresh bytes");
    expect(rbg_drbg_counter(&state, &counter) == RBG_DONE && counter == 2, "the counter is 2 after fresh bytes");
}

/* Whether so many bytes and no more stand at the front of a field. None of these states has a 0 at that end. */
static int fills_front(const uint8_t *field, size_t len)
{
    for (size_t i = len; i < 64; i++)
        if (field[i] != 0)
            return 0;
    return field[len - 1] != 0;
}

/* Each kind's state: its number, counter, and Key and V as long as they are, with zeros behind. */
static void fields_lie_as_told(void)
{
    static const size_t keys[6] = {32, 48, 64, 16, 24, 32}, values[6] = {32, 48, 64, 16, 16, 16};
    for (uint32_t kind = 1; kind <= 6; kind++) {
        struct rbg_drbg state = begun(kind);
        uint8_t out[16];
        for (uint64_t counter = 1; counter < 4; counter++) {
            expect(state.kind == kind && state.reserved == 0 && state.counter == counter, "kind, 0 and counter lie as told");
            expect(fills_front(state.key, keys[kind - 1]), "Key lies as told");
            expect(fills_front(state.value, values[kind - 1]), "V lies as told");
            expect(rbg_drbg_generate(&state, NULL, 0, 3, out, sizeof out) == RBG_DONE, "a generate");
        }
    }
}

/* For each kind the calls with NULL and length 0 for each string, beside the same with an empty string that is not NULL. */
static void takes_null_as_empty(void)
{
    static const uint8_t empty[1] = {0xaa};
    for (uint32_t kind = 1; kind <= 6; kind++) {
        struct rbg_drbg a, b;
        uint8_t one[40], other[40], none[1] = {7};
        memset(&a, 1, sizeof a);
        memset(&b, 2, sizeof b);
        expect(rbg_drbg_instantiate(&a, kind, NULL, 0, NULL, 0, NULL, 0) == RBG_DONE &&
                   rbg_drbg_instantiate(&b, kind, empty, 0, empty, 0, empty, 0) == RBG_DONE && same(&a, &b),
               "an instantiation of empty strings");
        expect(rbg_drbg_instantiate(&a, kind, counting, 32, NULL, 0, counting, 9) == RBG_DONE &&
                   rbg_drbg_instantiate(&b, kind, counting, 32, empty, 0, counting, 9) == RBG_DONE && same(&a, &b),
               "an instantiation with an empty nonce");
        expect(rbg_drbg_instantiate(&a, kind, NULL, 0, counting, 16, counting, 9) == RBG_DONE &&
                   rbg_drbg_instantiate(&b, kind, empty, 0, counting, 16, counting, 9) == RBG_DONE && same(&a, &b),
               "an instantiation with empty entropy");
        expect(rbg_drbg_instantiate(&a, kind, counting, 32, counting, 16, NULL, 0) == RBG_DONE &&
                   rbg_drbg_instantiate(&b, kind, counting, 32, counting, 16, empty, 0) == RBG_DONE && same(&a, &b),
               "an instantiation with an empty personalization string");
        expect(rbg_drbg_reseed(&a, NULL, 0, NULL, 0) == RBG_DONE && rbg_drbg_reseed(&b, empty, 0, empty, 0) == RBG_DONE && same(&a, &b),
               "a reseed of empty strings");
        expect(rbg_drbg_reseed(&a, counting, 32, NULL, 0) == RBG_DONE && rbg_drbg_reseed(&b, counting, 32, empty, 0) == RBG_DONE &&
                   same(&a, &b),
               "a reseed with empty additional input");
        expect(rbg_drbg_generate(&a, NULL, 0, 9, one, 40) == RBG_DONE && rbg_drbg_generate(&b, empty, 0, 9, other, 40) == RBG_DONE &&
                   same(&a, &b) && memcmp(one, other, 40) == 0,
               "a generate with empty additional input");
        expect(rbg_drbg_generate(&a, NULL, 0, 9, NULL, 0) == RBG_DONE && rbg_drbg_generate(&b, empty, 0, 9, none, 0) == RBG_DONE &&
                   same(&a, &b) && none[0] == 7,
               "a generate of no bytes");
        expect(rbg_drbg_generate_fresh(&a, NULL, 0, NULL, 0, one, 40) == RBG_DONE &&
                   rbg_drbg_generate_fresh(&b, empty, 0, empty, 0, other, 40) == RBG_DONE && same(&a, &b) && memcmp(one, other, 40) == 0,
               "fresh bytes of empty strings");
        expect(rbg_drbg_generate_fresh(&a, counting, 32, NULL, 0, NULL, 0) == RBG_DONE &&
                   rbg_drbg_generate_fresh(&b, counting, 32, empty, 0, none, 0) == RBG_DONE && same(&a, &b) && none[0] == 7,
               "no fresh bytes");
    }
}

/* Whether a call answers a status and leaves the state, the output and the counter. */
#define REFUSED(status, call)                                                          \
    do {                                                                               \
        struct rbg_drbg before = state;                                                \
        memset(out, 7, sizeof out);                                                    \
        expect((call) == (status), #call " answers " #status);                         \
        expect(same(&before, &state) && counter == 99, #call ": the state stays");     \
        for (size_t place = 0; place < sizeof out; place++)                            \
            expect(out[place] == 7, #call ": the output stays");                       \
    } while (0)

static void refuses(void)
{
    struct rbg_drbg state = begun(RBG_HMAC_SHA_256);
    uint8_t out[16];
    uint64_t counter = 99;
    const size_t more = RBG_MAX_LEN + 1;
    static const uint32_t strange[] = {0, 7, 0x101, UINT32_MAX};
    for (size_t i = 0; i < sizeof strange / sizeof *strange; i++) {
        REFUSED(RBG_BAD_KIND, rbg_drbg_instantiate(&state, strange[i], counting, 32, counting, 16, NULL, 0));
        struct rbg_drbg good = state;
        state.kind = strange[i];
        REFUSED(RBG_BAD_STATE, rbg_drbg_reseed(&state, counting, 32, NULL, 0));
        REFUSED(RBG_BAD_STATE, rbg_drbg_generate(&state, NULL, 0, 0, out, 16));
        REFUSED(RBG_BAD_STATE, rbg_drbg_generate_fresh(&state, counting, 32, NULL, 0, out, 16));
        REFUSED(RBG_BAD_STATE, rbg_drbg_counter(&state, &counter));
        REFUSED(RBG_BAD_STATE, rbg_drbg_due(&state, 0));
        state = good;
    }
    state.counter = 0;
    REFUSED(RBG_BAD_STATE, rbg_drbg_generate(&state, NULL, 0, 1, out, 16));
    state = begun(RBG_HMAC_SHA_256);
    state.reserved = 1;
    REFUSED(RBG_BAD_STATE, rbg_drbg_generate(&state, NULL, 0, 1, out, 16));
    state = begun(RBG_HMAC_SHA_256);
    REFUSED(RBG_LONG_ENTROPY, rbg_drbg_instantiate(&state, RBG_CTR_AES_256, long_string, more, long_string, more, long_string, more));
    REFUSED(RBG_LONG_NONCE, rbg_drbg_instantiate(&state, RBG_CTR_AES_256, counting, 32, long_string, more, long_string, more));
    REFUSED(RBG_LONG_STRING, rbg_drbg_instantiate(&state, RBG_CTR_AES_256, counting, 32, counting, 16, long_string, more));
    REFUSED(RBG_LONG_ENTROPY, rbg_drbg_reseed(&state, long_string, more, long_string, more));
    REFUSED(RBG_LONG_STRING, rbg_drbg_reseed(&state, counting, 32, long_string, more));
    REFUSED(RBG_LONG_STRING, rbg_drbg_generate(&state, long_string, more, 0, out, 16));
    REFUSED(RBG_BAD_INTERVAL, rbg_drbg_generate(&state, NULL, 0, 0, out, 16));
    REFUSED(RBG_BAD_INTERVAL, rbg_drbg_generate(&state, NULL, 0, RBG_MAX_INTERVAL + 1, long_output, more));
    REFUSED(RBG_BAD_INTERVAL, rbg_drbg_due(&state, 0));
    REFUSED(RBG_BAD_INTERVAL, rbg_drbg_due(&state, RBG_MAX_INTERVAL + 1));
    REFUSED(RBG_LONG_OUTPUT, rbg_drbg_generate(&state, NULL, 0, 1, long_output, more));
    REFUSED(RBG_LONG_ENTROPY, rbg_drbg_generate_fresh(&state, long_string, more, long_string, more, long_output, more));
    REFUSED(RBG_LONG_STRING, rbg_drbg_generate_fresh(&state, counting, 32, long_string, more, long_output, more));
    REFUSED(RBG_LONG_OUTPUT, rbg_drbg_generate_fresh(&state, counting, 32, NULL, 0, long_output, more));
    for (size_t i = 0; i < more; i++)
        expect(long_output[i] == 0, "a refusal leaves a long output");
    expect(rbg_drbg_generate(&state, NULL, 0, 1, long_output, RBG_MAX_LEN) == RBG_DONE, "the longest output");
    expect(long_output[RBG_MAX_LEN] == 0, "nothing is written behind it");
    expect(rbg_drbg_due(&state, 2) == RBG_DONE, "not due yet");
    REFUSED(RBG_RESEED_REQUIRED, rbg_drbg_due(&state, 1));
    REFUSED(RBG_RESEED_REQUIRED, rbg_drbg_generate(&state, NULL, 0, 1, out, 16));
    state.counter = UINT64_MAX;
    REFUSED(RBG_RESEED_REQUIRED, rbg_drbg_generate(&state, NULL, 0, RBG_MAX_INTERVAL, out, 16));
    expect(rbg_drbg_reseed(&state, long_string, RBG_MAX_LEN, long_string, RBG_MAX_LEN) == RBG_DONE, "the longest strings");
}

static void clears(void)
{
    static const struct rbg_drbg zeros;
    struct rbg_drbg state = begun(RBG_HMAC_SHA_256);
    uint64_t counter;
    rbg_drbg_clear(&state);
    expect(same(&state, &zeros), "clear leaves zeros");
    expect(rbg_drbg_counter(&state, &counter) == RBG_BAD_STATE, "a cleared state is none");
}

/* The health tests. */

static struct rbg_tests tests;

/* Whether step and step_all both answer a status and leave the tests and the place. */
static void step_refused(uint32_t status, const char *what)
{
    static const uint8_t samples[3] = {0, 0, 0};
    struct rbg_tests before = tests;
    size_t at = 99;
    expect(rbg_tests_step(&tests, 0) == status, what);
    expect(rbg_tests_step_all(&tests, samples, 3, &at) == status && rbg_tests_step_all(&tests, NULL, 0, &at) == status && at == 99, what);
    expect(memcmp(&before, &tests, sizeof tests) == 0, "a refusal leaves the tests");
}

/* After six samples each field of the tests has a number of its own. */
static void numbers_lie_as_told(void)
{
    static const uint8_t samples[6] = {5, 5, 5, 5, 9, 9};
    size_t at = 99;
    memset(&tests, 0xee, sizeof tests);
    expect(rbg_tests_begin(&tests, 31, 512, 300) == RBG_DONE && tests.rct == 31 && tests.run == 0 && tests.place == 0 &&
               tests.alarm == 0 && tests.window == 512 && tests.apt == 300 && tests.equal == 0 && tests.last == 0 && tests.first == 0,
           "the numbers lie as told after the begin");
    expect(rbg_tests_step_all(&tests, samples, 6, &at) == RBG_DONE && at == 99 && tests.rct == 31 && tests.run == 2 && tests.place == 6 &&
               tests.alarm == 0 && tests.window == 512 && tests.apt == 300 && tests.equal == 4 && tests.last == 9 && tests.first == 5,
           "the numbers lie as told after six samples");
}

/* Alarms at the sample that reaches a cutoff, one by one and in a row, what they leave, and what is refused. */
static void tests_alarm(void)
{
    static const uint8_t quiet[7] = {7, 7, 7, 8, 7, 8, 8}, run[6] = {1, 2, 9, 9, 9, 9};
    struct rbg_tests good, before;
    size_t at = 99;
    memset(&tests, 0xee, sizeof tests);
    before = tests;
    step_refused(RBG_BAD_TESTS, "no tests");
    expect(rbg_tests_begin(&tests, 1, 513, 1) == RBG_BAD_RCT, "a cutoff of 1");
    expect(rbg_tests_begin(&tests, 2, 513, 1) == RBG_BAD_WINDOW, "a window of 513");
    expect(rbg_tests_begin(&tests, 2, 512, 513) == RBG_BAD_APT, "a count above the window");
    expect(memcmp(&tests, &before, sizeof tests) == 0, "a refused begin leaves the tests");
    expect(rbg_tests_begin(&tests, 4, 512, 257) == RBG_DONE, "tests");
    before = tests;
    expect(rbg_tests_step_all(&tests, NULL, 0, &at) == RBG_DONE && at == 99 && memcmp(&tests, &before, sizeof tests) == 0, "no samples");
    expect(rbg_tests_step_all(&tests, quiet, sizeof quiet, &at) == RBG_DONE && at == 99, "quiet samples");
    good = before = tests;
    before.alarm = 1;
    expect(rbg_tests_step_all(&tests, run, sizeof run, &at) == RBG_REPETITION && at == 5, "a run of four");
    expect(memcmp(&tests, &before, sizeof tests) == 0, "an alarm among samples is kept, and nothing else of them");
    step_refused(RBG_ALARMED, "it has alarmed");
    tests = good;
    for (size_t i = 0; i < 5; i++)
        expect(rbg_tests_step(&tests, run[i]) == RBG_DONE, "no alarm yet");
    before = tests;
    before.alarm = 1;
    expect(rbg_tests_step(&tests, 9) == RBG_REPETITION, "the fourth of a run");
    expect(memcmp(&tests, &before, sizeof tests) == 0, "an alarm is kept, and nothing else of its sample");
    step_refused(RBG_ALARMED, "it has alarmed at a step");
    tests = good;
    tests.run = 3; /* as of 7, 7, 8, 7 and three more of 8; with a fourth 7 before them there would be a run of four */
    step_refused(RBG_BAD_TESTS, "a run that no samples leave");
    tests.equal = 3;
    expect(rbg_tests_step(&tests, 0) == RBG_DONE, "a run that other samples leave");
    tests = good;
    tests.run = 4;
    step_refused(RBG_BAD_TESTS, "a run at its cutoff");
    tests = good;
    tests.equal = 7; /* of seven samples the last is unlike the first */
    step_refused(RBG_BAD_TESTS, "a count that no samples leave");
    tests = good;
    tests.window = 513;
    step_refused(RBG_BAD_TESTS, "a window that is none");
    tests = good;
    tests.alarm = 3;
    step_refused(RBG_BAD_TESTS, "an unknown alarm");
    expect(rbg_tests_begin(&tests, 31, 512, 2) == RBG_DONE && rbg_tests_step(&tests, 1) == RBG_DONE &&
               rbg_tests_step(&tests, 2) == RBG_DONE && rbg_tests_step(&tests, 1) == RBG_PROPORTION && tests.alarm == 2,
           "two of a window");
    step_refused(RBG_ALARMED, "the other test has alarmed");
}

static void tells_cutoffs(void)
{
    uint32_t cutoff = 99;
    expect(rbg_rct_cutoff(0, 1, 1, &cutoff) == RBG_BAD_RATE && rbg_rct_cutoff(65, 1, 1, &cutoff) == RBG_BAD_RATE &&
               rbg_rct_cutoff(1, 0, 1, &cutoff) == RBG_BAD_RATE && rbg_rct_cutoff(1, 8001, 1, &cutoff) == RBG_BAD_RATE &&
               rbg_rct_cutoff(1, 1, 0, &cutoff) == RBG_BAD_RATE && rbg_rct_cutoff(1, 1, 1001, &cutoff) == RBG_BAD_RATE && cutoff == 99,
           "numbers outside their ranges");
    expect(rbg_rct_cutoff(30, 1, 1, &cutoff) == RBG_DONE && cutoff == 31, "a cutoff of 31");
    expect(rbg_rct_cutoff(64, 1, 1000, &cutoff) == RBG_DONE && cutoff == 64001, "a cutoff of 64,001");
}

int main(void)
{
    for (size_t i = 0; i < sizeof counting; i++)
        counting[i] = (uint8_t)i;
    gives_known_bytes();
    fields_lie_as_told();
    takes_null_as_empty();
    refuses();
    clears();
    numbers_lie_as_told();
    tests_alarm();
    tells_cutoffs();
    if (failures == 0)
        puts("calls: all as the header says");
    return failures != 0;
}
