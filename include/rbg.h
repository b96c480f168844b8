/* rbg.h: HMAC_DRBG and CTR_DRBG (NIST SP 800-90A Rev. 1) and the continuous health tests (SP 800-90B 4.4) as a library without heap,
 * threads or system calls, for C99 and C++.
 *
 * What each function does is proved (docs/PROVED.md) for every call that keeps these rules, which no proof in the library can see:
 *
 *  - a pointer is to as many bytes as its length says, and a pointer to a struct or a number to a whole one, aligned as its type
 *    asks. Where the length is 0 the pointer may be NULL, which is an empty string;
 *  - what a call writes (a state, tests, an output, and the number behind counter, at or cutoff) overlaps nothing else that it is given;
 *  - one state is in one call at a time: it belongs to one thread, or a lock guards it. The same holds of the tests.
 *
 * A state is plain bytes, as secret as the output. A copy of it repeats the output of the original. So it does after fork(), where
 * the new process has to reseed before it asks for more.
 *
 * A call answers a status. RBG_DONE says that it did its work. Every other one is a refusal, which leaves all that the call may write
 * as it was. (RBG_REPETITION and RBG_PROPORTION are no refusals: the alarm is kept.) Where several causes stand together the first is
 * told, in the order that is given at the call.
 *
 * Numbers in brackets are sections of SP 800-90A Rev. 1, at the health tests of SP 800-90B.
 */
#ifndef RBG_H
#define RBG_H

#include <stddef.h>
#include <stdint.h>

#ifdef __cplusplus
extern "C" {
#endif

/* The longest string of each sort and the longest output, in bytes. The standard allows an output of 2^19 bits (table 2). */
#define RBG_MAX_LEN 65536

/* The greatest reseed interval, in generates (tables 2 and 3). */
#define RBG_MAX_INTERVAL (UINT64_C(1) << 48)

/* Kinds: HMAC_DRBG over a hash function, and CTR_DRBG with AES and the derivation function. The strength in bits and the least
 * entropy for it, in bytes, are behind each. 0 is no kind. */
#define RBG_HMAC_SHA_256 UINT32_C(1) /* 256 bits, 32 bytes */
#define RBG_HMAC_SHA_384 UINT32_C(2) /* 256 bits, 32 bytes */
#define RBG_HMAC_SHA_512 UINT32_C(3) /* 256 bits, 32 bytes */
#define RBG_CTR_AES_128 UINT32_C(4)  /* 128 bits, 16 bytes */
#define RBG_CTR_AES_192 UINT32_C(5)  /* 192 bits, 24 bytes */
#define RBG_CTR_AES_256 UINT32_C(6)  /* 256 bits, 32 bytes */

/* Statuses. */
#define RBG_DONE UINT32_C(0)
#define RBG_RESEED_REQUIRED UINT32_C(1) /* the reseed counter is above the interval */
#define RBG_BAD_STATE UINT32_C(2)       /* no call leaves such a state: no known kind, a counter of 0, or a reserved number that is not 0 */
#define RBG_BAD_KIND UINT32_C(3)        /* no kind has this number */
#define RBG_BAD_INTERVAL UINT32_C(4)    /* the interval is 0 or above 2^48 */
#define RBG_LONG_ENTROPY UINT32_C(5)    /* the entropy has more than 65,536 bytes */
#define RBG_LONG_NONCE UINT32_C(6)      /* the nonce has more than 65,536 bytes */
#define RBG_LONG_STRING UINT32_C(7)     /* the personalization string or additional input has more than 65,536 bytes */
#define RBG_LONG_OUTPUT UINT32_C(8)     /* more than 65,536 bytes were asked for */

/* Statuses of the health tests. */
#define RBG_BAD_TESTS UINT32_C(9)   /* no begin or step leaves such numbers */
#define RBG_ALARMED UINT32_C(10)    /* the tests alarmed before, and are to be begun anew */
#define RBG_BAD_RCT UINT32_C(11)    /* the cutoff of the repetition count test is below 2 */
#define RBG_BAD_WINDOW UINT32_C(12) /* the window is neither 512 nor 1024 */
#define RBG_BAD_APT UINT32_C(13)    /* the cutoff of the adaptive proportion test is below 2 or above the window */
#define RBG_BAD_RATE UINT32_C(14)   /* a, num or den is outside its range */
#define RBG_REPETITION UINT32_C(15) /* the repetition count test alarms at this sample */
#define RBG_PROPORTION UINT32_C(16) /* the adaptive proportion test alarms at this sample */

/* The state of a DRBG: the reseed counter, the kind, 0, and Key and V at the front of their fields with zeros behind them. A
 * program reads and writes none of it, but may copy and move it. */
struct rbg_drbg {
    uint64_t counter;
    uint32_t kind;
    uint32_t reserved;
    uint8_t key[64];
    uint8_t value[64];
};

/* The sizes and places that the library has. Each line is an error where a compiler lays the struct out in another way. */
typedef char rbg_drbg_is_144_bytes[sizeof(struct rbg_drbg) == 144 ? 1 : -1];
typedef char rbg_drbg_kind_is_at_8[offsetof(struct rbg_drbg, kind) == 8 ? 1 : -1];
typedef char rbg_drbg_key_is_at_16[offsetof(struct rbg_drbg, key) == 16 ? 1 : -1];
typedef char rbg_drbg_value_is_at_80[offsetof(struct rbg_drbg, value) == 80 ? 1 : -1];

/* Makes a state of entropy, a nonce and a personalization string, with the counter at 1 (9.1, 10.1.2.3, 10.2.1.3.2). What stood in
 * the state before is not looked at. The entropy has to have as much min-entropy as the kind's strength, and the nonce half as much,
 * or be one that is never used again (8.6.7); the personalization string may be empty. Each has at most RBG_MAX_LEN bytes.
 *
 * RBG_BAD_KIND, RBG_LONG_ENTROPY, RBG_LONG_NONCE, RBG_LONG_STRING. */
uint32_t rbg_drbg_instantiate(struct rbg_drbg *state, uint32_t kind, const uint8_t *entropy, size_t entropy_len,
                              const uint8_t *nonce, size_t nonce_len, const uint8_t *personalization, size_t personalization_len);

/* Mixes fresh entropy, as much as at the instantiation, and additional input, which may be empty, into the state, and sets the counter
 * to 1 (9.2, 10.1.2.4, 10.2.1.4.2). Each has at most RBG_MAX_LEN bytes.
 *
 * RBG_BAD_STATE, RBG_LONG_ENTROPY, RBG_LONG_STRING. */
uint32_t rbg_drbg_reseed(struct rbg_drbg *state, const uint8_t *entropy, size_t entropy_len, const uint8_t *additional,
                         size_t additional_len);

/* Fills out with out_len bytes, at most RBG_MAX_LEN, after mixing in the additional input where there is any, and adds 1 to the counter
 * (9.3, 10.1.2.5, 10.2.1.5.2). The interval, 1 to RBG_MAX_INTERVAL, is how many generates one seed serves; it may differ from call to
 * call. Where the counter is above it the answer is RBG_RESEED_REQUIRED (step 1 of both), and the caller reseeds and asks again
 * (9.3.1, step 9).
 *
 * RBG_BAD_STATE, RBG_LONG_STRING, RBG_BAD_INTERVAL, RBG_LONG_OUTPUT, RBG_RESEED_REQUIRED where the counter is above the interval. */
uint32_t rbg_drbg_generate(struct rbg_drbg *state, const uint8_t *additional, size_t additional_len, uint64_t interval,
                           uint8_t *out, size_t out_len);

/* A generate with prediction resistance (9.3.1, steps 7 and 8): reseeds with the entropy and the additional input, and then fills out by a
 * generate without additional input. The counter is 2 after it. Lengths are as above.
 *
 * RBG_BAD_STATE, RBG_LONG_ENTROPY, RBG_LONG_STRING, RBG_LONG_OUTPUT. */
uint32_t rbg_drbg_generate_fresh(struct rbg_drbg *state, const uint8_t *entropy, size_t entropy_len, const uint8_t *additional,
                                 size_t additional_len, uint8_t *out, size_t out_len);

/* Writes the reseed counter: one more than the number of generates since the last seeding.
 *
 * RBG_BAD_STATE. */
uint32_t rbg_drbg_counter(const struct rbg_drbg *state, uint64_t *counter);

/* Whether a generate under this interval would be refused for its counter: RBG_RESEED_REQUIRED where it would, else RBG_DONE (9.3,
 * 10.1.2.5, step 1, and 10.2.1.5.2, step 1).
 *
 * RBG_BAD_STATE, RBG_BAD_INTERVAL. */
uint32_t rbg_drbg_due(const struct rbg_drbg *state, uint64_t interval);

/* Writes zeros to every field (9.4). It takes any bytes; what it leaves is no state, and every other call but an instantiation
 * answers RBG_BAD_STATE. Copies that a caller or the stack still holds are not cleared. */
void rbg_drbg_clear(struct rbg_drbg *state);

/* The health tests of one noise source: the cutoffs, what is kept of the samples before, and the alarm: 0 for none, 1 for repetition, 2
 * for proportion. A program may read the alarm, and otherwise reads and writes none of it. */
struct rbg_tests {
    uint32_t rct;
    uint32_t run;
    uint32_t place;
    uint32_t alarm;
    uint16_t window;
    uint16_t apt;
    uint16_t equal;
    uint8_t last;
    uint8_t first;
};

typedef char rbg_tests_is_24_bytes[sizeof(struct rbg_tests) == 24 ? 1 : -1];
typedef char rbg_tests_alarm_is_at_12[offsetof(struct rbg_tests, alarm) == 12 ? 1 : -1];
typedef char rbg_tests_window_is_at_16[offsetof(struct rbg_tests, window) == 16 ? 1 : -1];
typedef char rbg_tests_last_is_at_22[offsetof(struct rbg_tests, last) == 22 ? 1 : -1];

/* Begins the tests. A run of rct equal samples alarms (4.4.1), and so do apt samples of a window that equal its first, which counts
 * among them (4.4.2). rct is at least 2; apt is 2 to the window, which is 512 for samples of several values and 1024 for binary ones.
 *
 * RBG_BAD_RCT, RBG_BAD_WINDOW, RBG_BAD_APT. */
uint32_t rbg_tests_begin(struct rbg_tests *tests, uint32_t rct, uint16_t window, uint16_t apt);

/* Takes one sample more (4.4.1, 4.4.2). RBG_REPETITION or RBG_PROPORTION at the very sample that reaches a cutoff, repetition where both
 * do; the alarm is kept, all other numbers stay as they were before the sample, and the tests are to be begun anew.
 *
 * RBG_BAD_TESTS, RBG_ALARMED. */
uint32_t rbg_tests_step(struct rbg_tests *tests, uint8_t sample);

/* Takes samples in a row, up to the first that alarms, whose place among them, counted from 0, is written to at. Without an alarm at is
 * left as it was. After one the alarm is kept, and all other numbers stay as they were before the call: they count none of its samples.
 *
 * RBG_BAD_TESTS, RBG_ALARMED. */
uint32_t rbg_tests_step_all(struct rbg_tests *tests, const uint8_t *samples, size_t samples_len, size_t *at);

/* Writes the cutoff of the repetition count test, 1 + ceil(a / H), for a false alarm once in 2^a samples of H = num / den bits of
 * min-entropy each (4.4.1): a from 1 to 64, num from 1 to 8000, den from 1 to 1000.
 *
 * RBG_BAD_RATE. */
uint32_t rbg_rct_cutoff(uint32_t a, uint32_t num, uint32_t den, uint32_t *cutoff);

#ifdef __cplusplus
}
#endif

#endif
