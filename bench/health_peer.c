/* The peer of bench/health: both continuous health tests of SP 800-90B 4.4 over pseudo-random samples.
 *
 *   health_peer plain SAMPLES TIMES   the tests in a structure, with a function that takes one sample, as they are mostly written
 *   health_peer local SAMPLES TIMES   the tests' numbers in local variables of one loop, and the cutoffs as constants
 *   health_peer usual SAMPLES TIMES   the same, with three comparisons for the usual sample before anything else
 *
 * Each form is a function that is called, as ours are. All do the work of rbg_bench's health tests, with the same
 * line on standard output.
 */
#include <stdint.h>
#include <stdio.h>
#include <stdlib.h>
#include <string.h>

enum { RCT = 5, WINDOW = 512, APT = 8 };

enum answer { QUIET, REPETITION, PROPORTION };

struct tests {
    uint32_t rct, window, apt;
    uint32_t run, place, equal;
    uint8_t last, first;
};

static enum answer step(struct tests *t, uint8_t sample)
{
    if (sample == t->last)
        t->run++;
    else
        t->run = 1;
    t->last = sample;
    if (t->place == 0) {
        t->first = sample;
        t->equal = 1;
    } else if (sample == t->first) {
        t->equal++;
    }
    if (++t->place == t->window)
        t->place = 0;
    if (t->run >= t->rct)
        return REPETITION;
    if (t->equal >= t->apt)
        return PROPORTION;
    return QUIET;
}

/* How many samples are tested up to the first alarm, and whether there is one. */
__attribute__((noinline)) static size_t run_plain(const uint8_t *samples, size_t len, int *alarmed)
{
    struct tests tests = {RCT, WINDOW, APT, 0, 0, 0, 0, 0};
    for (size_t i = 0; i < len; i++) {
        if (step(&tests, samples[i]) != QUIET) {
            *alarmed = 1;
            return i + 1;
        }
    }
    return len;
}

__attribute__((noinline)) static size_t run_local(const uint8_t *samples, size_t len, int *alarmed)
{
    uint32_t run = 0, place = 0, equal = 0;
    uint8_t last = 0, first = 0;
    for (size_t i = 0; i < len; i++) {
        uint8_t sample = samples[i];
        if (sample != last) {
            run = 1;
        } else if (++run >= RCT) {
            *alarmed = 1;
            return i + 1;
        }
        last = sample;
        if (place == 0) {
            first = sample;
            equal = 1;
        } else if (sample == first && ++equal >= APT) {
            *alarmed = 1;
            return i + 1;
        }
        if (++place == WINDOW)
            place = 0;
    }
    return len;
}

__attribute__((noinline)) static size_t run_usual(const uint8_t *samples, size_t len, int *alarmed)
{
    uint32_t run = 0, place = 0, equal = 0;
    uint8_t last = 0, first = 0;
    for (size_t i = 0; i < len; i++) {
        uint8_t sample = samples[i];
        if (sample != last && sample != first && place - 1 < WINDOW - 2) {
            run = 1;
            last = sample;
            place++;
            continue;
        }
        run = sample == last ? run + 1 : 1;
        last = sample;
        if (place == 0) {
            first = sample;
            equal = 1;
        } else if (sample == first) {
            equal++;
        }
        if (++place == WINDOW)
            place = 0;
        if (run >= RCT || equal >= APT) {
            *alarmed = 1;
            return i + 1;
        }
    }
    return len;
}

enum form { PLAIN, LOCAL, USUAL, NO_FORM };

static enum form form_named(const char *name)
{
    if (strcmp(name, "plain") == 0)
        return PLAIN;
    if (strcmp(name, "local") == 0)
        return LOCAL;
    return strcmp(name, "usual") == 0 ? USUAL : NO_FORM;
}

static void fill(uint8_t *samples, size_t len)
{
    uint64_t state = 0;
    for (size_t i = 0; i < len; i++) {
        state = state * 6364136223846793005u + 1442695040888963407u;
        samples[i] = state >> 56;
    }
}

int main(int argc, char **argv)
{
    enum form form = argc == 4 ? form_named(argv[1]) : NO_FORM;
    long len = argc == 4 ? atol(argv[2]) : 0, times = argc == 4 ? atol(argv[3]) : 0;
    uint8_t *samples = len > 0 ? malloc(len) : NULL;
    if (samples == NULL || times < 1 || form == NO_FORM) {
        fprintf(stderr, "usage: health_peer plain|local|usual SAMPLES TIMES\n");
        return 1;
    }
    unsigned long long tested = 0, alarms = 0;
    fill(samples, len);
    for (long i = 0; i < times; i++) {
        int alarmed = 0;
        samples[0] = i;
        if (form == PLAIN)
            tested += run_plain(samples, len, &alarmed);
        else if (form == LOCAL)
            tested += run_local(samples, len, &alarmed);
        else
            tested += run_usual(samples, len, &alarmed);
        alarms += alarmed;
    }
    printf("%llu samples, %llu alarms\n", tested, alarms);
    return 0;
}
