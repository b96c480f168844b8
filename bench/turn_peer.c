/* The peer of bench/turns: one counter under a pthread mutex.
 *
 *   turn_peer TIMES   adds 1 to the counter TIMES times, each time with the mutex locked before and unlocked after
 *
 * A second thread stands by and does nothing: the C library takes and frees a mutex without atomic steps while a process has one
 * thread alone. The line on standard output is that of turn_bench 1 TIMES 0.
 */
#include <pthread.h>
#include <stdint.h>
#include <stdio.h>
#include <stdlib.h>
#include <unistd.h>

static pthread_mutex_t mutex = PTHREAD_MUTEX_INITIALIZER;
static volatile uint64_t counter;

static void *stand_by(void *unused)
{
    for (;;)
        pause();
    return unused;
}

int main(int argc, char **argv)
{
    pthread_t other;
    if (argc != 2 || pthread_create(&other, NULL, stand_by, NULL) != 0)
        return 1;
    uint64_t times = strtoull(argv[1], NULL, 10);
    for (uint64_t i = 0; i < times; i++) {
        pthread_mutex_lock(&mutex);
        counter = counter + 1;
        pthread_mutex_unlock(&mutex);
    }
    printf("%llu calls, %llu added\n", (unsigned long long)times, (unsigned long long)counter);
    return 0;
}
