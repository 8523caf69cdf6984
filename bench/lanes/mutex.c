/* The same steps under a pthread_mutex: THREADS TURNS STEPS. */
#include <pthread.h>
#include <stdint.h>
#include <stdio.h>
#include <stdlib.h>
#include <time.h>

enum { MOST_THREADS = 64 };

static pthread_mutex_t lock = PTHREAD_MUTEX_INITIALIZER;
static uint64_t at = 88172645463325252u;
static uint64_t turns, steps;

/* Not inlined and not unrolled into one turn, so that each turn does its own work. */
static __attribute__((noinline)) uint64_t advanced(uint64_t seed) {
    for (uint64_t i = 0; i < steps; i++) {
        seed ^= seed << 13;
        seed ^= seed >> 7;
        seed ^= seed << 17;
    }
    return seed;
}

static void *take(void *nothing) {
    for (uint64_t i = 0; i < turns; i++) {
        pthread_mutex_lock(&lock);
        at = advanced(at);
        pthread_mutex_unlock(&lock);
    }
    return nothing;
}

int main(int count, char **words) {
    if (count != 4) return 1;
    int threads = atoi(words[1]);
    if (threads < 1 || threads > MOST_THREADS) return 1;
    turns = strtoull(words[2], 0, 10);
    steps = strtoull(words[3], 0, 10);
    pthread_t others[MOST_THREADS];
    struct timespec begun, ended;
    clock_gettime(CLOCK_MONOTONIC, &begun);
    for (int i = 1; i < threads; i++) {
        if (pthread_create(&others[i], 0, take, 0)) return 1;
    }
    take(0);
    for (int i = 1; i < threads; i++) pthread_join(others[i], 0);
    clock_gettime(CLOCK_MONOTONIC, &ended);
    long long nanos = (ended.tv_sec - begun.tv_sec) * 1000000000ll + ended.tv_nsec - begun.tv_nsec;
    printf("%llu %lld %llu\n", (unsigned long long)(threads * turns), nanos, (unsigned long long)at);
    return 0;
}
