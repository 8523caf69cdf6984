/* The same filter in C: a line for each measure, as the program beside it prints. */
#include <stdint.h>
#include <stdio.h>
#include <stdlib.h>
#include <time.h>

#define CALLS 1000000u
#define PROBES 6
#define GAMMA 0x9E3779B97F4A7C15u

struct filter {
    uint8_t *bytes;
    uint64_t bits;
};

static uint64_t mix(uint64_t z) {
    z = (z ^ (z >> 30)) * 0xBF58476D1CE4E5B9u;
    z = (z ^ (z >> 27)) * 0x94D049BB133111EBu;
    return z ^ (z >> 31);
}

static struct filter build(const uint64_t *keys, uint64_t count) {
    uint64_t bits = (10 * count + 7) / 8 * 8;
    bits = bits < 64 ? 64 : bits;
    struct filter f = {calloc(bits / 8, 1), bits};
    if (!f.bytes) {
        exit(1);
    }
    for (uint64_t i = 0; i < count; i++) {
        uint64_t first = mix(keys[i] + GAMMA), step = mix(first + GAMMA) | 1;
        for (uint64_t j = 0; j < PROBES; j++) {
            uint64_t bit = (first + j * step) % bits;
            f.bytes[bit / 8] |= 1 << (bit % 8);
        }
    }
    return f;
}

static __attribute__((noinline)) int maybe(const struct filter *f, uint64_t key) {
    uint64_t first = mix(key + GAMMA), step = mix(first + GAMMA) | 1;
    for (uint64_t j = 0; j < PROBES; j++) {
        uint64_t bit = (first + j * step) % f->bits;
        if (!(f->bytes[bit / 8] >> (bit % 8) & 1)) {
            return 0;
        }
    }
    return 1;
}

static uint64_t answers(const struct filter *f, uint64_t first, uint64_t count) {
    uint64_t yes = 0, key = first, left = count;
    for (uint32_t i = 0; i < CALLS; i++) {
        yes += maybe(f, key);
        key += 2;
        if (--left == 0) {
            key = first, left = count;
        }
    }
    return yes;
}

static void measure(const char *name, uint64_t added, const struct filter *f, uint64_t first, uint64_t count) {
    struct timespec a, b;
    clock_gettime(CLOCK_MONOTONIC, &a);
    uint64_t yes = answers(f, first, count);
    clock_gettime(CLOCK_MONOTONIC, &b);
    long long nanos = (b.tv_sec - a.tv_sec) * 1000000000ll + (b.tv_nsec - a.tv_nsec);
    printf("%s-%llu %u %lld %llu\n", name, (unsigned long long)added, CALLS, nanos, (unsigned long long)yes);
}

int main(void) {
    static const uint64_t counts[] = {1000, 100000, 1000000};
    for (int n = 0; n < 3; n++) {
        uint64_t count = counts[n], *keys = malloc(count * sizeof *keys);
        if (!keys) {
            return 1;
        }
        for (uint64_t i = 0; i < count; i++) {
            keys[i] = 2 * i;
        }
        struct filter f = build(keys, count);
        measure("present", count, &f, 0, count);
        measure("absent", count, &f, 1, CALLS);
        free(f.bytes);
        free(keys);
    }
    return 0;
}
