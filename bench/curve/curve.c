/* The same recursion in C: a line for each measure, as the program beside it prints. */
#include <stdint.h>
#include <stdio.h>
#include <stdlib.h>
#include <time.h>

#define VALUES 2000000u

static uint32_t value(uint16_t px, uint16_t py) {
    uint32_t x = px, y = py, total = 0;
    for (uint32_t level = 16; level-- > 0;) {
        uint32_t half = 1u << level, quadrant, t;
        if (x < half) {
            if (y < half) {
                quadrant = 0, t = x, x = y, y = t;
            } else {
                quadrant = 1, y -= half;
            }
        } else if (y < half) {
            quadrant = 3, t = x, x = half - 1 - y, y = 2 * half - 1 - t;
        } else {
            quadrant = 2, x -= half, y -= half;
        }
        total = 4 * total + quadrant;
    }
    return total;
}

struct range {
    uint32_t lo, hi;
};

struct ranges {
    struct range *at;
    size_t len, room;
};

static int add_run(struct ranges *r, uint32_t lo, uint32_t hi) {
    if (r->len > 0 && r->at[r->len - 1].hi + 1 == lo) {
        r->at[r->len - 1].hi = hi;
        return 0;
    }
    if (r->len == r->room) {
        size_t room = r->room ? 2 * r->room : 4;
        struct range *at = realloc(r->at, room * sizeof *at);
        if (!at) {
            return 1;
        }
        r->at = at, r->room = room;
    }
    r->at[r->len++] = (struct range){lo, hi};
    return 0;
}

/* A part of a square, by its least and greatest coordinates; empty where it is turned over. */
struct part {
    int32_t x1, y1, x2, y2;
};

static int32_t most(int32_t a, int32_t b) { return a > b ? a : b; }
static int32_t least(int32_t a, int32_t b) { return a < b ? a : b; }

static struct part in_quadrant(struct part p, int32_t half, uint32_t quadrant) {
    int32_t xl2 = least(p.x2, half - 1), yl2 = least(p.y2, half - 1);
    int32_t xu1 = most(p.x1 - half, 0), yu1 = most(p.y1 - half, 0);
    switch (quadrant) {
    case 0: return (struct part){p.y1, p.x1, yl2, xl2};
    case 1: return (struct part){p.x1, yu1, xl2, p.y2 - half};
    case 2: return (struct part){xu1, yu1, p.x2 - half, p.y2 - half};
    default: return (struct part){half - 1 - yl2, half - 1 - (p.x2 - half), half - 1 - p.y1, half - 1 - xu1};
    }
}

static int add_part(uint32_t order, uint32_t first, struct part p, struct ranges *r) {
    int32_t last = (int32_t)((1u << order) - 1);
    if (p.x1 == 0 && p.y1 == 0 && p.x2 == last && p.y2 == last) {
        return add_run(r, first, first + (uint32_t)((1ull << 2 * order) - 1));
    }
    uint32_t half = 1u << (order - 1);
    for (uint32_t quadrant = 0; quadrant < 4; quadrant++) {
        struct part inner = in_quadrant(p, (int32_t)half, quadrant);
        if (inner.x1 <= inner.x2 && inner.y1 <= inner.y2 && add_part(order - 1, first + quadrant * half * half, inner, r)) {
            return 1;
        }
    }
    return 0;
}

static int cover(uint16_t x1, uint16_t y1, uint16_t x2, uint16_t y2, struct ranges *r) {
    struct part p = {x1 / 256 * 256, y1 / 256 * 256, x2 / 256 * 256 + 255, y2 / 256 * 256 + 255};
    r->at = NULL, r->len = 0, r->room = 0;
    return add_part(16, 0, p, r);
}

static uint32_t next(uint32_t seed) {
    seed ^= seed << 13;
    seed ^= seed >> 17;
    return seed ^ seed << 5;
}

static uint32_t sum_of_values(uint32_t count) {
    uint32_t seed = 1, sum = 0;
    for (uint32_t i = 0; i < count; i++) {
        seed = next(seed);
        sum += value((uint16_t)(seed >> 16), (uint16_t)seed);
    }
    return sum;
}

static uint32_t sum_of_covers(uint32_t reach, uint32_t count) {
    uint32_t seed = 1, sum = 0;
    for (uint32_t i = 0; i < count; i++) {
        seed = next(seed);
        uint32_t limit = 65535 - reach, x = seed >> 16, y = seed & 65535;
        x = x < limit ? x : limit, y = y < limit ? y : limit;
        struct ranges r;
        if (cover((uint16_t)x, (uint16_t)y, (uint16_t)(x + reach), (uint16_t)(y + reach), &r)) {
            exit(1);
        }
        for (size_t k = 0; k < r.len; k++) {
            sum += r.at[k].lo ^ r.at[k].hi * 31;
        }
        free(r.at);
    }
    return sum;
}

static uint64_t now(void) {
    struct timespec t;
    clock_gettime(CLOCK_MONOTONIC, &t);
    return (uint64_t)t.tv_sec * 1000000000u + (uint64_t)t.tv_nsec;
}

int main(void) {
    static const struct {
        uint32_t reach, count;
    } rows[] = {{65535, 2000000}, {32767, 3000}, {6553, 15000}, {654, 200000}};
    uint64_t start = now();
    uint32_t sum = sum_of_values(VALUES);
    printf("value %u %llu %u\n", VALUES, (unsigned long long)(now() - start), sum);
    for (size_t i = 0; i < sizeof rows / sizeof *rows; i++) {
        start = now();
        sum = sum_of_covers(rows[i].reach, rows[i].count);
        printf("cover-%u %u %llu %u\n", rows[i].reach, rows[i].count, (unsigned long long)(now() - start), sum);
    }
    return 0;
}
