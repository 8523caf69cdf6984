/* The same image, descents and scans in C. The pages are in memory, and each page that is read is copied into one buffer. */
#include <stdint.h>
#include <stdio.h>
#include <stdlib.h>
#include <string.h>
#include <time.h>

enum { PAGE = 4096, HEADER = 8, LEAF_ROWS = 52, LEAF_WIDTH = 78, CHILDREN = 340, CHILD_WIDTH = 12, ROWS = 100000 };

static uint8_t (*pages)[PAGE];
static uint32_t size[4], start[4];
static int root;

static uint64_t be64(const uint8_t *p) { uint64_t x; memcpy(&x, p, 8); return __builtin_bswap64(x); }
static uint32_t be32(const uint8_t *p) { uint32_t x; memcpy(&x, p, 4); return __builtin_bswap32(x); }
static void put64(uint8_t *p, uint64_t x) { x = __builtin_bswap64(x); memcpy(p, &x, 8); }
static void put32(uint8_t *p, uint32_t x) { x = __builtin_bswap32(x); memcpy(p, &x, 4); }

static int width_at(int level) { return level ? CHILD_WIDTH : LEAF_WIDTH; }
static uint32_t most_at(int level) { return level ? CHILDREN : LEAF_ROWS; }

static void load(uint8_t *page, int level, uint32_t at, uint64_t span) {
    uint32_t total = level ? size[level - 1] : ROWS, from = at * most_at(level);
    uint32_t to = from + most_at(level) < total ? from + most_at(level) : total;
    page[0] = level ? 2 : 1;
    page[1] = level;
    page[2] = (to - from) / 256;
    page[3] = (to - from) % 256;
    for (uint32_t i = from; i < to; i++) {
        uint8_t *row = page + HEADER + (i - from) * width_at(level);
        put64(row, i * span * 3 + 1);
        if (level) put32(row + 8, start[level - 1] + i);
    }
}

static void image(void) {
    size[0] = (ROWS + LEAF_ROWS - 1) / LEAF_ROWS;
    for (root = 0; size[root] > 1; root++) {
        size[root + 1] = (size[root] + CHILDREN - 1) / CHILDREN;
        start[root + 1] = start[root] + size[root];
    }
    pages = calloc(start[root] + 1, PAGE);
    uint64_t span = 1;
    for (int level = 0; level <= root; level++) {
        for (uint32_t at = 0; at < size[level]; at++) load(pages[start[level] + at], level, at, span);
        span *= most_at(level);
    }
}

/* The rows of a page, or -1 where its header is none of that level. */
static int count_of(const uint8_t *page, int level) {
    uint32_t zero;
    memcpy(&zero, page + 4, 4);
    int count = page[2] * 256 + page[3];
    int fits = page[0] == (level ? 2 : 1) && page[1] == level && zero == 0 && count <= (int)most_at(level);
    return fits && (count > 0 || level == 0) ? count : -1;
}

static uint64_t key_of(const uint8_t *page, int width, int i) { return be64(page + HEADER + i * width); }

static int last_up_to(const uint8_t *page, int count, int width, uint64_t key) {
    int low = 0, high = count;
    while (high - low > 1) {
        int middle = low + (high - low) / 2;
        if (key_of(page, width, middle) <= key) low = middle; else high = middle;
    }
    return low;
}

static int rows_up_to(const uint8_t *page, int count, int width, uint64_t key) {
    if (count == 0) return 0;
    int i = last_up_to(page, count, width, key);
    return key_of(page, width, i) <= key ? i + 1 : i;
}

static int rows_before(const uint8_t *page, int count, int width, uint64_t key) {
    if (count == 0) return 0;
    int i = last_up_to(page, count, width, key);
    return key_of(page, width, i) < key ? i + 1 : i;
}

static int find(uint64_t key, uint64_t *row) {
    uint8_t buf[PAGE];
    uint32_t at = start[root];
    for (int level = root; level > 0; level--) {
        memcpy(buf, pages[at], PAGE);
        int count = count_of(buf, level);
        if (count < 0) return 0;
        at = be32(buf + HEADER + last_up_to(buf, count, CHILD_WIDTH, key) * CHILD_WIDTH + 8);
        if (at < start[level - 1] || at - start[level - 1] >= size[level - 1]) return 0;
    }
    memcpy(buf, pages[at], PAGE);
    int count = count_of(buf, 0);
    if (count <= 0) return 0;
    int i = last_up_to(buf, count, LEAF_WIDTH, key);
    *row = key_of(buf, LEAF_WIDTH, i);
    return *row == key && buf[HEADER + i * LEAF_WIDTH + 8] == 0;
}

struct range { uint64_t low, high; };
struct run { uint64_t first, end; };
struct hand { uint8_t buf[PAGE]; uint64_t next; int count; };

static uint64_t *out;
static size_t out_len, out_room;

static void push(uint64_t x) {
    if (out_len == out_room) out = realloc(out, (out_room = out_room ? 2 * out_room : 16) * 8);
    out[out_len++] = x;
}

static int reach(struct hand *hand, int level, uint64_t at) {
    if (hand->next > at) return 1;
    memcpy(hand->buf, pages[start[level] + at], PAGE);
    hand->count = count_of(hand->buf, level);
    hand->next = at + 1;
    return hand->count >= 0;
}

static int narrow(struct hand *hand, int level, struct range range, struct run *run) {
    struct run old = *run;
    *run = (struct run){0, 0};
    for (uint64_t at = old.first; at < old.end; at++) {
        if (!reach(hand, level, at)) return 0;
        if (at == old.first) run->first = at * CHILDREN + last_up_to(hand->buf, hand->count, CHILD_WIDTH, range.low);
        if (at + 1 == old.end) run->end = at * CHILDREN + rows_up_to(hand->buf, hand->count, CHILD_WIDTH, range.high);
    }
    if (run->end > size[level - 1]) run->end = size[level - 1];
    return 1;
}

static int gather(struct hand *hand, struct range range, struct run run) {
    for (uint64_t at = run.first; at < run.end; at++) {
        if (!reach(hand, 0, at)) return 0;
        int from = at == run.first ? rows_before(hand->buf, hand->count, LEAF_WIDTH, range.low) : 0;
        int to = at + 1 == run.end ? rows_up_to(hand->buf, hand->count, LEAF_WIDTH, range.high) : hand->count;
        for (int i = from; i < to; i++) {
            if (hand->buf[HEADER + i * LEAF_WIDTH + 8]) return 0;
            push(key_of(hand->buf, LEAF_WIDTH, i));
        }
    }
    return 1;
}

static int scan(const struct range *ranges, int count) {
    struct hand hand;
    struct run *runs = malloc(count * sizeof *runs);
    int good = 1;
    for (int i = 0; i < count; i++) runs[i] = (struct run){0, 1};
    for (int level = root; level > 0; level--) {
        hand.next = 0;
        for (int i = 0; good && i < count; i++) good = narrow(&hand, level, ranges[i], &runs[i]);
    }
    hand.next = 0;
    for (int i = 0; good && i < count; i++) good = gather(&hand, ranges[i], runs[i]);
    free(runs);
    return good;
}

static uint64_t following(uint64_t seed) { seed ^= seed << 13; seed ^= seed >> 7; return seed ^ (seed << 17); }

static uint64_t now(void) {
    struct timespec t;
    clock_gettime(CLOCK_MONOTONIC, &t);
    return t.tv_sec * 1000000000ull + t.tv_nsec;
}

static void told(const char *name, int count, uint64_t begin, uint64_t sum) {
    printf("%s %d %llu %llu\n", name, count, (unsigned long long)(now() - begin), (unsigned long long)sum);
}

static void finds(int count) {
    uint64_t seed = 88172645463325252ull, sum = 0, begin = now(), row;
    for (int i = 0; i < count; i++) {
        seed = following(seed);
        if (find(seed % 300000, &row)) sum += row;
    }
    told("find", count, begin, sum);
}

static void scans(const char *name, int parts, uint64_t wide, int count) {
    uint64_t seed = 88172645463325252ull, sum = 0, begin = now();
    struct range *ranges = malloc(parts * sizeof *ranges);
    for (int c = 0; c < count; c++) {
        seed = following(seed);
        for (int i = 0; i < parts; i++) {
            uint64_t low = seed % 290000 + i * wide * 2;
            ranges[i] = (struct range){low, low + wide - 1};
        }
        out_len = 0;
        if (scan(ranges, parts)) for (size_t i = 0; i < out_len; i++) sum += out[i];
    }
    free(ranges);
    told(name, count, begin, sum);
}

int main(void) {
    image();
    finds(1000000);
    scans("scan-1", 1, 3000, 20000);
    scans("scan-50", 50, 60, 20000);
}
