/* The same job as `spatial FILE PAGES serial` does for scripts of `region` lines on an empty store, written plainly: the script is read to its end,
 * then each region is answered over the empty table, and the answers are printed. Each rule of a line is tested. */
#include <stdio.h>
#include <stdlib.h>
#include <string.h>

struct command {
    unsigned short x1, y1, x2, y2;
};

static struct command *commands;
static size_t count, room;

static int is_blank(char c) { return c == ' ' || c == '\t'; }

/* The next word of [*at, end), or 0 where none is left. */
static size_t word(const char **at, const char *end, const char **start) {
    while (*at < end && is_blank(**at)) ++*at;
    *start = *at;
    while (*at < end && !is_blank(**at)) ++*at;
    return (size_t)(*at - *start);
}

static int coordinate(const char **at, const char *end, unsigned short *out) {
    const char *start;
    size_t len = word(at, end, &start);
    unsigned long long value = 0;
    if (len < 1 || len > 20) return 0;
    for (size_t i = 0; i < len; ++i) {
        if (start[i] < '0' || start[i] > '9') return 0;
        value = value * 10 + (unsigned)(start[i] - '0');
        if (value > 65535) return 0;
    }
    *out = (unsigned short)value;
    return 1;
}

/* 0 for a bad line. */
static int take(const char *line, size_t len) {
    const char *at = line, *start;
    if (len > 0 && line[len - 1] == '\r') --len;
    if (len > 200) return 0;
    const char *end = line + len;
    size_t n = word(&at, end, &start);
    if (n == 0 || *start == '#') return 1;
    if (n != 6 || memcmp(start, "region", 6) != 0) return 0;
    n = word(&at, end, &start);
    if (n != 4 || memcmp(start, "dhvb", 4) != 0) return 0;
    struct command c;
    if (!coordinate(&at, end, &c.x1) || !coordinate(&at, end, &c.y1) || !coordinate(&at, end, &c.x2) || !coordinate(&at, end, &c.y2)) return 0;
    if (c.x1 > c.x2 || c.y1 > c.y2 || word(&at, end, &start) != 0) return 0;
    if (count == room) {
        room = room ? room * 2 : 64;
        commands = realloc(commands, room * sizeof *commands);
        if (!commands) exit(8);
    }
    commands[count++] = c;
    return 1;
}

int main(void) {
    static char in[65536], out[65536];
    char *line = NULL;
    size_t size = 0;
    unsigned long number = 0;
    ssize_t len;
    setvbuf(stdin, in, _IOFBF, sizeof in);
    setvbuf(stdout, out, _IOFBF, sizeof out);
    while ((len = getline(&line, &size, stdin)) > 0) {
        ++number;
        if (line[len - 1] == '\n') --len;
        if (!take(line, (size_t)len)) {
            printf("line %lu: bad\n", number);
            return 2;
        }
    }
    for (size_t i = 0; i < count; ++i) printf("%zu 0 region 0\n", i);
    return fflush(stdout) == 0 ? 0 : 4;
}
