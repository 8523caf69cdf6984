/* The bare device calls of so many durable puts, on a file that is there: bare FILE PUTS */
#define _GNU_SOURCE
#include <fcntl.h>
#include <stdint.h>
#include <stdio.h>
#include <stdlib.h>
#include <string.h>
#include <unistd.h>

#define FIRST_RECORD (36864 + 64)
#define RECORD 96
#define GATE_OPEN 165

static void must(int good) {
    if (!good) {
        perror("bare");
        exit(1);
    }
}

/* A record behind its gate and the closed gate after it, a sync, the open gate, and a sync. */
static void put(int file, uint64_t number) {
    uint8_t record[RECORD] = {1, 0, 1}, gate = GATE_OPEN;
    off_t at = FIRST_RECORD + RECORD * (off_t)number;
    memcpy(record + 3, &number, sizeof number);
    must(pwrite(file, record, RECORD, at + 1) == RECORD);
    must(fdatasync(file) == 0);
    must(pwrite(file, &gate, 1, at) == 1);
    must(fdatasync(file) == 0);
}

int main(int count, char **words) {
    if (count != 3) {
        fprintf(stderr, "bare FILE PUTS\n");
        return 1;
    }
    int file = open(words[1], O_RDWR);
    must(file >= 0);
    must(fsync(file) == 0);
    uint64_t puts = strtoull(words[2], NULL, 10);
    for (uint64_t number = 0; number < puts; number++) {
        put(file, number);
    }
    return 0;
}
