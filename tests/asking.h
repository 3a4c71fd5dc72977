/* How a test's program in C is asked and how it answers: numbers of eight bytes, low byte first, on standard input and output. A file is its
 * length, as such a number, and its bytes. */
#ifndef ASKING_H
#define ASKING_H

#include <stddef.h>
#include <stdint.h>
#include <stdio.h>
#include <stdlib.h>

static uint64_t ask(void) {
    uint64_t n = 0;
    for (int i = 0; i < 8; i++) {
        int byte = getchar();
        if (byte == EOF) exit(2);
        n |= (uint64_t)byte << (8 * i);
    }
    return n;
}

static void tell(uint64_t n) {
    for (int i = 0; i < 8; i++) putchar((int)(n >> (8 * i) & 255));
}

/* A file, which the caller frees. */
static uint8_t *ask_file(size_t *length) {
    *length = (size_t)ask();
    uint8_t *bytes = malloc(*length + 1);
    if (!bytes || fread(bytes, 1, *length, stdin) != *length) exit(2);
    return bytes;
}

#endif
