/* What the baselines share: the clock, and items of XDR, read with their bounds tested. */
#pragma once
#include <stdint.h>
#include <stddef.h>
#include <time.h>

static uint64_t now(void) {
    struct timespec t;
    clock_gettime(CLOCK_MONOTONIC, &t);
    return (uint64_t)t.tv_sec * 1000000000u + (uint64_t)t.tv_nsec;
}

struct input {
    const unsigned char *at;
    size_t left;
};

static int get(struct input *in, uint32_t *n) {
    if (in->left < 4)
        return 0;
    *n = (uint32_t)in->at[0] << 24 | (uint32_t)in->at[1] << 16 | (uint32_t)in->at[2] << 8 | in->at[3];
    in->at += 4;
    in->left -= 4;
    return 1;
}

static unsigned char *put(unsigned char *at, uint32_t n) {
    at[0] = n >> 24;
    at[1] = n >> 16;
    at[2] = n >> 8;
    at[3] = n;
    return at + 4;
}
