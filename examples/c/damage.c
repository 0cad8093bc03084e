/* Calls the library on damaged input, for a build under the address and undefined-behaviour sanitizers: random runs,
 * lengths 0, odd lengths, frames cut at every byte. Each buffer is allocated at its exact length, so that a step past
 * its end is seen, and what a refusal must leave alone is compared. */
#include "reconcile.h"

#include <stdio.h>
#include <stdlib.h>
#include <string.h>

static uint64_t state = 88172645463325252ull;

static uint32_t draw(uint32_t below) {
    state ^= state << 13;
    state ^= state >> 7;
    state ^= state << 17;
    return (uint32_t)(state >> 32) % below;
}

static uint8_t *exact(const uint8_t *bytes, size_t length) {
    uint8_t *copy = malloc(length ? length : 1);
    if (!copy)
        abort();
    if (length)
        memcpy(copy, bytes, length);
    return copy;
}

/* A run of numbers that is often nearly right. */
static uint8_t *random_run(const uint8_t *good, size_t good_length, size_t *length) {
    size_t size = draw(4) ? good_length : draw(40);
    uint8_t *run = malloc(size ? size : 1);
    if (!run)
        abort();
    for (size_t i = 0; i < size; i++)
        run[i] = i < good_length && draw(30) ? good[i] : (uint8_t)draw(256);
    *length = size;
    return run;
}

static void try_matrix(void) {
    static const uint8_t positions[] = {0, 0, 0, 1, 0, 3, 0, 1, 0, 2, 0, 4, 0, 0, 0, 2, 0, 5};
    static const uint8_t ends[] = {0, 3, 0, 6, 0, 9};
    size_t positions_length, ends_length, key_length = draw(3) ? 6 : draw(9), out_length = draw(6);
    uint8_t *p = random_run(positions, sizeof positions, &positions_length);
    uint8_t *e = random_run(ends, sizeof ends, &ends_length);
    uint8_t *key = malloc(key_length + 1), *out = malloc(out_length + 1), *before;
    if (!key || !out)
        abort();
    for (size_t i = 0; i < key_length; i++)
        key[i] = (uint8_t)draw(draw(8) ? 2 : 256);
    memset(out, 7, out_length + 1);
    before = exact(out, out_length);
    size_t n = draw(8) ? 6 : draw(2100), m = draw(8) ? 3 : draw(1100);
    struct reconcile_reply admitted = reconcile_admit_matrix(n, m, p, positions_length, e, ends_length);
    struct reconcile_reply written =
        reconcile_syndrome(n, m, p, positions_length, e, ends_length, key, key_length, out, out_length);
    if (admitted.number != 0 && (written.number != admitted.number || written.place != admitted.place))
        abort();
    size_t kept = written.number ? 0 : m;
    if (memcmp(out + kept, before + kept, out_length - kept) != 0)
        abort();
    free(p);
    free(e);
    free(key);
    free(out);
    free(before);
}

static void try_frame(void) {
    static const uint8_t good[] = {2, 0, 0, 0, 0, 7, 0, 1, 0x10, 0x80};
    uint8_t bytes[12];
    size_t length = draw(3) ? sizeof good : draw(sizeof bytes + 1);
    for (size_t i = 0; i < length; i++)
        bytes[i] = i < sizeof good && draw(12) ? good[i] : (uint8_t)draw(256);
    for (size_t cut = 0; cut <= length; cut++) {
        uint8_t *part = exact(bytes, cut);
        struct reconcile_frame frame = reconcile_read_frame(draw(9) ? 6 : draw(2100), draw(9) ? 3 : draw(1100), part, cut);
        if (frame.number == 0 && (frame.first_at != 8 || frame.first_at + (frame.first_bits + 7) / 8 > cut))
            abort();
        if (frame.number == 13 && frame.place > cut)
            abort();
        free(part);
    }
}

int main(void) {
    if (reconcile_admit_matrix(0, 0, NULL, 0, NULL, 0).number != 1 || reconcile_read_frame(6, 3, NULL, 0).number != 13)
        abort();
    for (int round = 0; round < 20000; round++) {
        try_matrix();
        try_frame();
    }
    puts("damaged input: every call returned, within its buffers");
    return 0;
}
