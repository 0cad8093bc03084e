/* What a link controller does with the library: admit a matrix, publish a key's syndrome, read a frame. */
#include "reconcile.h"

#include <stdio.h>

int main(void) {
    /* checks {0,1,3}, {1,2,4}, {0,2,5} on six positions, each number as two bytes, highest first */
    const uint8_t positions[] = {0, 0, 0, 1, 0, 3, 0, 1, 0, 2, 0, 4, 0, 0, 0, 2, 0, 5};
    const uint8_t ends[] = {0, 3, 0, 6, 0, 9};
    const uint8_t key[] = {1, 0, 1, 1, 0, 0};
    uint8_t syndrome[4] = {7, 7, 7, 7};

    struct reconcile_reply reply = reconcile_admit_matrix(6, 3, positions, sizeof positions, ends, sizeof ends);
    printf("matrix: number %u place %zu\n", reply.number, reply.place);

    reply = reconcile_syndrome(6, 3, positions, sizeof positions, ends, sizeof ends, key, sizeof key, syndrome,
                               sizeof syndrome);
    printf("syndrome: number %u place %zu, buffer %d%d%d%d\n", reply.number, reply.place, syndrome[0], syndrome[1],
           syndrome[2], syndrome[3]);

    reply = reconcile_syndrome(6, 3, positions, sizeof positions, ends, sizeof ends, key, 5, syndrome,
                               sizeof syndrome);
    printf("short key: number %u place %zu\n", reply.number, reply.place);

    const uint8_t frame[] = {0x01, 0x00, 0x00, 0x00, 0x00, 0x07, 0x00, 0x00, 0x40};
    struct reconcile_frame read = reconcile_read_frame(6, 3, frame, sizeof frame);
    printf("frame: number %u kind %u side %u block %u round %u, %zu bits at byte %zu\n", read.number, read.kind,
           read.side, read.block, read.round, read.first_bits, read.first_at);

    read = reconcile_read_frame(6, 3, frame, sizeof frame - 1);
    printf("cut frame: number %u place %zu\n", read.number, read.place);
    return 0;
}
