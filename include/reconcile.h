/* The reconciliation library's functions for the link controller.
 *
 * Any numbers and any bytes may be handed in: a call that cannot be done is refused with a number and a place and
 * changes nothing. No function allocates, keeps anything, or calls back; each returns. A pointer must be valid for the
 * length that follows it (it may be null where that is 0), and `out` must not overlap what is handed in beside it.
 * The stack needs about 20 KiB.
 *
 * Build the library with `tools/c_library.sh controller` and link target/staticlib/libcontroller.a.
 * docs/controller.md has the refusals and the rules behind them. */
#ifndef RECONCILE_H
#define RECONCILE_H

#include <stddef.h>
#include <stdint.h>

#ifdef __cplusplus
extern "C" {
#endif

/* number 0: accepted. Otherwise the refusal's number and the place it tells, 0 where it tells none. */
struct reconcile_reply {
    uint32_t number;
    size_t place;
};

/* Whether two runs of 16-bit numbers, highest byte first, are a parity-check matrix of n positions and m checks:
 * `positions` check after check, `ends` with each check's end in that run.
 * Refused: 1 an odd run, or a size or the count of ends; 2 a check's end (the check); 3 an entry (the entry);
 * 4 a position in no check or in over 16 (the position). */
struct reconcile_reply reconcile_admit_matrix(size_t n, size_t m, const uint8_t *positions, size_t positions_length,
                                              const uint8_t *ends, size_t ends_length);

/* Writes the syndrome of a key, a bit to a byte, to the first m bytes of `out`; the rest of it stays.
 * Refused: what reconcile_admit_matrix refuses; then 9 a place of the key that is missing, extra, or neither 0 nor 1
 * (the position); then 12 `out` is short (the length needed). */
struct reconcile_reply reconcile_syndrome(size_t n, size_t m, const uint8_t *positions, size_t positions_length,
                                          const uint8_t *ends, size_t ends_length, const uint8_t *key,
                                          size_t key_length, uint8_t *out, size_t out_length);

/* What bytes are read as. number 0: a frame. `first` is the run of syndrome bits (kind 1) or the map of positions
 * (kind 2), `second` the values of a disclosure, empty for kind 1; each begins at byte `_at` of the bytes handed in and
 * has `_bits` bits, packed from the highest bit of a byte on. Otherwise the refusal's number and place, and zeros. */
struct reconcile_frame {
    uint32_t number;
    size_t place;
    uint8_t kind;
    uint8_t side;
    uint16_t round;
    uint32_t block;
    size_t first_at;
    size_t first_bits;
    size_t second_at;
    size_t second_bits;
};

/* Reads a frame of a matrix with n positions and m checks. Nothing is copied.
 * Refused: 1 n or m is outside its limits; 13 the first byte at fault from the left (the byte). */
struct reconcile_frame reconcile_read_frame(size_t n, size_t m, const uint8_t *bytes, size_t bytes_length);

#ifdef __cplusplus
}
#endif

#endif
