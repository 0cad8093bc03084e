// Times the proved propagation and the same algorithm in C, alternately, on the matrix of data/ieee80211n-1944-rate12.txt.
#include <math.h>
#include <stdbool.h>
#include <stdint.h>
#include <stdio.h>
#include <stdlib.h>
#include <string.h>
#include <time.h>

enum { Z = 81, ROWS = 12, COLUMNS = 24, N = Z * COLUMNS, M = Z * ROWS, MOST_ENTRIES = 8192 };

bool propagate_by_offset(size_t n, size_t m, const uint16_t *positions, size_t entries, const uint16_t *ends,
    size_t checks, const uint8_t *difference, size_t differences, uint8_t q, uint8_t limit, uint32_t times,
    uint8_t *pattern, size_t patterns, uint32_t *confidence, size_t confidences, int32_t *work, size_t words);
bool propagate_by_tables(size_t n, size_t m, const uint16_t *positions, size_t entries, const uint16_t *ends,
    size_t checks, const uint16_t *f2a, size_t magnitudes, const uint16_t *a2f, size_t sums, const uint16_t *raw,
    size_t classes, const uint8_t *difference, size_t differences, uint8_t q, uint8_t limit, uint32_t times,
    uint8_t *pattern, size_t patterns, uint32_t *confidence, size_t confidences, int32_t *work, size_t words);

static uint16_t positions[MOST_ENTRIES], ends[M];
static size_t entries;

static const uint16_t raw[12] = { 37, 31, 28, 25, 24, 22, 21, 20, 19, 18, 17, 16 };
enum { MF = 96, MA = 4095 };
static uint16_t f2a[MF], a2f[MA];

// ---- the same algorithm in C

static inline int32_t least_of(int32_t a, int32_t b) { return a < b ? a : b; }
static inline int32_t most_of(int32_t a, int32_t b) { return a < b ? b : a; }

static inline int32_t hear(const int32_t *totals, uint16_t p, int32_t sent, int32_t k)
{
    return most_of(-k, least_of(k, totals[p] - sent));
}

static void send_by_offset(const int32_t *restrict totals, const uint16_t *restrict check, size_t degree, uint32_t bit, int32_t *restrict sent)
{
    int32_t least = 800, next = 800;
    uint32_t negatives = bit;
    for (size_t i = 0; i < degree; i++) {
        int32_t x = hear(totals, check[i], sent[i], 800);
        int32_t size = abs(x);
        next = least_of(next, most_of(least, size));
        least = least_of(least, size);
        negatives += x < 0;
        sent[i] = x;
    }
    int32_t to_larger = most_of(least - 4, 0), to_least = most_of(next - 4, 0);
    for (size_t i = 0; i < degree; i++) {
        int32_t size = least < abs(sent[i]) ? to_larger : to_least;
        sent[i] = (negatives - (sent[i] < 0)) % 2 ? -size : size;
    }
}

static void send_by_tables(const int32_t *restrict totals, const uint16_t *restrict check, size_t degree, uint32_t bit, int32_t *restrict sent)
{
    uint32_t zeros = 0, sum = 0, negatives = bit;
    for (size_t i = 0; i < degree; i++) {
        int32_t x = hear(totals, check[i], sent[i], MF);
        uint32_t size = abs(x);
        zeros += size == 0;
        sum += size == 0 ? 0 : f2a[size - 1];
        negatives += x < 0;
        sent[i] = x;
    }
    for (size_t i = 0; i < degree; i++) {
        uint32_t size = abs(sent[i]);
        int32_t out = 0;
        if (zeros <= (size == 0)) {
            uint32_t rest = sum - (size == 0 ? 0 : f2a[size - 1]);
            out = rest == 0 ? MF : a2f[(rest < MA ? rest : MA) - 1];
        }
        sent[i] = (negatives - (sent[i] < 0)) % 2 ? -out : out;
    }
}

static bool fits(const uint8_t *difference, const int32_t *totals)
{
    size_t start = 0;
    for (size_t k = 0; k < M; k++) {
        uint32_t sum = 0;
        for (size_t j = start; j < ends[k]; j++)
            sum += totals[positions[j]] < 0;
        if (sum % 2 != difference[k])
            return false;
        start = ends[k];
    }
    return true;
}

enum { RAW, PUNCTURED, KNOWN_0, KNOWN_1 };
static uint8_t states[N];

static bool known_fit(const int32_t *totals)
{
    for (size_t i = 0; i < N; i++)
        if (states[i] >= KNOWN_0 && (totals[i] < 0) != (states[i] == KNOWN_1))
            return false;
    return true;
}

// Tells how many iterations were done.
static inline unsigned propagate(bool by_tables, const uint8_t *difference, int32_t belief, unsigned limit, uint8_t *pattern, uint32_t *confidence, int32_t *work)
{
    int32_t *totals = work, *sent = work + N;
    const int32_t k = by_tables ? MF : 800, priors[4] = { belief, 0, k, -k };
    for (size_t i = 0; i < N; i++)
        totals[i] = priors[states[i]];
    for (size_t j = 0; j < entries; j++)
        sent[j] = 0;
    unsigned done = 0;
    while (done < limit) {
        size_t start = 0;
        for (size_t k = 0; k < M; k++) {
            if (by_tables)
                send_by_tables(totals, positions + start, ends[k] - start, difference[k], sent + start);
            else
                send_by_offset(totals, positions + start, ends[k] - start, difference[k], sent + start);
            start = ends[k];
        }
        for (size_t i = 0; i < N; i++)
            totals[i] = priors[states[i]];
        for (size_t j = 0; j < entries; j++)
            totals[positions[j]] += sent[j];
        done++;
        if (fits(difference, totals) && known_fit(totals))
            break;
    }
    for (size_t i = 0; i < N; i++) {
        pattern[i] = totals[i] < 0;
        confidence[i] = abs(totals[i]);
    }
    return done;
}

__attribute__((noinline)) static unsigned c_offset(const uint8_t *d, unsigned q, unsigned limit, uint8_t *p, uint32_t *c, int32_t *w)
{
    return propagate(false, d, raw[q - 1], limit, p, c, w);
}

__attribute__((noinline)) static unsigned c_tables(const uint8_t *d, unsigned q, unsigned limit, uint8_t *p, uint32_t *c, int32_t *w)
{
    return propagate(true, d, raw[q - 1], limit, p, c, w);
}

// ---- the proved propagation

static bool proved(bool by_tables, const uint8_t *d, unsigned q, unsigned limit, uint32_t times, uint8_t *p, uint32_t *c, int32_t *w)
{
    if (by_tables)
        return propagate_by_tables(N, M, positions, entries, ends, M, f2a, MF, a2f, MA, raw, 12, d, M, q, limit, times, p, N, c, N, w, N + entries);
    return propagate_by_offset(N, M, positions, entries, ends, M, d, M, q, limit, times, p, N, c, N, w, N + entries);
}

// ---- the driver

static void stop(const char *why)
{
    fprintf(stderr, "%s\n", why);
    exit(1);
}

static void read_matrix(const char *path)
{
    int shift[ROWS][COLUMNS];
    char line[1024];
    FILE *in = fopen(path, "r");
    if (!in)
        stop("the shift table is not there");
    int row = 0;
    while (row < ROWS && fgets(line, sizeof line, in)) {
        if (line[0] == '#')
            continue;
        char *word = strtok(line, " \n");
        for (int column = 0; column < COLUMNS; column++, word = strtok(NULL, " \n")) {
            if (!word)
                stop("a row of the shift table is short");
            shift[row][column] = word[0] == '-' ? -1 : atoi(word);
        }
        row++;
    }
    fclose(in);
    for (int r = 0; r < ROWS; r++)
        for (int i = 0; i < Z; i++) {
            for (int c = 0; c < COLUMNS; c++)
                if (shift[r][c] >= 0)
                    positions[entries++] = Z * c + (i + shift[r][c]) % Z;
            ends[Z * r + i] = entries;
        }
}

static double phi(double x) { return -log(tanh(x / 2)); }

static void make_tables(void)
{
    for (int i = 1; i <= MF; i++)
        f2a[i - 1] = lround(1400 * phi(i / 8.0));
    for (int i = 1; i <= MA; i++)
        a2f[i - 1] = lround(8 * phi(i / 1400.0));
}

static uint64_t state = 88172645463325252u;
static uint64_t next_random(void)
{
    state ^= state << 13;
    state ^= state >> 7;
    state ^= state << 17;
    return state;
}

// The difference bits of errors that strike each position with this many parts in a thousand.
static void strike(unsigned thousandths, uint8_t *difference)
{
    static uint8_t error[N];
    for (size_t i = 0; i < N; i++)
        error[i] = next_random() % 1000 < thousandths;
    size_t j = 0;
    for (size_t k = 0; k < M; k++) {
        difference[k] = 0;
        for (; j < ends[k]; j++)
            difference[k] ^= error[positions[j]];
    }
}

static double seconds(void)
{
    struct timespec t;
    clock_gettime(CLOCK_MONOTONIC, &t);
    return t.tv_sec + t.tv_nsec / 1e9;
}

static uint8_t difference[M], pattern[2][N];
static uint32_t confidence[2][N];
static int32_t work[N + MOST_ENTRIES];

// Both give the same answers.
static void compare(bool by_tables)
{
    unsigned settled = 0;
    for (int trial = 0; trial < 200; trial++) {
        strike(10 + trial, difference);
        unsigned limit = 1 + trial % 50, q = 1 + trial % 12;
        unsigned done = (by_tables ? c_tables : c_offset)(difference, q, limit, pattern[0], confidence[0], work);
        settled += done < limit;
        if (!proved(by_tables, difference, q, limit, 1, pattern[1], confidence[1], work))
            stop("the proved propagation refused");
        if (memcmp(pattern[0], pattern[1], sizeof pattern[0]) || memcmp(confidence[0], confidence[1], sizeof confidence[0]))
            stop("the answers differ");
    }
    printf("%s: 200 questions answered alike, %u of them settled early\n", by_tables ? "tables" : "offset", settled);
}

static void race(bool by_tables, int turns)
{
    enum { LIMIT = 50, TIMES = 20 };
    double best[2] = { 1e9, 1e9 };
    strike(300, difference);
    for (int turn = 0; turn < turns; turn++) {
        double start = seconds();
        for (int i = 0; i < TIMES; i++)
            if ((by_tables ? c_tables : c_offset)(difference, 5, LIMIT, pattern[0], confidence[0], work) != LIMIT)
                stop("the question settled");
        double middle = seconds();
        if (!proved(by_tables, difference, 5, LIMIT, TIMES, pattern[1], confidence[1], work))
            stop("the proved propagation refused");
        double end = seconds();
        if (middle - start < best[0])
            best[0] = middle - start;
        if (end - middle < best[1])
            best[1] = end - middle;
    }
    double each = 1e9 / ((double)TIMES * LIMIT * entries);
    printf("%s: C %.3f ns, proved %.3f ns for each entry and iteration, ratio %.3f\n", by_tables ? "tables" : "offset", best[0] * each, best[1] * each, best[1] / best[0]);
}

int main(int count, char **words)
{
    if (count < 2)
        stop("usage: bench SHIFTS [TURNS]");
    read_matrix(words[1]);
    make_tables();
    int turns = count > 2 ? atoi(words[2]) : 30;
    compare(false);
    compare(true);
    race(false, turns);
    race(true, turns);
    return 0;
}
