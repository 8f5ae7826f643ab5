// Times the proved rack calls against plain C for the same stages, and against copying the area. `run` builds and starts it.
#define _POSIX_C_SOURCE 199309L
#include <stddef.h>
#include <stdint.h>
#include <stdio.h>
#include <stdlib.h>
#include <string.h>
#include <time.h>

// crates/timing: what a user of the library gets. 0, or the number of a refusal.
uint8_t timing_apply(size_t task, size_t channels, size_t samples, int32_t *area, size_t length);
uint8_t timing_undo(size_t task, size_t channels, size_t samples, int32_t *area, size_t length);

enum { TIME, CHANNEL, RCT, DEP, TASKS };
enum { OUTSIDE = 10, FOREIGN = 11, LEAST = -8388608, GREATEST = 8388607, ROUNDS = 9 };

static const char *const names[TASKS] = { "5-3 along T", "5-3 along C", "RCT", "DEP, 7 rows" };
static const size_t needed[TASKS] = { 1, 1, 3, 8 };
static const int16_t taps[7] = { 1, -1, 2, -2, 3, -3, 1 };

// ---- The stages in plain C: int32_t samples, int64_t sums, floors by >>, mirrored ends.
// The direction is known when a stage is compiled, so that C has a loop of its own for apply and for undo.
#define EACH_WAY static inline __attribute__((always_inline))

EACH_WAY int32_t turn(int32_t x, int64_t q, int undo) { return (int32_t)(uint32_t)(undo ? x - q : x + q); }

EACH_WAY size_t mirror(ptrdiff_t j, size_t n) { return j < 0 ? -j : (size_t)j >= n ? 2 * (n - 1) - j : (size_t)j; }

EACH_WAY int64_t odd_part(int32_t a, int32_t b) { return (1 - (int64_t)a - b) >> 1; }

EACH_WAY int64_t even_part(int32_t a, int32_t b) { return ((int64_t)a + b + 2) >> 2; }

EACH_WAY void odd_step(int32_t *x, size_t n, int undo)
{
    for (size_t j = 1; j + 1 < n; j += 2)
        x[j] = turn(x[j], odd_part(x[j - 1], x[j + 1]), undo);
    if (n % 2 == 0)
        x[n - 1] = turn(x[n - 1], odd_part(x[n - 2], x[mirror(n, n)]), undo);
}

EACH_WAY void even_step(int32_t *x, size_t n, int undo)
{
    x[0] = turn(x[0], even_part(x[mirror(-1, n)], x[1]), undo);
    for (size_t j = 2; j + 1 < n; j += 2)
        x[j] = turn(x[j], even_part(x[j - 1], x[j + 1]), undo);
    if (n % 2 == 1)
        x[n - 1] = turn(x[n - 1], even_part(x[n - 2], x[mirror(n, n)]), undo);
}

EACH_WAY void time_stage(int32_t *area, size_t channels, size_t n, int undo)
{
    for (size_t c = 0; n >= 2 && c < channels; c++) {
        if (!undo)
            odd_step(area + c * n, n, undo);
        even_step(area + c * n, n, undo);
        if (undo)
            odd_step(area + c * n, n, undo);
    }
}

EACH_WAY void channel_step(int32_t *area, size_t channels, size_t n, size_t parity, int undo)
{
    for (size_t c = parity; c < channels; c += 2) {
        int32_t *x = area + c * n;
        const int32_t *a = area + mirror((ptrdiff_t)c - 1, channels) * n;
        const int32_t *b = area + mirror((ptrdiff_t)c + 1, channels) * n;
        for (size_t t = 0; t < n; t++)
            x[t] = turn(x[t], parity ? odd_part(a[t], b[t]) : even_part(a[t], b[t]), undo);
    }
}

EACH_WAY void channel_stage(int32_t *area, size_t channels, size_t n, int undo)
{
    if (channels < 2)
        return;
    channel_step(area, channels, n, !undo, undo);
    channel_step(area, channels, n, undo, undo);
}

EACH_WAY void rct_stage(int32_t *area, size_t n, int undo)
{
    int32_t *p = area, *q = area + n, *r = area + 2 * n;
    for (size_t t = 0; t < n; t++) {
        int64_t a = p[t], b = q[t], c = r[t];
        if (undo) {
            int32_t middle = turn(p[t], (b + c) >> 2, 1);
            p[t] = turn(middle, c, 0);
            q[t] = middle;
            r[t] = turn(middle, b, 0);
        } else {
            p[t] = turn(0, (a + 2 * b + c) >> 2, 0);
            q[t] = turn(r[t], b, 1);
            r[t] = turn(0, a - b, 0);
        }
    }
}

EACH_WAY void dep_row(int32_t *area, size_t n, size_t row, int undo)
{
    for (size_t t = 0; t < n; t++) {
        int64_t sum = 2;
        for (size_t k = 0; k < row; k++)
            sum += (int64_t)taps[k] * area[k * n + t];
        area[row * n + t] = turn(area[row * n + t], sum >> 2, !undo);
    }
}

EACH_WAY void dep_stage(int32_t *area, size_t n, int undo)
{
    for (size_t i = 1; i <= 7; i++)
        dep_row(area, n, undo ? i : 8 - i, undo);
}

EACH_WAY void stage(size_t task, size_t channels, size_t n, int32_t *area, int undo)
{
    switch (task) {
    case TIME: time_stage(area, channels, n, undo); break;
    case CHANNEL: channel_stage(area, channels, n, undo); break;
    case RCT: rct_stage(area, n, undo); break;
    default: dep_stage(area, n, undo);
    }
}

// Whether each sample lies in the span of its channel. Of the ways to write this loop it is the fastest that was found.
__attribute__((noinline)) static int inside(const int32_t (*spans)[2], size_t channels, size_t n, const int32_t *area)
{
    for (size_t c = 0; c < channels; c++) {
        int32_t least = spans[c][0], greatest = spans[c][1];
        int bad = 0;
        for (size_t t = 0; t < n; t++)
            bad |= (area[c * n + t] < least) | (area[c * n + t] > greatest);
        if (bad)
            return 0;
    }
    return 1;
}

// The same promise as the proved calls: a set outside its spans, and an area that no set gives, become zeros.
__attribute__((noinline)) static uint8_t c_call(const int32_t (*spans)[2], size_t task, size_t channels, size_t n, int32_t *area, int undo)
{
    if (!undo && !inside(spans, channels, n, area)) {
        memset(area, 0, channels * n * sizeof *area);
        return OUTSIDE;
    }
    if (undo)
        stage(task, channels, n, area, 1);
    else
        stage(task, channels, n, area, 0);
    if (undo && !inside(spans, channels, n, area)) {
        memset(area, 0, channels * n * sizeof *area);
        return FOREIGN;
    }
    return 0;
}

// ---- Samples, and checks that both sides agree.

static int32_t spans[64][2];
static uint64_t seed;

static uint32_t next_word(void)
{
    seed ^= seed << 13;
    seed ^= seed >> 7;
    seed ^= seed << 17;
    return (uint32_t)(seed >> 32);
}

// A sample of 24 bits, one in sixteen at an end of the span.
static int32_t sample(void)
{
    uint32_t w = next_word();
    if (w % 16 == 0)
        return w & 16 ? LEAST : GREATEST;
    return (int32_t)(w >> 8) + LEAST;
}

static void fill(int32_t *area, size_t length)
{
    seed = 88172645463325252u;
    for (size_t i = 0; i < length; i++)
        area[i] = sample();
}

static int filled(const int32_t *area, size_t length)
{
    seed = 88172645463325252u;
    for (size_t i = 0; i < length; i++)
        if (area[i] != sample())
            return 0;
    return 1;
}

static void must(int ok, const char *what, size_t task, size_t channels, size_t n)
{
    if (ok)
        return;
    printf("NOT ALIKE: %s: %s, %zu x %zu\n", what, names[task], channels, n);
    exit(1);
}

static void both(size_t task, size_t channels, size_t n, int32_t *a, int32_t *b, int undo, uint8_t expected, const char *what)
{
    size_t length = channels * n;
    uint8_t answer = undo ? timing_undo(task, channels, n, a, length) : timing_apply(task, channels, n, a, length);
    uint8_t other = c_call(spans, task, channels, n, b, undo);
    must(answer == other && (expected == 255 || answer == expected), what, task, channels, n);
    must(memcmp(a, b, length * sizeof *a) == 0, what, task, channels, n);
}

static void check(size_t task, size_t channels, size_t n, int32_t *a, int32_t *b)
{
    size_t length = channels * n;
    if (channels < needed[task])
        return;
    fill(a, length);
    memcpy(b, a, length * sizeof *a);
    both(task, channels, n, a, b, 0, 0, "apply");
    both(task, channels, n, a, b, 1, 0, "undo");
    must(filled(a, length), "the set comes back", task, channels, n);
    a[length / 2] = b[length / 2] = GREATEST + 1;
    both(task, channels, n, a, b, 0, OUTSIDE, "a set outside its spans");
    for (size_t i = 0; i < length; i++)
        a[i] = b[i] = (int32_t)(next_word() - next_word() % 3);
    both(task, channels, n, a, b, 1, 255, "undo of any area");
}

// ---- Times.

static double now(void)
{
    struct timespec at;
    clock_gettime(CLOCK_MONOTONIC, &at);
    return at.tv_sec * 1e9 + at.tv_nsec;
}

static void keep_least(double *best, double from, double parts)
{
    double spent = (now() - from) / parts;
    if (*best == 0 || spent < *best)
        *best = spent;
}

// The least nanoseconds over all rounds, [0] apply and [1] undo.
struct times { double proved[2], c[2], copy, scan; };

static struct times measure(size_t task, size_t channels, size_t n, int32_t *a, int32_t *b)
{
    struct times best = { { 0, 0 }, { 0, 0 }, 0, 0 };
    size_t length = channels * n, repeats = 1 + 4000000 / length, failed = 0;
    fill(a, length);
    memcpy(b, a, length * sizeof *a);
    for (int round = 0; round < ROUNDS * (int)repeats; round++) {
        double from = now();
        failed += timing_apply(task, channels, n, a, length);
        keep_least(&best.proved[0], from, length);
        from = now();
        failed += timing_undo(task, channels, n, a, length);
        keep_least(&best.proved[1], from, length);
        from = now();
        failed += c_call(spans, task, channels, n, b, 0);
        keep_least(&best.c[0], from, length);
        from = now();
        failed += c_call(spans, task, channels, n, b, 1);
        keep_least(&best.c[1], from, length);
        from = now();
        failed += !inside(spans, channels, n, b);
        keep_least(&best.scan, from, length);
        from = now();
        memcpy(b, a, length * sizeof *a);
        __asm__ volatile("" : : "r"(b) : "memory");
        keep_least(&best.copy, from, length);
    }
    must(failed == 0 && filled(a, length), "timed", task, channels, n);
    return best;
}

static void row(size_t task, size_t channels, size_t n, int32_t *a, int32_t *b)
{
    struct times t = measure(task, channels, n, a, b);
    for (int undo = 0; undo < 2; undo++)
        printf("%-12s %-6s %3zu x %-8zu %8.3f %8.3f %8.3f %8.3f %10.2f %10.2f %10.1f\n", names[task], undo ? "undo" : "apply",
               channels, n, t.proved[undo], t.c[undo], t.scan, t.copy, t.proved[undo] / t.c[undo], t.proved[undo] / t.copy,
               t.proved[undo] * channels * n / 1e6);
    fflush(stdout);
}

static void head(const char *title)
{
    printf("\n%s\n%-12s %-6s %-14s %8s %8s %8s %8s %10s %10s %10s\n", title, "", "", "", "proved", "C", "scan", "copy", "proved:C",
           "proved:copy", "ms proved");
}

int main(void)
{
    size_t most = 64 * (size_t)1048576;
    int32_t *a = malloc(most * sizeof *a), *b = malloc(most * sizeof *b);
    if (!a || !b)
        return puts("no memory"), 1;
    for (size_t c = 0; c < 64; c++) {
        spans[c][0] = LEAST;
        spans[c][1] = GREATEST;
    }
    for (size_t task = 0; task < TASKS; task++) {
        for (size_t channels = 1; channels <= 12; channels++)
            for (size_t n = 1; n <= 150; n++)
                check(task, channels, n, a, b);
        check(task, 64, 262144, a, b);
    }
    puts("alike: proved and C, apply and undo, on 1 to 12 channels of 1 to 150 samples, and on 64 x 262144");
    head("ns a sample of the set");
    for (size_t task = 0; task < TASKS; task++)
        row(task, 64, 262144, a, b);
    head("the same on the channels that the stage changes alone");
    row(RCT, 3, 262144, a, b);
    row(DEP, 8, 262144, a, b);
    head("growth with the number of samples");
    for (size_t n = 1024; n <= 1048576; n *= n == 262144 ? 4 : 16)
        row(TIME, 64, n, a, b);
    return 0;
}
