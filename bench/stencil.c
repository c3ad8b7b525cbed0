/* What the thorns' steps cost in C: plain loops over 64-bit integers, on periodic grids that wrap by ghost points.
 *
 *     gcc -O3 -o stencil stencil.c
 *     ./stencil ca 1048576 100        elementary automaton, rule 90, a ring of 1,048,576 cells, 100 steps
 *     ./stencil life 1024 100         Life (born 8, survive 12), a sheet of 1,024 by 1,024 cells
 *     ./stencil gas 1024 100          the HPP gas, a sheet of 1,024 by 1,024 cells
 *     ./stencil wave 1048576 100      wave equation, factor 64, a ring; sums that leave 64 bits wrap untold
 *     ./stencil heat 1048576 100      heat equation, factor 64, the same
 *     ./stencil flux 100 100          heat in flux form, factor 32, a box of 100 by 100 by 100 points, the same
 *
 * It prints nanoseconds per point and step, without the first step, and a sum of the last numbers.
 */
#include <inttypes.h>
#include <stdio.h>
#include <stdlib.h>
#include <string.h>
#include <time.h>

static int64_t *numbers(size_t count) {
    int64_t *list = calloc(count, sizeof *list);
    if (!list) exit(2);
    return list;
}

/* the same random numbers as the thorns' `mix(seed, index) mod choices`, seed 7 */
static int64_t mixed(uint64_t index, uint64_t choices) {
    uint64_t h = 7 + index * UINT64_C(0x9E3779B97F4A7C15);
    h = (h ^ (h >> 30)) * UINT64_C(0xBF58476D1CE4E5B9);
    h = (h ^ (h >> 27)) * UINT64_C(0x94D049BB133111EB);
    return (int64_t)((h ^ (h >> 31)) % choices);
}

static void swap(int64_t **a, int64_t **b) {
    int64_t *c = *a;
    *a = *b;
    *b = c;
}

static void wrap_row(int64_t *row, size_t n) {
    row[0] = row[n];
    row[n + 1] = row[1];
}

static void ca_step(const int64_t *restrict old, int64_t *restrict new, size_t n, unsigned rule) {
    for (size_t i = 1; i <= n; i++) {
        unsigned l = old[i - 1] != 0, m = old[i] != 0, r = old[i + 1] != 0;
        new[i] = (rule >> (4 * l + 2 * m + r)) & 1;
    }
}

static void life_step(const int64_t *restrict old, int64_t *restrict new, size_t n, unsigned born, unsigned survive) {
    size_t w = n + 2;
    for (size_t y = 1; y <= n; y++) {
        const int64_t *below = old + (y - 1) * w, *here = old + y * w, *above = old + (y + 1) * w;
        for (size_t x = 1; x <= n; x++) {
            unsigned k = (below[x - 1] != 0) + (below[x] != 0) + (below[x + 1] != 0) + (here[x - 1] != 0)
                + (here[x + 1] != 0) + (above[x - 1] != 0) + (above[x] != 0) + (above[x + 1] != 0);
            new[y * w + x] = ((here[x] != 0 ? survive : born) >> k) & 1;
        }
    }
}

static void gas_step(const int64_t *restrict old, int64_t *restrict new, size_t n) {
    size_t w = n + 2;
    for (size_t y = 1; y <= n; y++) {
        const int64_t *below = old + (y - 1) * w, *here = old + y * w, *above = old + (y + 1) * w;
        for (size_t x = 1; x <= n; x++) {
            int64_t cell = (here[x - 1] & 1) | (below[x] & 2) | (here[x + 1] & 4) | (above[x] & 8);
            new[y * w + x] = cell == 5 ? 10 : cell == 10 ? 5 : cell;
        }
    }
}

/* `>> 8` of a negative number rounds down with gcc, as the thorns' `div 256` does */
static void wave_step(const int64_t *restrict now, const int64_t *restrict before, int64_t *restrict new, size_t n,
                      int64_t factor) {
    for (size_t i = 1; i <= n; i++) {
        int64_t lap = now[i - 1] + now[i + 1] - 2 * now[i];
        new[i] = 2 * now[i] - before[i] + ((factor * lap) >> 8);
    }
}

static void heat_step(const int64_t *restrict old, int64_t *restrict new, size_t n, int64_t factor) {
    for (size_t i = 1; i <= n; i++) {
        int64_t lap = old[i - 1] + old[i + 1] - 2 * old[i];
        new[i] = old[i] + ((factor * lap) >> 8);
    }
}

/* what flows from a to b; `/` rounds toward 0 */
static int64_t flow(int64_t factor, int64_t a, int64_t b) {
    return factor * (a - b) / 256;
}

static void flux_step(const int64_t *restrict old, int64_t *restrict new, size_t n, int64_t factor) {
    size_t w = n + 2, s = w * w;
    for (size_t z = 1; z <= n; z++)
        for (size_t y = 1; y <= n; y++) {
            const int64_t *u = old + z * s + y * w;
            int64_t *to = new + z * s + y * w;
            for (size_t x = 1; x <= n; x++)
                to[x] = u[x] + flow(factor, u[x - 1], u[x]) - flow(factor, u[x], u[x + 1])
                    + flow(factor, u[x - w], u[x]) - flow(factor, u[x], u[x + w])
                    + flow(factor, u[x - s], u[x]) - flow(factor, u[x], u[x + s]);
        }
}

static void wrap_sheet(int64_t *sheet, size_t n) {
    size_t w = n + 2;
    for (size_t y = 1; y <= n; y++) wrap_row(sheet + y * w, n);
    memcpy(sheet, sheet + n * w, w * sizeof *sheet);
    memcpy(sheet + (n + 1) * w, sheet + w, w * sizeof *sheet);
}

static double seconds(void) {
    struct timespec t;
    clock_gettime(CLOCK_PROCESS_CPUTIME_ID, &t);
    return (double)t.tv_sec + 1e-9 * (double)t.tv_nsec;
}

struct job {
    const char *name;
    unsigned directions, choices, scale;
};

static const struct job jobs[] = {
    {"ca", 1, 2, 1}, {"life", 2, 2, 1}, {"gas", 2, 16, 1},
    {"wave", 1, 2, 1000}, {"heat", 1, 2, 1000}, {"flux", 3, 2, 1000},
};

static void step(const struct job *job, int64_t *now, const int64_t *before, int64_t *next, size_t n) {
    size_t s = (n + 2) * (n + 2);
    switch (job->directions) {
    case 1:
        wrap_row(now, n);
        break;
    case 2:
        wrap_sheet(now, n);
        break;
    default:
        for (size_t z = 1; z <= n; z++) wrap_sheet(now + z * s, n);
        memcpy(now, now + n * s, s * sizeof *now);
        memcpy(now + (n + 1) * s, now + s, s * sizeof *now);
    }
    switch (*job->name) {
    case 'c':
        ca_step(now, next, n, 90);
        break;
    case 'l':
        life_step(now, next, n, 8, 12);
        break;
    case 'g':
        gas_step(now, next, n);
        break;
    case 'w':
        wave_step(now, before, next, n, 64);
        break;
    case 'h':
        heat_step(now, next, n, 64);
        break;
    default:
        flux_step(now, next, n, 32);
    }
}

int main(int count, char **words) {
    if (count != 4) return 1;
    const struct job *job = jobs;
    while (strcmp(job->name, words[1]))
        if (++job == jobs + sizeof jobs / sizeof *jobs) return 1;
    size_t n = strtoull(words[2], 0, 10), steps = strtoull(words[3], 0, 10), w = n + 2;
    size_t rows = job->directions > 1 ? n : 1, sheets = job->directions > 2 ? n : 1;
    size_t all = job->directions > 2 ? w * w * w : job->directions > 1 ? w * w : w, s = w * w;
    size_t first = 1 + (job->directions > 1 ? w : 0) + (job->directions > 2 ? s : 0);
    int64_t *now = numbers(all), *before = numbers(all), *next = numbers(all);
    for (size_t z = 0; z < sheets; z++)
        for (size_t y = 0; y < rows; y++)
            for (size_t x = 0; x < n; x++)
                now[first + z * s + y * w + x] = mixed((z * n + y) * n + x, job->choices) * job->scale;
    memcpy(before, now, all * sizeof *now);
    double start = 0;
    for (size_t k = 0; k < steps; k++) {
        if (k == 1) start = seconds();
        step(job, now, before, next, n);
        if (*job->name == 'w') swap(&before, &now);
        swap(&now, &next);
    }
    double took = seconds() - start;
    int64_t sum = 0;
    for (size_t z = 0; z < sheets; z++)
        for (size_t y = 0; y < rows; y++)
            for (size_t x = 0; x < n; x++) sum += now[first + z * s + y * w + x];
    double points = (double)(sheets * rows * n);
    printf("%s %.2f ns a point, sum %" PRId64 "\n", job->name, 1e9 * took / ((double)(steps - 1) * points), sum);
    return 0;
}
