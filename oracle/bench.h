/* What bench.c and beside.c share: lists of lines, and times in turns. Each names itself in PROGRAM first. */
#include <stdint.h>
#include <stdio.h>
#include <stdlib.h>
#include <string.h>
#include <time.h>

#include "../bindings/c/sim7000.h"

#define ROUNDS 15

/* A feed of the library, whichever build it is. */
typedef uint8_t feeds(uint8_t line[257], uint64_t state[SIM7000_STATE], const uint8_t sent[210], const uint8_t *chunk, size_t chunk_len,
                      uint8_t *text, size_t text_len, uint64_t told[SIM7000_TOLD]);

__attribute__((noinline)) void keep(const uint8_t *used) { __asm__ volatile("" : : "r"(used) : "memory"); }

static void fail(const char *why)
{
    fprintf(stderr, PROGRAM ": %s\n", why);
    exit(1);
}

static double seconds(void)
{
    struct timespec t;
    clock_gettime(CLOCK_MONOTONIC, &t);
    return (double)t.tv_sec + (double)t.tv_nsec * 1e-9;
}

/* ---- lines of a file */

struct lines {
    uint8_t *bytes;
    size_t size;
    size_t *starts; /* count + 1 places: each line ends one byte before the next one's start */
    size_t count;
};

static struct lines lines_of(uint8_t *bytes, size_t size)
{
    struct lines l = {bytes, size, NULL, 0};
    for (size_t i = 0; i < size; i++)
        l.count += bytes[i] == '\n';
    l.starts = malloc((l.count + 1) * sizeof *l.starts);
    size_t n = 0;
    l.starts[n++] = 0;
    for (size_t i = 0; i < size; i++)
        if (bytes[i] == '\n')
            l.starts[n++] = i + 1;
    return l;
}

static struct lines read_file(const char *name)
{
    FILE *f = fopen(name, "rb");
    if (!f)
        fail("a list is missing");
    fseek(f, 0, SEEK_END);
    size_t size = (size_t)ftell(f);
    rewind(f);
    uint8_t *bytes = malloc(size + 1);
    if (fread(bytes, 1, size, f) != size)
        fail("a list cannot be read");
    fclose(f);
    return lines_of(bytes, size);
}

static const uint8_t *line_at(const struct lines *l, size_t i, size_t *len)
{
    *len = l->starts[i + 1] - 1 - l->starts[i];
    return l->bytes + l->starts[i];
}

static struct lines framed(const struct lines *l)
{
    uint8_t *bytes = malloc(l->size + l->count);
    size_t n = 0, len;
    for (size_t i = 0; i < l->count; i++) {
        const uint8_t *line = line_at(l, i, &len);
        memcpy(bytes + n, line, len);
        n += len;
        bytes[n++] = '\r';
        bytes[n++] = '\n';
    }
    return lines_of(bytes, n);
}

/* Lines of so many bytes that no reader accepts, from a fixed start. */
static struct lines noise(size_t count, size_t len)
{
    uint8_t *bytes = malloc(count * (len + 1));
    uint64_t x = 1;
    size_t n = 0;
    for (size_t i = 0; i < count; i++) {
        for (size_t k = 0; k < len; k++) {
            x = x * 6364136223846793005u + 1442695040888963407u;
            bytes[n++] = (uint8_t)('a' + (x >> 33) % 26);
        }
        bytes[n++] = '\n';
    }
    return lines_of(bytes, n);
}

/* ---- times: the sides take turns, and the best round of each counts */

typedef uint64_t work(const struct lines *l);

static void timed(const struct lines *l, work *const *sides, size_t count, double *best, uint64_t *sums)
{
    for (size_t k = 0; k < count; k++)
        best[k] = 1e9;
    for (int round = 0; round < ROUNDS; round++) {
        for (size_t k = 0; k < count; k++) {
            double from = seconds();
            sums[k] = sides[k](l);
            double took = seconds() - from;
            if (took < best[k])
                best[k] = took;
        }
    }
}
