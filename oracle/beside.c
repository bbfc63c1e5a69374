/* Two builds of the library in one program, sim7000_feed of the one beside that of the other: see README.md. oracle/beside has put before_ and after_ in
 * front of their names. */
#define PROGRAM "beside"
#include "bench.h"

/* Both are lent the numbers of the header here; an older build uses the front of them. */
typedef uint8_t opens(uint64_t state[SIM7000_STATE], uint8_t sent[210], uint8_t request, uint16_t number, uint8_t code, const uint8_t *first,
                      size_t first_len, const uint8_t *second, size_t second_len, uint8_t *out, size_t out_len, uint64_t *size);

feeds before_sim7000_feed, after_sim7000_feed;
opens before_sim7000_open_echo, after_sim7000_open_echo;

static const struct build {
    feeds *feed;
    opens *open_echo;
} builds[2] = {{before_sim7000_feed, before_sim7000_open_echo}, {after_sim7000_feed, after_sim7000_open_echo}};

static int awaited; /* whether an echo is */

/* A new desk; or AT+GSN is open, and no line is its echo, so that each is compared with it. */
static void start(const struct build *b, sim7000_desk *desk)
{
    static const uint8_t none[1];
    uint8_t out[256];
    uint64_t size;
    memset(desk, 0, sizeof *desk);
    if (awaited && b->open_echo(desk->state, desk->sent, SIM7000_GET_IMEI, 0, 0, none, 0, none, 0, out, sizeof out, &size) != 0)
        fail("an open was refused");
}

static void end(const sim7000_desk *desk)
{
    if (awaited && desk->state[2] == 0)
        fail("a line is the echo");
}

/* Event, bytes taken, size, stray and line are the same for every feed; an older build tells no more. */
static void same(const struct lines *l)
{
    static sim7000_desk desks[2];
    uint8_t texts[2][256];
    uint64_t told[2][SIM7000_TOLD];
    for (int k = 0; k < 2; k++)
        start(builds + k, desks + k);
    for (size_t at = 0; at < l->size; at += told[0][1]) {
        for (int k = 0; k < 2; k++) {
            sim7000_desk *d = desks + k;
            if (builds[k].feed(d->line, d->state, d->sent, l->bytes + at, l->size - at, texts[k], sizeof texts[k], told[k]) != 0)
                fail("a feed was refused");
        }
        if (memcmp(told[0], told[1], 4 * sizeof told[0][0]) != 0 || memcmp(texts[0], texts[1], told[0][2]) != 0)
            fail("the builds hear different events");
    }
    for (int k = 0; k < 2; k++)
        end(desks + k);
}

/* The build that is timed. It is a variable, so that the compiler makes one loop for both, and both find desk and text at the same places. */
static const struct build *build;

/* The sum of the events' sizes, with one more for each event. */
__attribute__((noinline)) static uint64_t fed(const struct lines *l)
{
    static sim7000_desk desk;
    uint8_t text[256];
    uint64_t sum = 0, told[SIM7000_TOLD];
    start(build, &desk);
    for (size_t at = 0; at < l->size; at += told[1]) {
        if (build->feed(desk.line, desk.state, desk.sent, l->bytes + at, l->size - at, text, sizeof text, told) != 0)
            fail("a feed was refused");
        if (told[0] != SIM7000_NO_EVENT) {
            keep(text);
            sum += told[2] + 1;
        }
    }
    end(&desk);
    return sum;
}

static uint64_t before(const struct lines *l)
{
    build = builds;
    return fed(l);
}

static uint64_t after(const struct lines *l)
{
    build = builds + 1;
    return fed(l);
}

static void beside(const char *name, const struct lines *wire, int echo)
{
    work *const sides[] = {before, after};
    double best[2], bytes = (double)wire->size;
    uint64_t sums[2];
    awaited = echo;
    same(wire);
    timed(wire, sides, 2, best, sums);
    if (sums[0] != sums[1])
        fail("the sums of the events differ");
    printf("  %-34s before %.3f ns a byte, after %.3f, %.3f times before\n", name, best[0] / bytes * 1e9, best[1] / bytes * 1e9, best[1] / best[0]);
}

int main(int argc, char **argv)
{
    if (argc != 2)
        fail("usage: beside LINES");
    struct lines mixed = read_file(argv[1]), mixed_wire = framed(&mixed), even = noise(100000, 32), even_wire = framed(&even);
    beside("lines of 32 bytes", &even_wire, 0);
    beside("the mixed lines", &mixed_wire, 0);
    beside("the mixed lines, an echo awaited", &mixed_wire, 1);
    return 0;
}
