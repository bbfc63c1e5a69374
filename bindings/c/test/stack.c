/* How much stack the archive's calls take: each runs on a stack of its own that was painted before, over the stored list of lines, and the deepest byte
 * that lost its paint counts, from the caller's frame on. That is less than the header's figure. With an argument it prints what each took. */
#include <stdlib.h>
#include <ucontext.h>

#include "check.h"

#define MOST 1536 /* the header's figure */
#define ROOM 16384

static uint8_t stack[ROOM], list[1 << 20], *line, out[SIM7000_LONGEST_COMMAND], text[SIM7000_TEXT_BUFFER];
static size_t line_len;
static sim7000_desk desk;
static uint64_t numbers[SIM7000_VALUES], size;
static uint8_t request;
static const uint8_t *floor_of;
static volatile uint64_t answers, opened, echoed, awaited; /* the last three: opens that were accepted, and feeds with an echo awaited */
static ucontext_t here, there;

static void nothing(void) {}
static void version(void) { answers += sim7000_version(); }
static void read_line(void) { answers += sim7000_read_line(line, line_len, numbers); }
static void sort_line(void) { answers += sim7000_sort_line(line, line_len); }
static void write_command(void) { answers += sim7000_write_command(request, 300, 1, line, line_len, line, line_len, out, sizeof out, &size); }
static void open_plain(void) { opened += sim7000_open(desk.state, request, 300, 1, line, line_len, line, line_len, out, sizeof out, &size) == 0; }
static void open_echo(void)
{
    echoed += sim7000_open_echo(desk.state, desk.sent, request, 300, 1, line, line_len, line, line_len, out, sizeof out, &size) == 0;
}
static void feed(void) /* the line with its LF */
{
    awaited += desk.state[2] != 0;
    answers += sim7000_feed(desk.line, desk.state, desk.sent, line, line_len + 1, text, sizeof text, numbers);
}
static void reset(void) { sim7000_reset(desk.state); }
static void is_open(void) { answers += sim7000_is_open(desk.state); }

static void (*volatile call)(void);

static void run(void)
{
    floor_of = (const uint8_t *)__builtin_frame_address(0);
    call();
}

static void paint_over(int paint)
{
    memset(stack, paint, sizeof stack);
    getcontext(&there);
    there.uc_stack.ss_sp = stack;
    there.uc_stack.ss_size = sizeof stack;
    there.uc_link = &here;
    makecontext(&there, run, 0);
}

/* The bytes below the caller's frame that lost their paint, of two paints, so that none looks like what was written. */
static size_t taken(void (*which)(void))
{
    size_t most = 0;
    int paint;
    for (paint = 0x5a; paint <= 0xa5; paint += 0x4b) {
        sim7000_desk before = desk;
        size_t at = 0;
        paint_over(paint);
        call = which;
        swapcontext(&here, &there);
        while (at < sizeof stack && stack[at] == paint)
            at++;
        if ((size_t)(floor_of - stack) - at > most)
            most = (size_t)(floor_of - stack) - at;
        if (paint == 0x5a)
            desk = before;
    }
    return most;
}

static const struct {
    const char *name;
    void (*call)(void);
} calls[] = {{"nothing", nothing}, {"version", version}, {"read_line", read_line}, {"sort_line", sort_line}, {"write_command", write_command},
             {"open", open_plain}, {"feed", feed},       {"reset", reset},         {"open_echo", open_echo}, {"is_open", is_open},
             {"feed", feed},       {"reset", reset}};

int main(int argc, char **argv)
{
    static size_t most[sizeof calls / sizeof *calls];
    size_t got, start = 0, which;
    FILE *file = fopen("crates/lines/stdin", "rb");
    (void)argv;
    if (file == NULL) {
        perror("crates/lines/stdin");
        return 2;
    }
    got = fread(list, 1, sizeof list, file);
    fclose(file);
    while (start < got) {
        uint8_t *end = memchr(list + start, '\n', got - start);
        line = list + start;
        line_len = (size_t)(end - line);
        start += line_len + 1;
        request = (uint8_t)(start % 13);
        for (which = 0; which < sizeof calls / sizeof *calls; which++) {
            size_t took = taken(calls[which].call);
            if (took > most[which])
                most[which] = took;
        }
    }
    for (which = 0; which < sizeof calls / sizeof *calls; which++) {
        if (argc > 1)
            printf("%s %zu\n", calls[which].name, most[which]);
        CHECK(most[which] < MOST);
        CHECK(calls[which].call != feed || most[which] > 500); /* the paint is looked at */
    }
    CHECK(got > 100000 && opened > 1000 && echoed > 1000 && awaited > 1000);
    return wrongs != 0;
}
