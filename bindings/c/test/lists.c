/* The lists that the programs `lines`, `commands`, `show` and `show_echo` replay in the gate, through the inline calls: every line, request and
 * event, and the same answers. That of `captures` is in captures.c. */
#include "list.h"

/* Each line of the one file with that of the other: what is said of the first must be the second. */
static void replay(const char *crate, void (*said)(struct printed *to, sim7000_text asked))
{
    size_t asking = 0, answering = 0;
    int number;
    load(0, crate, "stdin", 1);
    load(1, crate, "stdout", 1);
    for (number = 1; asking < files[0].size && answering < files[1].size; number++) {
        struct printed ours = {{0}, 0};
        said(&ours, next(0, &asking));
        expect(crate, number, &ours, next(1, &answering));
    }
    CHECK(asking == files[0].size && answering == files[1].size && number > 1000);
}

/* ---- lines */

static void line(struct printed *to, sim7000_text asked)
{
    sim7000_line read;
    sim7000_reader reader = (sim7000_reader)0;
    sim7000_refusal refusal;
    uint64_t values[SIM7000_VALUES];
    uint8_t sorted;
    memset(&read, 0, sizeof read);
    if (asked.size != 0 && asked.bytes[asked.size - 1] == '\r')
        asked.size--;
    refusal = sim7000_read(asked.bytes, asked.size, &read);
    CHECK(sim7000_sort(asked.bytes, asked.size, &reader) == refusal && reader == read.reader);
    sorted = sim7000_sort_line(asked.bytes, asked.size);
    CHECK(sim7000_read_line(asked.bytes, asked.size, values) == (uint8_t)refusal);
    if (refusal == SIM7000_NO_REFUSAL) {
        CHECK(sorted == (uint8_t)reader && memcmp(values, read.values, sizeof values) == 0);
        CHECK(read.text.bytes == asked.bytes && read.text.size == asked.size);
        put_line(to, &read);
    } else {
        CHECK(sorted == SIM7000_REFUSED + (int)refusal && read.text.size == 0 && read.reader == (sim7000_reader)0);
        put_refused(to, refusal);
    }
}

/* ---- commands */

/* Feeds the desk a line and its CR LF: one event, of which this is said. */
static void hears(sim7000_desk *desk, const uint8_t *line, size_t size, sim7000_event event, sim7000_refusal stray, uint32_t ordinal)
{
    uint8_t chunk[SIM7000_LONGEST_COMMAND + 2], text[SIM7000_TEXT_BUFFER];
    sim7000_heard heard;
    memset(&heard, 0, sizeof heard);
    memcpy(chunk, line, size);
    memcpy(chunk + size, "\r\n", 2);
    CHECK(sim7000_desk_feed(desk, chunk, size + 2, text, sizeof text, &heard) == SIM7000_NO_REFUSAL);
    CHECK(heard.event == event && heard.stray == stray && heard.ordinal == ordinal && heard.taken == size + 2);
    CHECK(heard.size == size && memcmp(text, line, size) == 0);
}

/* The command, opened in echo mode, is known again with its CR and without it, and only once, and no other line of its size is; opened in the other mode,
 * never. */
static void comes_back(const sim7000_request *request, const uint8_t *command, size_t size)
{
    uint8_t out[SIM7000_LONGEST_COMMAND], other[SIM7000_LONGEST_COMMAND];
    size_t written = 0;
    int bare;
    memcpy(other, command, size);
    other[size - 2] ^= 1;
    for (bare = 0; bare < 2; bare++) {
        sim7000_desk desk = SIM7000_DESK_NEW;
        CHECK(sim7000_desk_open_echo(&desk, request, out, sizeof out, &written) == SIM7000_NO_REFUSAL);
        CHECK(written == size && memcmp(out, command, size) == 0);
        memset(out, 0, sizeof out);
        hears(&desk, BYTES("OK"), SIM7000_STRAY, SIM7000_NO_REFUSAL, 1);
        hears(&desk, other, size - (size_t)bare, SIM7000_STRAY, SIM7000_NOT_ACCEPTED, 2);
        hears(&desk, command, size - (size_t)bare, SIM7000_ECHO, SIM7000_NO_REFUSAL, 3);
        hears(&desk, command, size - (size_t)!bare, SIM7000_STRAY, SIM7000_NOT_ACCEPTED, 4);
        CHECK(sim7000_desk_is_open(&desk) == 1);
        sim7000_desk_reset(&desk);
        CHECK(sim7000_desk_is_open(&desk) == 0);
        CHECK(sim7000_desk_open(&desk, request, out, sizeof out, &written) == SIM7000_NO_REFUSAL);
        CHECK(written == size && memcmp(out, command, size) == 0);
        hears(&desk, command, size - (size_t)bare, SIM7000_STRAY, SIM7000_NOT_ACCEPTED, 1);
        CHECK(sim7000_desk_is_open(&desk) == 1);
    }
}

static void command(struct printed *to, sim7000_text asked)
{
    sim7000_desk desk = SIM7000_DESK_NEW;
    sim7000_request request;
    sim7000_refusal refusal;
    uint8_t out[SIM7000_LONGEST_COMMAND], opened[SIM7000_LONGEST_COMMAND];
    size_t size = 0, none = 0;
    if (!request_in(asked, &request)) {
        put_word(to, "unknown");
        return;
    }
    refusal = sim7000_write(&request, out, sizeof out, &size);
    if (refusal == SIM7000_NO_REFUSAL) {
        put(to, out, size);
        comes_back(&request, out, size);
        return;
    }
    put_refused(to, refusal);
    CHECK(sim7000_desk_open(&desk, &request, opened, sizeof opened, &none) == refusal);
    CHECK(sim7000_desk_open_echo(&desk, &request, opened, sizeof opened, &none) == refusal);
    CHECK(size == 0 && none == 0 && sim7000_desk_is_open(&desk) == 0);
}

/* ---- the show programs, in chunks of any size */

static void show(const char *crate, int echo)
{
    static const size_t chunks[] = {1, 2, 3, 7, 64, 1 << 20};
    const sim7000_request request = sim7000_get_signal_quality();
    uint8_t out[SIM7000_LONGEST_COMMAND], text[SIM7000_TEXT_BUFFER];
    size_t which, at, size, lines;
    load(0, crate, "stdin", 0);
    load(1, crate, "stdout", 1);
    for (which = 0; which < sizeof chunks / sizeof *chunks; which++) {
        sim7000_desk desk = SIM7000_DESK_NEW;
        sim7000_heard heard;
        struct printed ours = {{0}, 0};
        int number = 1;
        lines = size = 0;
        CHECK((echo ? sim7000_desk_open_echo : sim7000_desk_open)(&desk, &request, out, sizeof out, &size) == SIM7000_NO_REFUSAL);
        put_word(&ours, "open ");
        put(&ours, out, size - 1);
        expect(crate, number++, &ours, next(1, &lines));
        for (at = 0; at < files[0].size; at += heard.taken) {
            size_t rest = files[0].size - at;
            if (sim7000_desk_feed(&desk, files[0].bytes + at, rest < chunks[which] ? rest : chunks[which], text, sizeof text, &heard) != SIM7000_NO_REFUSAL
                || heard.taken == 0 || heard.taken > rest) {
                wrong(__FILE__, __LINE__, "a feed takes bytes of what is left");
                break;
            }
            if (heard.event == SIM7000_NO_EVENT || lines == files[1].size)
                continue;
            ours.size = 0;
            put_heard(&ours, &heard, text);
            ours.size--; /* its LF */
            expect(crate, number++, &ours, next(1, &lines));
        }
        ours.size = 0;
        put_word(&ours, sim7000_desk_is_open(&desk) ? "end open" : "end idle");
        if (lines < files[1].size)
            expect(crate, number++, &ours, next(1, &lines));
        CHECK(lines == files[1].size);
    }
}

int main(void)
{
    replay("lines", line);
    replay("commands", command);
    show("show", 0);
    show("show_echo", 1);
    unload();
    return wrongs != 0;
}
