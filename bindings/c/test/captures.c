/* The list that the program `captures` replays in the gate, through the inline calls: every step, in the script language of oracle/README.md, and
 * every line that is printed of it. Twice: with the chunks as they stand, and with all of them cut into single bytes. */
#include "list.h"

#define LONGEST 32767 /* of a capture; a longer one is a single step, which is unknown */

static struct {
    sim7000_desk desk;
    uint8_t text[SIM7000_TEXT_BUFFER], command[256];
    size_t room;  /* what an open is lent of the command buffer */
    size_t chunk; /* the most that a feed is lent */
} play;

static size_t answering;
static int answer;

/* This is the next line of the answers. */
static void say(const struct printed *ours)
{
    answer++;
    if (answering == files[1].size) {
        fprintf(stderr, "captures %d: printed  %.*s  behind the last line\n", answer, (int)ours->size, ours->bytes);
        wrongs++;
        return;
    }
    expect("captures", answer, ours, next(1, &answering));
}

static void say_word(const char *word)
{
    struct printed ours = {{0}, 0};
    put_word(&ours, word);
    say(&ours);
}

static void say_refused(sim7000_refusal refusal)
{
    struct printed ours = {{0}, 0};
    put_refused(&ours, refusal);
    say(&ours);
}

static void say_bytes(const char *word, const uint8_t *bytes, size_t size)
{
    struct printed ours = {{0}, 0};
    put_word(&ours, word);
    put_hex(&ours, bytes, size);
    say(&ours);
}

static void say_heard(const sim7000_heard *heard)
{
    struct printed ours = {{0}, 0};
    put_event(&ours, heard);
    if (heard->size != 0)
        put_word(&ours, " ");
    put_hex(&ours, play.text, heard->size);
    say(&ours);
}

static void open_request(int echo, const uint8_t *asked, size_t asked_size)
{
    sim7000_request request;
    sim7000_refusal refusal;
    size_t size = 0;
    if (!request_in(sim7000_text_of(asked, asked_size), &request)) {
        say_word("unknown");
        return;
    }
    refusal = (echo ? sim7000_desk_open_echo : sim7000_desk_open)(&play.desk, &request, play.command, play.room, &size);
    if (refusal == SIM7000_NO_REFUSAL)
        say_bytes("open ", play.command, size);
    else
        say_refused(refusal);
}

static void feed(const uint8_t *chunk, size_t size)
{
    sim7000_heard heard;
    size_t at;
    for (at = 0; at < size; at += heard.taken) {
        size_t rest = size - at < play.chunk ? size - at : play.chunk;
        if (sim7000_desk_feed(&play.desk, chunk + at, rest, play.text, sizeof play.text, &heard) != SIM7000_NO_REFUSAL || heard.taken == 0
            || heard.taken > rest) {
            wrong(__FILE__, __LINE__, "a feed takes bytes of what is left");
            return;
        }
        if (heard.event != SIM7000_NO_EVENT)
            say_heard(&heard);
    }
}

/* One byte of the text buffer is not lent. */
static void feed_short(const uint8_t *chunk, size_t size)
{
    sim7000_heard heard;
    sim7000_refusal refusal = sim7000_desk_feed(&play.desk, chunk, size, play.text, sizeof play.text - 1, &heard);
    if (refusal == SIM7000_NO_REFUSAL)
        say_heard(&heard);
    else
        say_refused(refusal);
}

/* All bytes that mean nothing yet: the state, which tells what does, stays new. */
static void fill(uint8_t old)
{
    memset(play.desk.line, old, sizeof play.desk.line);
    memset(play.desk.sent, old, sizeof play.desk.sent);
    memset(play.text, old, sizeof play.text);
    memset(play.command, old, sizeof play.command);
}

static int nibble(uint8_t digit)
{
    if (digit >= '0' && digit <= '9')
        return digit - '0';
    if (digit >= 'a' && digit <= 'f')
        return digit - 'a' + 10;
    return digit >= 'A' && digit <= 'F' ? digit - 'A' + 10 : -1;
}

/* The bytes behind a step's letter, 0 where they are not spelled two digits each. */
static int bytes_in(sim7000_text hex, uint8_t *bytes, size_t *size)
{
    size_t at;
    for (at = 0; at + 1 < hex.size; at += 2) {
        int high = nibble(hex.bytes[at]), low = nibble(hex.bytes[at + 1]);
        if (high < 0 || low < 0)
            return 0;
        bytes[at / 2] = (uint8_t)(high * 16 + low);
    }
    *size = hex.size / 2;
    return hex.size % 2 == 0;
}

static void step(sim7000_text asked, int is_first)
{
    static uint8_t given[LONGEST / 2];
    size_t size = 0;
    uint8_t letter = 0;
    if (asked.size != 0 && bytes_in(sim7000_text_of(asked.bytes + 1, asked.size - 1), given, &size))
        letter = asked.bytes[0];
    if (letter == 'x' && size == 1 && is_first)
        fill(given[0]);
    else if (letter == 'l' && size == 1)
        play.room = given[0];
    else if (letter == 'o' || letter == 'e')
        open_request(letter == 'e', given, size);
    else if (letter == 'f')
        feed(given, size);
    else if (letter == 's')
        feed_short(given, size);
    else if (letter == 'r' && size == 0)
        sim7000_desk_reset(&play.desk);
    else if (letter == 't' && size == 0)
        say_bytes("text ", play.text, sizeof play.text);
    else if (letter == 'c' && size == 0)
        say_bytes("command ", play.command, sizeof play.command);
    else
        say_word("unknown");
}

static void capture(sim7000_text asked, size_t chunk)
{
    size_t start = 0, at;
    memset(&play, 0, sizeof play);
    play.room = sizeof play.command;
    play.chunk = chunk;
    if (asked.size > LONGEST)
        asked.size = 0;
    for (at = 0; at <= asked.size; at++)
        if (at == asked.size || asked.bytes[at] == ' ') {
            step(sim7000_text_of(asked.bytes + start, at - start), start == 0);
            start = at + 1;
        }
    say_word(sim7000_desk_is_open(&play.desk) ? "end open" : "end idle");
}

/* To the first capture that goes wrong: the answers behind it would be those of others. */
static void replay(size_t chunk)
{
    size_t asking = 0;
    int number = 0;
    answering = 0;
    answer = 0;
    while (asking < files[0].size && wrongs == 0) {
        number++;
        capture(next(0, &asking), chunk);
    }
    if (wrongs != 0)
        fprintf(stderr, "captures: in capture %d, with chunks of at most %zu bytes\n", number, chunk);
    CHECK(wrongs != 0 || (number >= 500 && answering == files[1].size));
}

int main(void)
{
    load(0, "captures", "stdin", 0);
    load(1, "captures", "stdout", 1);
    replay(LONGEST);
    replay(1);
    unload();
    return wrongs != 0;
}
