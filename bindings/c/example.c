/* A main loop to start from. It turns the modem's echo on, asks for the signal, the operator and the IMEI, one command after the other, and logs each
 * event with the ordinal of its line, and the line. A command without an answer is given up after a time-out, and what comes of it before the echo of the
 * next one is a stray, because that is opened in echo mode.
 *
 * Standard input and output stand for the modem's wire, and standard error for the log. In firmware the three functions of the first part are the clock's
 * and the UART's, and the loop over the requests begins again where this one ends. bindings/test-c builds and runs it; by hand, with a time-out of 1000
 * milliseconds:
 *     printf 'ATE1\r\r\n\r\nOK\r\nAT+CSQ\r\r\n\r\n+CSQ: 31,99\r\n\r\nOK\r\n' | target/bindings/c-example 1000 */
#include <errno.h>
#include <poll.h>
#include <stdio.h>
#include <stdlib.h>
#include <time.h>
#include <unistd.h>

#include "sim7000.h"

/* ---- the wire and the clock */

static int64_t now(void)
{
    struct timespec t;
    clock_gettime(CLOCK_MONOTONIC, &t);
    return (int64_t)t.tv_sec * 1000 + t.tv_nsec / 1000000;
}

static void modem_write(const uint8_t *bytes, size_t size)
{
    while (size > 0) {
        ssize_t put = write(1, bytes, size);
        if (put < 0 && errno != EINTR) {
            perror("write");
            exit(1);
        }
        if (put > 0) {
            bytes += put;
            size -= (size_t)put;
        }
    }
}

/* How many bytes came, or one of these. The time is asked first, so that a modem that never falls silent does not keep a command open. */
enum { ENDED = 0, TIME_OUT = -1 };

static int modem_read(uint8_t *bytes, size_t room, int64_t until)
{
    for (;;) {
        struct pollfd wire = {0, POLLIN, 0};
        int64_t left = until - now();
        ssize_t got;
        if (left <= 0)
            return TIME_OUT;
        if (poll(&wire, 1, (int)left) <= 0)
            continue;
        got = read(0, bytes, room);
        if (got >= 0)
            return (int)got;
        if (errno != EINTR)
            return ENDED;
    }
}

/* ---- the log */

static const char *word(sim7000_event event)
{
    switch (event) {
    case SIM7000_UNSOLICITED: return "unsolicited";
    case SIM7000_TAKEN: return "taken";
    case SIM7000_DONE: return "done";
    case SIM7000_SHORT: return "short";
    case SIM7000_FAILED: return "failed";
    case SIM7000_STRAY: return "stray";
    case SIM7000_OVERLONG: return "overlong";
    case SIM7000_ECHO: return "echo";
    default: return "?";
    }
}

/* A word and the bytes behind it, without a CR at their end, which a command and its echo have. */
static void log_line(const char *word, const uint8_t *bytes, size_t size)
{
    if (size > 0 && bytes[size - 1] == '\r')
        size--;
    fprintf(stderr, "%s ", word);
    fwrite(bytes, 1, size, stderr);
    fprintf(stderr, "\n");
}

static void log_values(const sim7000_line *line)
{
    switch (line->reader) {
    case SIM7000_SIGNAL_QUALITY: {
        sim7000_signal_quality signal = sim7000_as_signal_quality(line);
        if (signal.has_signal_strength)
            fprintf(stderr, "  signal %.1f percent\n", (double)signal.signal_strength);
        break;
    }
    case SIM7000_OPERATOR_INFO: {
        sim7000_text name = sim7000_as_operator_info(line).operator_name;
        log_line("  operator", name.bytes, name.size);
        break;
    }
    case SIM7000_IMEI: {
        sim7000_imei number = sim7000_as_imei(line);
        log_line(number.is_version_number ? "  imeisv" : "  imei", number.imei.bytes, number.imei.size);
        break;
    }
    case SIM7000_NETWORK_REGISTRATION: fprintf(stderr, "  registration %d\n", (int)sim7000_as_network_registration(line).status); break;
    case SIM7000_GNSS_REPORT: {
        sim7000_gnss_report report = sim7000_as_gnss_report(line);
        if (report.status == SIM7000_GNSS_FIX)
            fprintf(stderr, "  fix %.9g %.9g\n", (double)report.fix.latitude, (double)report.fix.longitude);
        break;
    }
    default: break; /* the others, and those of later versions */
    }
}

/* The event, the ordinal of its line, the number of a stray, the line, and what it says where it is an answer or unsolicited. */
static void log_event(const sim7000_heard *heard, const uint8_t *text)
{
    char head[64];
    sim7000_line line;
    if (heard->event == SIM7000_OVERLONG) {
        fprintf(stderr, "overlong %lu\n", (unsigned long)heard->ordinal);
        return;
    }
    if (heard->event == SIM7000_STRAY)
        sprintf(head, "stray %lu %d", (unsigned long)heard->ordinal, (int)heard->stray);
    else
        sprintf(head, "%s %lu", word(heard->event), (unsigned long)heard->ordinal);
    log_line(head, text, heard->size);
    if (heard->event != SIM7000_STRAY && heard->event != SIM7000_ECHO && sim7000_read(text, heard->size, &line) == SIM7000_NO_REFUSAL)
        log_values(&line);
}

/* ---- the loop */

static sim7000_desk desk; /* all zeros: new */
static uint8_t chunk[64], text[SIM7000_TEXT_BUFFER];
static size_t at, got; /* of the chunk, what is not fed yet */

/* Logs the next event: 1, or ENDED or TIME_OUT. */
static int next_event(sim7000_heard *heard, int64_t until)
{
    for (;;) {
        int came;
        while (at < got) {
            if (sim7000_desk_feed(&desk, chunk + at, got - at, text, sizeof text, heard) != SIM7000_NO_REFUSAL)
                exit(1); /* the buffer is too short, which this one is not */
            at += heard->taken;
            if (heard->event != SIM7000_NO_EVENT) {
                log_event(heard, text);
                return 1;
            }
        }
        came = modem_read(chunk, sizeof chunk, until);
        if (came <= 0)
            return came;
        at = 0;
        got = (size_t)came;
    }
}

/* Gives up what was open, and a line that has begun. */
static void give_up(const char *what, size_t size)
{
    log_line("time-out", (const uint8_t *)what, size);
    sim7000_desk_reset(&desk);
}

int main(int argc, char **argv)
{
    static const char echo_on[] = "ATE1\r";
    const sim7000_request requests[] = {sim7000_get_signal_quality(), sim7000_get_operator_info(), sim7000_get_imei()};
    int64_t time_out = argc > 1 ? atoi(argv[1]) : 5000, until;
    sim7000_heard heard;
    sim7000_reader reader = (sim7000_reader)0;
    size_t next;
    int came;
    if (sim7000_version() != SIM7000_VERSION) {
        fprintf(stderr, "header and archive are of different versions\n");
        return 1;
    }

    /* its OK is a stray, because no command is open */
    modem_write((const uint8_t *)echo_on, sizeof echo_on - 1);
    log_line("sent", (const uint8_t *)echo_on, sizeof echo_on - 1);
    until = now() + time_out;
    do
        came = next_event(&heard, until);
    while (came > 0 && !(heard.event == SIM7000_STRAY && sim7000_sort(text, heard.size, &reader) == SIM7000_NO_REFUSAL && reader == SIM7000_GENERIC_OK));
    if (came == TIME_OUT)
        give_up(echo_on, sizeof echo_on - 1);

    for (next = 0; next < sizeof requests / sizeof *requests && came != ENDED; next++) {
        uint8_t out[SIM7000_LONGEST_COMMAND];
        size_t size;
        sim7000_refusal refusal = sim7000_desk_open_echo(&desk, &requests[next], out, sizeof out, &size);
        if (refusal != SIM7000_NO_REFUSAL) {
            fprintf(stderr, "refused %d\n", (int)refusal);
            continue;
        }
        modem_write(out, size);
        log_line("open", out, size);
        until = now() + time_out;
        do
            came = next_event(&heard, until);
        while (came > 0 && sim7000_desk_is_open(&desk));
        if (came == TIME_OUT)
            give_up((const char *)out, size);
    }

    /* what comes unasked; a logger asks anew after it */
    until = now() + time_out;
    while (came != ENDED && next_event(&heard, until) > 0)
        ;
    fprintf(stderr, "end %s\n", sim7000_desk_is_open(&desk) ? "open" : "idle");
    return 0;
}
