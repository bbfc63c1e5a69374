/* Every call of the header from C: the archive's own, and the inline ones over them. What the lists have is in lists.c; here are the refusals that no list
 * has, sizes by what fits into them, texts of no bytes, desks side by side, and ordinals. */
#include "check.h"
#include "print.h"

/* ---- the archive's own calls */

static uint8_t text[SIM7000_TEXT_BUFFER];
static uint64_t told[SIM7000_TOLD];

/* The event that the bytes yield, all of them taken. Without one there is no ordinal, and the count stays. */
static uint64_t hear(sim7000_desk *desk, const char *bytes)
{
    uint64_t count = desk->state[3] < 4294967295 ? desk->state[3] : 4294967295;
    CHECK(sim7000_feed(desk->line, desk->state, desk->sent, (const uint8_t *)bytes, strlen(bytes), text, sizeof text, told) == 0);
    CHECK(told[1] == strlen(bytes));
    CHECK(told[0] != SIM7000_NO_EVENT ? told[4] == desk->state[3] : told[4] == 0 && desk->state[3] == count);
    return told[0];
}

/* The ordinal of that event, 0 without one. */
static uint64_t ordinal(sim7000_desk *desk, const char *bytes)
{
    hear(desk, bytes);
    return told[4];
}

/* An open in the one mode or the other, of an operator. */
static uint8_t open_in(int echo, sim7000_desk *desk, const char *plmn, size_t out_len)
{
    uint8_t out[SIM7000_LONGEST_COMMAND];
    uint64_t size;
    const uint8_t *first = (const uint8_t *)plmn;
    return echo ? sim7000_open_echo(desk->state, desk->sent, SIM7000_SET_MANUAL_OPERATOR, 300, 2, first, strlen(plmn), BYTES(""), out, out_len, &size)
                : sim7000_open(desk->state, SIM7000_SET_MANUAL_OPERATOR, 300, 2, first, strlen(plmn), BYTES(""), out, out_len, &size);
}

static void ordinals(int echo)
{
    sim7000_desk desk = SIM7000_DESK_NEW;
    char overlong[260];
    memset(overlong, 'a', 257);
    strcpy(overlong + 257, "\r\n");

    /* a new desk's first line is 1; of empty lines none is counted, a prompt and an overlong line are */
    CHECK(ordinal(&desk, "\r\n\n") == 0);
    CHECK(ordinal(&desk, "\r\nOK\r\n") == 1);
    CHECK(ordinal(&desk, "> ") == 2 && is(text, told[2], "> "));
    CHECK(ordinal(&desk, "\r\n\r\n+CEREG: 5\r\n") == 3);
    CHECK(ordinal(&desk, overlong) == 4 && told[0] == SIM7000_OVERLONG);
    CHECK(ordinal(&desk, "") == 0);

    /* a refused open leaves the count */
    CHECK(open_in(echo, &desk, "6430411", 64) == SIM7000_TEXT_TOO_LONG && desk.state[3] == 4);
    CHECK(open_in(echo, &desk, "64304\"", 64) == SIM7000_NOT_OPERATOR_NUMBER && desk.state[3] == 4);
    CHECK(open_in(echo, &desk, "64304", 19) == SIM7000_OUT_TOO_SHORT && desk.state[3] == 4);
    CHECK(ordinal(&desk, "+C") == 0);
    CHECK(open_in(echo, &desk, "64304", 64) == SIM7000_LINE_UNFINISHED && desk.state[3] == 4);
    CHECK(ordinal(&desk, "SQ: 5,0\r\n") == 5);

    /* an accepted one begins it anew, and the answer that closes the command does not */
    CHECK(open_in(echo, &desk, "64304", 64) == 0 && desk.state[3] == 0);
    CHECK(ordinal(&desk, "AT+COPS=1,2,\"64304\"\r\r\n") == 1 && told[0] == (echo ? SIM7000_ECHO : SIM7000_STRAY));
    CHECK(open_in(echo, &desk, "64304", 64) == SIM7000_COMMAND_OPEN && desk.state[3] == 1);
    CHECK(ordinal(&desk, "OK\r\n") == 2 && told[0] == SIM7000_DONE);
    CHECK(ordinal(&desk, "OK\r\n") == 3 && told[0] == SIM7000_STRAY);

    /* so does a reset, also in the midst of a line */
    CHECK(ordinal(&desk, "+CSQ") == 0);
    sim7000_reset(desk.state);
    CHECK(desk.state[0] == 0 && desk.state[3] == 0);
    CHECK(ordinal(&desk, ": 5,0\r\n") == 1);

    /* the count stays at the greatest, as which any number above it is read */
    desk.state[3] = 4294967294;
    CHECK(ordinal(&desk, "\r\n") == 0 && desk.state[3] == 4294967294);
    CHECK(ordinal(&desk, "OK\r\n") == 4294967295);
    CHECK(ordinal(&desk, "OK\r\n") == 4294967295);
    CHECK(ordinal(&desk, overlong) == 4294967295);
    for (uint64_t count = 4294967296; count != 0; count <<= 1) {
        desk.state[3] = count;
        CHECK(ordinal(&desk, "OK\r\n") == 4294967295);
        desk.state[3] = count;
        CHECK(ordinal(&desk, "\r\n") == 0);
        desk.state[3] = count;
        CHECK(ordinal(&desk, "") == 0);
        desk.state[3] = count;
        CHECK(open_in(echo, &desk, "64304\"", 64) == SIM7000_NOT_OPERATOR_NUMBER && desk.state[3] == count);
        CHECK(open_in(echo, &desk, "64304", 64) == 0 && desk.state[3] == 0);
        desk.state[3] = count;
        sim7000_reset(desk.state);
        CHECK(desk.state[3] == 0);
    }

    /* a refused feed leaves all as it was */
    static const uint64_t lent[SIM7000_TOLD] = {9, 9, 9, 9, 9};
    desk.state[3] = UINT64_MAX;
    sim7000_desk before = desk;
    memcpy(told, lent, sizeof told);
    CHECK(sim7000_feed(desk.line, desk.state, desk.sent, BYTES("OK\r\n"), text, 255, told) == SIM7000_TEXT_BUFFER_SHORT);
    CHECK(memcmp(told, lent, sizeof told) == 0 && memcmp(desk.state, before.state, sizeof desk.state) == 0);
    CHECK(memcmp(desk.line, before.line, sizeof desk.line) == 0);
}

/* The archive's calls, with parameters that differ, so that none can stand in another's place. */
static void exports(void)
{
    static sim7000_desk desk;
    uint8_t out[SIM7000_LONGEST_COMMAND];
    uint64_t size, values[SIM7000_VALUES];

    CHECK(sim7000_read_line(BYTES("CLOSE OK"), values) == SIM7000_NOT_ACCEPTED);
    CHECK(sim7000_read_line(BYTES("+HTTPTOFS: 200,31"), values) == 0);
    CHECK(values[0] == SIM7000_DOWNLOAD_INFO && values[1] == 200 && values[2] == 31);
    CHECK(sim7000_read_line(BYTES("490154203237518"), values) == 0);
    CHECK(values[0] == SIM7000_IMEI && values[1] == 0 && values[2] == 15 && values[3] == 0);
    CHECK(sim7000_read_line(BYTES("4901542032375181"), values) == 0);
    CHECK(values[0] == SIM7000_IMEI && values[1] == 0 && values[2] == 16 && values[3] == 1);
    CHECK(sim7000_read_line(BYTES("+UGNSINF: 1,1,20000229010203,1,2,3,,,,,,,,,,,,,,,"), values) == 0);
    CHECK(values[0] == SIM7000_GNSS_REPORT && values[1] == 2 && values[2] == 2000 && values[3] == 2 && values[4] == 29);
    CHECK(values[5] == 1 && values[6] == 2 && values[7] == 3);
    CHECK(sim7000_read_line(BYTES("+UGNSINF: 1,1,20010229010203,x,2,3,,,,,,,,,,,,,,,"), values) == SIM7000_NO_SUCH_DATE);
    CHECK(sim7000_sort_line(BYTES("+UGNSINF: 1,1,,1,2,3,,,,,,,,,,,,,,,")) == SIM7000_REFUSED + SIM7000_NO_SUCH_DATE);
    CHECK(sim7000_sort_line(BYTES("OK")) == SIM7000_GENERIC_OK);
    CHECK(sim7000_sort_line(BYTES("\xff")) == SIM7000_REFUSED + SIM7000_LINE_NOT_UTF8);

    CHECK(sim7000_write_command(SIM7000_SYNCHRONIZE_NETWORK_TIME, 300, 2, BYTES("time"), BYTES(""), out, sizeof out, &size) == 0);
    CHECK(is(out, size, "AT+CNTP=\"time\",300,2\r"));
    CHECK(sim7000_write_command(SIM7000_SET_MANUAL_OPERATOR, 300, 2, BYTES("64304\""), BYTES("64304"), out, sizeof out, &size) == SIM7000_NOT_OPERATOR_NUMBER);
    CHECK(sim7000_write_command(SIM7000_SET_MANUAL_OPERATOR, 300, 2, BYTES("64304"), BYTES("6430"), out, sizeof out, &size) == 0);
    CHECK(is(out, size, "AT+COPS=1,2,\"64304\"\r"));
    CHECK(sim7000_write_command(SIM7000_READ_SMS, 300, 2, BYTES(""), BYTES(""), out, 10, &size) == 0);
    CHECK(is(out, size, "AT+CMGR=2\r"));

    CHECK(sim7000_open(desk.state, SIM7000_SET_MANUAL_OPERATOR, 300, 2, BYTES("6430"), BYTES("64304"), out, sizeof out, &size) == SIM7000_NOT_OPERATOR_NUMBER);
    CHECK(sim7000_open(desk.state, SIM7000_DOWNLOAD_TO_FILE_SYSTEM, 300, 2, BYTES("url"), BYTES("file"), out, sizeof out, &size) == 0);
    CHECK(is(out, size, "AT+HTTPTOFS=\"url\",\"file\"\r"));
    CHECK(desk.state[1] != 0 && desk.state[2] == 0);
    CHECK(hear(&desk, "AT+HTTPTOFS=\"url\",\"file\"\r\r\n") == SIM7000_STRAY && told[3] == SIM7000_NOT_ACCEPTED && told[4] == 1);
    sim7000_reset(desk.state);
    CHECK(desk.state[1] == 0);

    CHECK(sim7000_open_echo(desk.state, desk.sent, SIM7000_SET_MANUAL_OPERATOR, 300, 2, BYTES(""), BYTES("64304"), out, sizeof out, &size)
          == SIM7000_NOT_OPERATOR_NUMBER);
    CHECK(sim7000_open_echo(desk.state, desk.sent, SIM7000_DOWNLOAD_TO_FILE_SYSTEM, 300, 2, BYTES("url"), BYTES("file"), out, sizeof out, &size) == 0);
    CHECK(is(out, size, "AT+HTTPTOFS=\"url\",\"file\"\r"));
    CHECK(desk.state[1] != 0 && is(desk.sent, desk.state[2], "AT+HTTPTOFS=\"url\",\"file\"\r"));
    CHECK(hear(&desk, "ERROR\r\n") == SIM7000_STRAY && told[3] == 0 && told[4] == 1);
    CHECK(hear(&desk, "AT+HTTPTOFS=\"url\",\"file\"\r\r\n") == SIM7000_ECHO && is(text, told[2], "AT+HTTPTOFS=\"url\",\"file\"\r"));
    CHECK(desk.state[1] != 0 && desk.state[2] == 0);
    CHECK(hear(&desk, "+UGNSINF: 1,1,20010229010203,1,2,3,,,,,,,,,,,,,,,\r\n") == SIM7000_STRAY && told[3] == SIM7000_NO_SUCH_DATE && told[4] == 3);
    CHECK(hear(&desk, "ERROR\r\n") == SIM7000_FAILED && is(text, told[2], "ERROR"));
    CHECK(hear(&desk, "+C") == SIM7000_NO_EVENT && desk.state[0] == 2);
    CHECK(sim7000_open_echo(desk.state, desk.sent, SIM7000_EXECUTE, 0, 0, BYTES(""), BYTES(""), out, sizeof out, &size) == SIM7000_LINE_UNFINISHED);
}

/* ---- versions, and whether a command is open */

static void numbers(void)
{
    uint64_t state[SIM7000_STATE] = {1, 0, 1, 1}, number;
    CHECK(sim7000_version() == SIM7000_VERSION);
    CHECK(SIM7000_VERSION == 900 && SIM7000_VERSION_MAJOR == 0 && SIM7000_VERSION_MINOR == 9 && SIM7000_VERSION_PATCH == 0);
    for (number = 0; number < 1000; number++) {
        state[1] = number;
        CHECK(sim7000_is_open(state) == (number >= 1 && number <= 182));
    }
    for (number = 1024; number != 0; number <<= 1) {
        state[1] = number;
        CHECK(sim7000_is_open(state) == 0);
        state[1] = number + 1;
        CHECK(sim7000_is_open(state) == 0);
    }
}

/* ---- sizes, by what fits */

/* A line that is good, of so many bytes. */
static void long_line(uint8_t *line, size_t size)
{
    memset(line, 'a', size);
    memcpy(line, "+COPS: 0,0,", 11);
}

static void sizes(void)
{
    struct {
        uint8_t line[SIM7000_LINE], after_line[8], sent[SIM7000_LONGEST_COMMAND], after_sent[8];
        uint64_t state[SIM7000_STATE], after_state, told[SIM7000_TOLD], after_told, values[SIM7000_VALUES], after_values;
    } lent;
    uint8_t line[SIM7000_LONGEST_LINE + 1], out[SIM7000_LONGEST_COMMAND + 1], quotes[SIM7000_LONGEST_URL + 1] = {0}, buffer[SIM7000_TEXT_BUFFER];
    sim7000_text url = sim7000_text_of(quotes, SIM7000_LONGEST_URL), path = sim7000_text_of(quotes, SIM7000_LONGEST_FILE_PATH);
    sim7000_request request = sim7000_download_to_file_system(url, path);
    sim7000_line read;
    sim7000_heard heard;
    sim7000_desk desk = SIM7000_DESK_NEW;
    uint64_t written = 0;
    size_t size = 0;
    char said[128];

    /* the longest line, and one that is longer */
    memset(&read, 0, sizeof read);
    memset(&heard, 0, sizeof heard);
    long_line(line, sizeof line);
    CHECK(sim7000_read(line, SIM7000_LONGEST_LINE, &read) == SIM7000_NO_REFUSAL);
    CHECK(sim7000_as_operator_info(&read).operator_name.size == SIM7000_LONGEST_LINE - 11);
    CHECK(sim7000_read(line, SIM7000_LONGEST_LINE + 1, &read) == SIM7000_LINE_TOO_LONG && read.text.size == SIM7000_LONGEST_LINE);

    /* the longest command fills its buffer, and one less is too short */
    memset(quotes, '"', sizeof quotes);
    memset(out, 9, sizeof out);
    CHECK(sim7000_write(&request, out, SIM7000_LONGEST_COMMAND - 1, &size) == SIM7000_OUT_TOO_SHORT && size == 0 && out[0] == 9);
    CHECK(sim7000_write(&request, out, SIM7000_LONGEST_COMMAND, &size) == SIM7000_NO_REFUSAL && size == SIM7000_LONGEST_COMMAND);
    CHECK(out[SIM7000_LONGEST_COMMAND - 1] == '\r' && out[SIM7000_LONGEST_COMMAND] == 9);

    /* the longest texts of requests, and one byte more */
    request = sim7000_download_to_file_system(sim7000_text_of(quotes, SIM7000_LONGEST_URL + 1), path);
    CHECK(sim7000_write(&request, out, sizeof out, &size) == SIM7000_TEXT_TOO_LONG);
    request = sim7000_download_to_file_system(url, sim7000_text_of(quotes, SIM7000_LONGEST_FILE_PATH + 1));
    CHECK(sim7000_write(&request, out, sizeof out, &size) == SIM7000_TEXT_TOO_LONG);
    request = sim7000_synchronize_network_time(sim7000_text_of(quotes, SIM7000_LONGEST_NTP_SERVER), 65535, 255);
    CHECK(sim7000_write(&request, out, sizeof out, &size) == SIM7000_NO_REFUSAL);
    request = sim7000_synchronize_network_time(sim7000_text_of(quotes, SIM7000_LONGEST_NTP_SERVER + 1), 65535, 255);
    CHECK(sim7000_write(&request, out, sizeof out, &size) == SIM7000_TEXT_TOO_LONG);
    request = sim7000_set_manual_operator(sim7000_text_of((const uint8_t *)"123456", SIM7000_LONGEST_PLMN));
    CHECK(sim7000_write(&request, out, sizeof out, &size) == SIM7000_NO_REFUSAL && is(out, size, "AT+COPS=1,2,\"123456\"\r"));
    request = sim7000_set_manual_operator(sim7000_text_of((const uint8_t *)"1234567", SIM7000_LONGEST_PLMN + 1));
    CHECK(sim7000_write(&request, out, sizeof out, &size) == SIM7000_TEXT_TOO_LONG);

    /* the longest texts in a line, and one byte more */
    sprintf(said, "+CMGR: x,%0*d,", SIM7000_LONGEST_SENDER, 0);
    CHECK(sim7000_read((uint8_t *)said, strlen(said), &read) == SIM7000_NO_REFUSAL && sim7000_as_sms_message(&read).sender.size == SIM7000_LONGEST_SENDER);
    sprintf(said, "+CMGR: x,%0*d,", SIM7000_LONGEST_SENDER + 1, 0);
    CHECK(sim7000_read((uint8_t *)said, strlen(said), &read) == SIM7000_TEXT_IN_LINE_LONG);
    sprintf(said, "+CNTP: 1,%0*d", SIM7000_LONGEST_TIME, 0);
    CHECK(sim7000_read((uint8_t *)said, strlen(said), &read) == SIM7000_NO_REFUSAL && sim7000_as_network_time(&read).time.size == SIM7000_LONGEST_TIME);
    sprintf(said, "+CNTP: 1,%0*d", SIM7000_LONGEST_TIME + 1, 0);
    CHECK(sim7000_read((uint8_t *)said, strlen(said), &read) == SIM7000_TEXT_IN_LINE_LONG);

    /* the text buffer takes the longest line, and one less is refused */
    CHECK(sim7000_desk_feed(&desk, line, SIM7000_LONGEST_LINE, buffer, sizeof buffer, &heard) == SIM7000_NO_REFUSAL && heard.event == SIM7000_NO_EVENT);
    CHECK(sim7000_desk_feed(&desk, BYTES("\r\n"), buffer, SIM7000_TEXT_BUFFER - 1, &heard) == SIM7000_TEXT_BUFFER_SHORT && heard.taken == SIM7000_LONGEST_LINE);
    CHECK(sim7000_desk_feed(&desk, BYTES("\r\n"), buffer, SIM7000_TEXT_BUFFER, &heard) == SIM7000_NO_REFUSAL && heard.size == SIM7000_LONGEST_LINE);
    CHECK(heard.event == SIM7000_STRAY && heard.taken == 2 && memcmp(buffer, line, SIM7000_LONGEST_LINE) == 0);

    /* a desk's parts and the numbers are filled to their last place, and nothing behind it */
    memset(&lent, 0, sizeof lent);
    memset(quotes, '"', sizeof quotes);
    CHECK(sim7000_open_echo(lent.state, lent.sent, SIM7000_DOWNLOAD_TO_FILE_SYSTEM, 0, 0, quotes, SIM7000_LONGEST_URL, quotes, SIM7000_LONGEST_FILE_PATH, out,
                            sizeof out, &written) == 0);
    CHECK(written == SIM7000_LONGEST_COMMAND && lent.sent[SIM7000_LONGEST_COMMAND - 1] == '\r' && lent.state[2] == SIM7000_LONGEST_COMMAND);
    CHECK(sim7000_feed(lent.line, lent.state, lent.sent, line, SIM7000_LONGEST_LINE, buffer, sizeof buffer, lent.told) == 0);
    CHECK(sim7000_feed(lent.line, lent.state, lent.sent, BYTES("\r"), buffer, sizeof buffer, lent.told) == 0);
    CHECK(lent.line[SIM7000_LINE - 1] == '\r' && lent.state[0] == SIM7000_LINE);
    CHECK(sim7000_feed(lent.line, lent.state, lent.sent, BYTES("\n"), buffer, sizeof buffer, lent.told) == 0);
    CHECK(lent.told[SIM7000_TOLD - 1] == 1 && lent.state[SIM7000_STATE - 1] == 1);
    CHECK(sim7000_read_line(BYTES("+UGNSINF: 1,1,20240102030405,1,2,3,,,,,,,,,,,,,42,,"), lent.values) == 0 && lent.values[SIM7000_VALUES - 1] == 42);
    CHECK(lent.after_state == 0 && lent.after_told == 0 && lent.after_values == 0);
    CHECK(memcmp(lent.after_line, "\0\0\0\0\0\0\0", 8) == 0 && memcmp(lent.after_sent, "\0\0\0\0\0\0\0", 8) == 0);
    CHECK(sizeof(sim7000_desk) == 504);
}

/* ---- refusals of the inline calls; what was lent stays as it was */

static sim7000_refusal open_as(int echo, sim7000_desk *desk, const sim7000_request *request, uint8_t *out, size_t out_len, size_t *size)
{
    sim7000_desk before = *desk;
    uint8_t bytes[SIM7000_LONGEST_COMMAND];
    size_t old = *size;
    sim7000_refusal refusal;
    if (out != NULL)
        memcpy(bytes, out, out_len);
    refusal = echo ? sim7000_desk_open_echo(desk, request, out, out_len, size) : sim7000_desk_open(desk, request, out, out_len, size);
    if (refusal != SIM7000_NO_REFUSAL)
        CHECK(memcmp(desk->line, before.line, sizeof before.line) == 0 && memcmp(desk->sent, before.sent, sizeof before.sent) == 0
              && memcmp(desk->state, before.state, sizeof before.state) == 0 && *size == old && (out == NULL || memcmp(bytes, out, out_len) == 0));
    else
        CHECK(memcmp(desk->line, before.line, sizeof before.line) == 0 && sim7000_desk_is_open(desk) == 1
              && (echo ? memcmp(desk->sent, out, *size) == 0 : memcmp(desk->sent, before.sent, sizeof before.sent) == 0));
    return refusal;
}

static void refusals(int echo)
{
    const sim7000_request good = sim7000_set_manual_operator(sim7000_string("64304")), digits = sim7000_set_manual_operator(sim7000_string("6430x")),
                          seven = sim7000_set_manual_operator(sim7000_string("6430411")),
                          plain = sim7000_synchronize_network_time(sim7000_string("a\tb"), 1, 2);
    sim7000_request none = sim7000_get_imei();
    sim7000_desk desk = SIM7000_DESK_NEW;
    sim7000_heard heard;
    sim7000_line read;
    sim7000_reader reader = SIM7000_ICCID;
    uint8_t out[64] = {9}, buffer[SIM7000_TEXT_BUFFER];
    size_t size = 77;
    unsigned forged;

    CHECK(open_as(echo, &desk, &seven, out, sizeof out, &size) == SIM7000_TEXT_TOO_LONG);
    CHECK(open_as(echo, &desk, &digits, out, sizeof out, &size) == SIM7000_NOT_OPERATOR_NUMBER);
    CHECK(open_as(echo, &desk, &plain, out, sizeof out, &size) == SIM7000_TEXT_NOT_PLAIN);
    CHECK(open_as(echo, &desk, &good, out, 19, &size) == SIM7000_OUT_TOO_SHORT);
    CHECK(open_as(echo, &desk, &good, NULL, 0, &size) == SIM7000_OUT_TOO_SHORT && size == 77);
    CHECK(sim7000_write(&plain, out, sizeof out, &size) == SIM7000_TEXT_NOT_PLAIN && size == 77 && out[0] == 9);
    CHECK(sim7000_write(&digits, NULL, 0, &size) == SIM7000_NOT_OPERATOR_NUMBER && size == 77);
    CHECK(sim7000_write(&good, NULL, 0, &size) == SIM7000_OUT_TOO_SHORT && size == 77);

    /* a kind and a format that are none, whatever is left of them in a byte */
    for (forged = 13; forged < 100000; forged += forged < 600 ? 1 : 251) {
        none.kind = (sim7000_request_kind)forged;
        CHECK(sim7000_write(&none, out, sizeof out, &size) == SIM7000_NOT_ACCEPTED);
        CHECK(open_as(echo, &desk, &none, out, sizeof out, &size) == SIM7000_NOT_ACCEPTED);
        none = sim7000_set_sms_message_format((sim7000_sms_message_format)forged);
        CHECK(sim7000_write(&none, out, sizeof out, &size) == SIM7000_NOT_ACCEPTED);
    }

    /* 9 while a line has begun, and 8 before it where a command is open */
    memset(&heard, 0, sizeof heard);
    CHECK(sim7000_desk_feed(&desk, BYTES("+"), buffer, sizeof buffer, &heard) == SIM7000_NO_REFUSAL && heard.event == SIM7000_NO_EVENT && heard.taken == 1);
    CHECK(open_as(echo, &desk, &good, out, sizeof out, &size) == SIM7000_LINE_UNFINISHED);
    CHECK(sim7000_desk_is_open(&desk) == 0);
    sim7000_desk_reset(&desk);
    CHECK(open_as(echo, &desk, &good, out, sizeof out, &size) == SIM7000_NO_REFUSAL && is(out, size, "AT+COPS=1,2,\"64304\"\r"));
    CHECK(sim7000_desk_is_open(&desk) == 1);
    CHECK(sim7000_desk_feed(&desk, BYTES("+"), buffer, sizeof buffer, &heard) == SIM7000_NO_REFUSAL);
    CHECK(open_as(echo, &desk, &good, out, sizeof out, &size) == SIM7000_COMMAND_OPEN);
    sim7000_desk_reset(&desk);
    CHECK(sim7000_desk_is_open(&desk) == 0);

    /* lines: the readers' own refusals */
    memset(&read, 0, sizeof read);
    CHECK(sim7000_read(BYTES("\xff"), &read) == SIM7000_LINE_NOT_UTF8 && sim7000_sort(BYTES("\xff"), &reader) == SIM7000_LINE_NOT_UTF8);
    CHECK(sim7000_read(BYTES("CLOSE OK"), &read) == SIM7000_NOT_ACCEPTED && sim7000_sort(BYTES("CLOSE OK"), &reader) == SIM7000_NOT_ACCEPTED);
    CHECK(read.reader == (sim7000_reader)0 && reader == SIM7000_ICCID);
    CHECK(sim7000_sort(BYTES("OK"), &reader) == SIM7000_NO_REFUSAL && reader == SIM7000_GENERIC_OK);
    CHECK(sim7000_read(BYTES("OK"), &read) == SIM7000_NO_REFUSAL && read.reader == SIM7000_GENERIC_OK && read.values[0] == 1);
}

/* ---- no bytes are NULL and 0 */

static void nothing(void)
{
    sim7000_desk desk = SIM7000_DESK_NEW;
    sim7000_heard heard = {SIM7000_ECHO, 9, 9, SIM7000_COMMAND_OPEN, 9};
    sim7000_request request = sim7000_synchronize_network_time(sim7000_text_of(NULL, 0), 300, 2);
    sim7000_line read;
    sim7000_reader reader;
    uint8_t out[SIM7000_LONGEST_COMMAND], buffer[SIM7000_TEXT_BUFFER];
    size_t size = 0;
    memset(&read, 0, sizeof read);
    CHECK(sim7000_read(NULL, 0, &read) == SIM7000_NOT_ACCEPTED && sim7000_sort(NULL, 0, &reader) == SIM7000_NOT_ACCEPTED);
    CHECK(sim7000_as_imei(&read).imei.size == 0 && sim7000_as_imei(&read).imei.bytes == NULL);
    CHECK(sim7000_write(&request, out, sizeof out, &size) == SIM7000_NO_REFUSAL && is(out, size, "AT+CNTP=\"\",300,2\r"));
    request = sim7000_download_to_file_system(sim7000_string(NULL), sim7000_string("f"));
    CHECK(sim7000_desk_open(&desk, &request, out, sizeof out, &size) == SIM7000_NO_REFUSAL && is(out, size, "AT+HTTPTOFS=\"\",\"f\"\r"));
    sim7000_desk_reset(&desk);
    request = sim7000_download_to_file_system(sim7000_string("u"), sim7000_text_of(NULL, 0));
    CHECK(sim7000_desk_open_echo(&desk, &request, out, sizeof out, &size) == SIM7000_NO_REFUSAL && is(out, size, "AT+HTTPTOFS=\"u\",\"\"\r"));
    CHECK(sim7000_desk_feed(&desk, NULL, 0, NULL, 0, &heard) == SIM7000_TEXT_BUFFER_SHORT);
    CHECK(heard.event == SIM7000_ECHO && heard.taken == 9 && heard.size == 9 && heard.stray == SIM7000_COMMAND_OPEN && heard.ordinal == 9);
    CHECK(sim7000_desk_feed(&desk, NULL, 0, buffer, sizeof buffer, &heard) == SIM7000_NO_REFUSAL);
    CHECK(heard.event == SIM7000_NO_EVENT && heard.taken == 0 && heard.size == 0 && heard.stray == SIM7000_NO_REFUSAL && heard.ordinal == 0);

    CHECK(sim7000_string("").size == 0 && is(sim7000_string("abc").bytes, sim7000_string("abc").size, "abc") && sim7000_string(NULL).bytes == NULL);
    for (size = 60; size < 70; size++) {
        char string[80];
        memset(string, 'a', sizeof string);
        string[size] = '\0';
        CHECK(sim7000_string(string).size == (size < 65 ? size : 65));
    }
}

/* ---- the answers that each request awaits, and what its maker asks for */

static void awaited(int echo)
{
    const sim7000_text url = sim7000_string("url"), file = sim7000_string("file"), server = sim7000_string("time"), plmn = sim7000_string("64304");
    const struct {
        sim7000_request request;
        sim7000_request_kind kind;
        const char *command, *first, *second; /* the answers, of which the second may be none */
    } rows[] = {
        {sim7000_get_signal_quality(), SIM7000_GET_SIGNAL_QUALITY, "AT+CSQ\r", "+CSQ: 31,99", "OK"},
        {sim7000_show_iccid(), SIM7000_SHOW_ICCID, "AT+CCID\r", "89882806660011048438", "OK"},
        {sim7000_get_imei(), SIM7000_GET_IMEI, "AT+GSN\r", "490154203237518", "OK"},
        {sim7000_get_operator_info(), SIM7000_GET_OPERATOR_INFO, "AT+COPS?\r", "+COPS: 0", "OK"},
        {sim7000_set_manual_operator(plmn), SIM7000_SET_MANUAL_OPERATOR, "AT+COPS=1,2,\"64304\"\r", "OK", NULL},
        {sim7000_set_automatic_operator(), SIM7000_SET_AUTOMATIC_OPERATOR, "AT+COPS=0\r", "OK", NULL},
        {sim7000_get_system_info(), SIM7000_GET_SYSTEM_INFO, "AT+CPSI?\r", "+CPSI: GSM,Online,,,,,,,", "OK"},
        {sim7000_synchronize_network_time(server, 300, 2), SIM7000_SYNCHRONIZE_NETWORK_TIME, "AT+CNTP=\"time\",300,2\r", "OK", NULL},
        {sim7000_execute(), SIM7000_EXECUTE, "AT+CNTP\r", "OK", "+CNTP: 61"},
        {sim7000_download_to_file_system(url, file), SIM7000_DOWNLOAD_TO_FILE_SYSTEM, "AT+HTTPTOFS=\"url\",\"file\"\r", "OK", "+HTTPTOFS: 200,31"},
        {sim7000_get_sms_message_format(), SIM7000_GET_SMS_MESSAGE_FORMAT, "AT+CMGF?\r", "+CMGF: 1", "OK"},
        {sim7000_set_sms_message_format(SIM7000_SMS_TEXT), SIM7000_SET_SMS_MESSAGE_FORMAT, "AT+CMGF=1\r", "OK", NULL},
        {sim7000_read_sms(200), SIM7000_READ_SMS, "AT+CMGR=200\r", "+CMGR: \"REC READ\",\"+46\",", "OK"},
    };
    size_t row;
    for (row = 0; row < sizeof rows / sizeof *rows; row++) {
        const char *end = row % 2 ? "\r\n" : "\n";
        sim7000_desk desk = SIM7000_DESK_NEW;
        uint8_t out[SIM7000_LONGEST_COMMAND], buffer[SIM7000_TEXT_BUFFER];
        size_t size = 0, part;
        CHECK(rows[row].request.kind == rows[row].kind);
        CHECK(open_as(echo, &desk, &rows[row].request, out, sizeof out, &size) == SIM7000_NO_REFUSAL && is(out, size, rows[row].command));
        for (part = 0; part < 3; part++) {
            const char *line = part == 0 ? rows[row].command : part == 1 ? rows[row].first : rows[row].second;
            sim7000_event event = part == 0 ? echo ? SIM7000_ECHO : SIM7000_STRAY : part == 1 && rows[row].second != NULL ? SIM7000_TAKEN : SIM7000_DONE;
            sim7000_heard heard;
            memset(&heard, 0, sizeof heard);
            if (line == NULL)
                continue;
            CHECK(sim7000_desk_is_open(&desk) == 1);
            CHECK(sim7000_desk_feed(&desk, (const uint8_t *)line, strlen(line), buffer, sizeof buffer, &heard) == SIM7000_NO_REFUSAL);
            CHECK(heard.event == SIM7000_NO_EVENT && heard.taken == strlen(line));
            CHECK(sim7000_desk_feed(&desk, (const uint8_t *)end, strlen(end), buffer, sizeof buffer, &heard) == SIM7000_NO_REFUSAL);
            CHECK(heard.event == event && heard.ordinal == part + 1 && heard.taken == strlen(end));
        }
        CHECK(sim7000_desk_is_open(&desk) == 0);
    }
}

/* ---- an accessor of another reader says nothing */

static void others(void)
{
    static const struct {
        const char *line, *said;
        const char *of_another; /* what its accessor says of other lines */
    } rows[] = {
        {"SHUT OK", "GenericOk", "GenericOk"},
        {"+CMS ERROR: 500", "SimError CmsErr 500", "SimError Generic"},
        {"> ", "WritePrompt", "WritePrompt"},
        {"7, CLOSE OK", "CloseOk 7", "CloseOk 0"},
        {"89882806660011048438", "Iccid 88 28 6660011048438", "Iccid 0 0 0"},
        {"+CSQ: 31,7", "SignalQuality 42c80000 42a3cccd", "SignalQuality none none"},
        {"+CPSI: LTE CAT-M1,Low Power Mode,,,,,,,", "SystemInfo LteCatM1 LowPower", "SystemInfo NoService Online"},
        {"+COPS: 1,2,\"64304\"", "OperatorInfo Manual Numeric \"64304\"", "OperatorInfo Automatic Long \"\""},
        {"+CNTP: 62,now", "NetworkTime DnsResolutionError \"now\"", "NetworkTime ? none"},
        {"+HTTPTOFS: 206,31", "DownloadInfo PartialContent 31", "DownloadInfo OtherErrors 0"},
        {"4901542032375181", "Imei version \"4901542032375181\"", "Imei \"\""},
        {"+CMGF: 1", "SmsMessageFormat Text", "SmsMessageFormat Pdu"},
        {"+CMGR: \"REC READ\",\"+46700\",", "SmsMessage \"+46700\"", "SmsMessage \"\""},
        {"+UGNSINF: 1,1,20240229235958.000,59.330211,18.068581,44.500,0.15,359.9,1,,1.2,1.5,0.9,,11,7,3,,42,,",
         "GnssReport Fix 2024 2 29 23 59 58 426d5223 41908c74 42320000 3f99999a 3fc00000 3f666666 3e19999a 43b3f333 11 7 3 42", "GnssReport NotEnabled"},
        {"+CREG: 5,\"00A5\",\"01B2\",7", "NetworkRegistration RegisteredRoaming 165 434", "NetworkRegistration NotRegistered none none"},
    };
    size_t taken, asked;
    for (taken = 0; taken < sizeof rows / sizeof *rows; taken++) {
        sim7000_line read;
        memset(&read, 0, sizeof read);
        CHECK(sim7000_read((const uint8_t *)rows[taken].line, strlen(rows[taken].line), &read) == SIM7000_NO_REFUSAL);
        CHECK(read.reader == (sim7000_reader)(taken + 1));
        for (asked = 0; asked < sizeof rows / sizeof *rows; asked++) {
            struct printed printed = {{0}, 0};
            put_as(&printed, (sim7000_reader)(asked + 1), &read);
            CHECK(is((const uint8_t *)printed.bytes, printed.size, asked == taken ? rows[taken].said : rows[asked].of_another));
        }
    }
}

/* ---- two desks, fed in turns, one in each mode: neither hears what the other does */

static void side_by_side(void)
{
    static const char *const sent[2] = {"\r\n+CSQ: 31,99\r\n\r\nOK\r\n+CREG: 1\r\n",
                                        "+CSQ: 5,0\r\nOK\r\nAT+GSN\r\r\n490154203237518\r\n+CEREG: 5\r\nOK\r\n"};
    static const char *const heard[2] = {"taken 1 +CSQ: 31,99\ndone 2 OK\nunsolicited 3 +CREG: 1\n",
                                         "stray 1 0 +CSQ: 5,0\nstray 2 0 OK\necho 3 AT+GSN\r\ntaken 4 490154203237518\nunsolicited 5 +CEREG: 5\ndone 6 OK\n"};
    const sim7000_request requests[2] = {sim7000_get_signal_quality(), sim7000_get_imei()};
    static sim7000_desk desks[2];
    struct printed printed[2] = {{{0}, 0}, {{0}, 0}};
    size_t at[2] = {0, 0}, size = 0;
    uint8_t out[SIM7000_LONGEST_COMMAND], buffer[SIM7000_TEXT_BUFFER];
    int which;
    for (which = 0; which < 2; which++)
        CHECK(open_as(which, &desks[which], &requests[which], out, sizeof out, &size) == SIM7000_NO_REFUSAL);
    while (at[0] < strlen(sent[0]) || at[1] < strlen(sent[1]))
        for (which = 0; which < 2; which++) {
            sim7000_heard told;
            if (at[which] == strlen(sent[which]))
                continue;
            memset(&told, 0, sizeof told);
            CHECK(sim7000_desk_feed(&desks[which], (const uint8_t *)sent[which] + at[which]++, 1, buffer, sizeof buffer, &told) == SIM7000_NO_REFUSAL);
            CHECK(told.taken == 1);
            if (told.event != SIM7000_NO_EVENT)
                put_heard(&printed[which], &told, buffer);
        }
    for (which = 0; which < 2; which++)
        CHECK(is((const uint8_t *)printed[which].bytes, printed[which].size, heard[which]) && sim7000_desk_is_open(&desks[which]) == 0);
}

int main(void)
{
    int echo;
    exports();
    numbers();
    sizes();
    nothing();
    others();
    side_by_side();
    for (echo = 0; echo < 2; echo++) {
        refusals(echo);
        awaited(echo);
        ordinals(echo);
    }
    return wrongs != 0;
}
