/* The proved library beside the published Rust and beside two cutters in C, in one program and one run: see README.md. */
#define PROGRAM "bench"
#include "bench.h"

uint8_t rust_read_line(const uint8_t *line, size_t len);
uint64_t rust_read_lines(const uint8_t *bytes, const size_t *starts, size_t count);
struct requests *rust_requests(void);
void rust_ask(struct requests *list, uint8_t request, uint16_t number, uint8_t code, const uint8_t *first, size_t first_len,
              const uint8_t *second, size_t second_len);
size_t rust_command(const struct requests *list, size_t at, uint8_t *out);
uint64_t rust_commands(const struct requests *list);

/* crates/bench: the place of the response by the ordered trial, from 1; 14 for any unsolicited line; or SIM7000_REFUSED and the refusal. */
uint8_t bench_sort_in_order(const uint8_t *line, size_t line_len);

/* ---- lines, by the ordered trial and by the exported calls */

static uint64_t in_order(const struct lines *l)
{
    uint64_t sum = 0;
    size_t len;
    for (size_t i = 0; i < l->count; i++) {
        const uint8_t *line = line_at(l, i, &len);
        uint8_t reader = bench_sort_in_order(line, len);
        sum += reader < SIM7000_REFUSED ? reader : 0;
    }
    return sum;
}

static uint64_t our_read(const struct lines *l)
{
    uint64_t sum = 0, values[SIM7000_VALUES];
    size_t len;
    for (size_t i = 0; i < l->count; i++) {
        const uint8_t *line = line_at(l, i, &len);
        if (sim7000_read_line(line, len, values) == 0) {
            keep((const uint8_t *)values);
            sum += values[0];
        }
    }
    return sum;
}

static uint64_t our_sort(const struct lines *l)
{
    uint64_t sum = 0;
    size_t len;
    for (size_t i = 0; i < l->count; i++) {
        const uint8_t *line = line_at(l, i, &len);
        uint8_t reader = sim7000_sort_line(line, len);
        sum += reader < SIM7000_REFUSED ? reader : 0;
    }
    return sum;
}

static uint64_t their_read(const struct lines *l) { return rust_read_lines(l->bytes, l->starts, l->count); }

/* ---- cutters: 1 with a line in text, 2 with one of more than 256 bytes, 0 where the chunk ends first */

struct cutter {
    uint8_t line[257];
    size_t len; /* 258 while a line is dropped */
};

typedef int cuts(struct cutter *c, const uint8_t *chunk, size_t n, uint8_t *text, size_t *taken, size_t *size);

/* A plain one: one byte after the other, and a line goes to text at its end. */
__attribute__((noinline)) static int cut(struct cutter *c, const uint8_t *chunk, size_t n, uint8_t *text, size_t *taken, size_t *size)
{
    size_t len = c->len; /* in a register: a store to line might change c->len */
    for (size_t i = 0; i < n; i++) {
        uint8_t b = chunk[i];
        if (b == '\n') {
            int over = len > 257;
            if (!over && len > 0 && c->line[len - 1] == '\r')
                len--;
            if (over || len > 256) {
                c->len = 0;
                *taken = i + 1;
                *size = 0;
                return 2;
            }
            if (len > 0) {
                memcpy(text, c->line, len);
                c->len = 0;
                *taken = i + 1;
                *size = len;
                return 1;
            }
        } else if (len >= 257 || (len == 256 && b != '\r')) {
            len = 258;
        } else {
            c->line[len++] = b;
            if (len == 2 && c->line[0] == '>' && b == ' ') {
                memcpy(text, "> ", 2);
                c->len = 0;
                *taken = i + 1;
                *size = 2;
                return 1;
            }
        }
    }
    c->len = len;
    *taken = n;
    return 0;
}

static int told_line(struct cutter *c, size_t taken_now, size_t len, size_t *taken, size_t *size)
{
    c->len = 0;
    *taken = taken_now;
    *size = len > 256 ? 0 : len;
    return len > 256 ? 2 : 1;
}

/* A better one: the C library looks for the line's end and moves the bytes, straight from the chunk to text where none is held. */
__attribute__((noinline)) static int cut_by_memchr(struct cutter *c, const uint8_t *chunk, size_t n, uint8_t *text, size_t *taken, size_t *size)
{
    const uint8_t *at = chunk, *const end = chunk + n;
    while (at < end) {
        size_t held = c->len;
        if (*at == '>' || *at == ' ') { /* a prompt is a line as soon as it is there, and no LF follows it */
            size_t more = held == 0 && end - at >= 2 && memcmp(at, "> ", 2) == 0 ? 2 : held == 1 && c->line[0] == '>' && *at == ' ';
            if (more > 0) {
                memcpy(text, "> ", 2);
                return told_line(c, (size_t)(at - chunk) + more, 2, taken, size);
            }
        }
        const uint8_t *lf = memchr(at, '\n', (size_t)(end - at));
        size_t piece = (size_t)((lf ? lf : end) - at), len = held + piece;
        uint8_t last = piece > 0 ? at[piece - 1] : held > 0 && held < 258 ? c->line[held - 1] : 0;
        if (held > 257 || len > 257 || (len == 257 && last != '\r')) {
            if (lf)
                return told_line(c, (size_t)(lf + 1 - chunk), 257, taken, size);
            c->len = 258;
            break;
        }
        /* so that memcpy is the C library's: a compiler that knows how few the bytes are puts an instruction in its place that is slow to start */
        __asm__("" : "+r"(held), "+r"(piece), "+r"(len));
        if (!lf) {
            memcpy(c->line + held, at, piece);
            c->len = len;
            break;
        }
        if (last == '\r')
            len--;
        if (len > 0) {
            if (held == 0) {
                memcpy(text, at, len);
            } else {
                memcpy(text, c->line, held < len ? held : len);
                if (len > held)
                    memcpy(text + held, at, len - held);
            }
            return told_line(c, (size_t)(lf + 1 - chunk), len, taken, size);
        }
        c->len = 0;
        at = lf + 1;
    }
    *taken = n;
    return 0;
}

/* The sum of the events' sizes, with one more for each event. */
static uint64_t cut_all(const struct lines *l, cuts *by)
{
    static struct cutter c;
    uint8_t text[256];
    uint64_t sum = 0;
    size_t taken, size;
    c.len = 0;
    for (size_t at = 0; at < l->size; at += taken) {
        if (by(&c, l->bytes + at, l->size - at, text, &taken, &size)) {
            keep(text);
            sum += size + 1;
        }
    }
    return sum;
}

static uint64_t plain_cut(const struct lines *l) { return cut_all(l, cut); }

static uint64_t memchr_cut(const struct lines *l) { return cut_all(l, cut_by_memchr); }

static uint64_t desk_feed(const struct lines *l, feeds *feed, sim7000_desk *desk)
{
    uint8_t text[256];
    uint64_t sum = 0, told[SIM7000_TOLD];
    for (size_t at = 0; at < l->size; at += told[1]) {
        if (feed(desk->line, desk->state, desk->sent, l->bytes + at, l->size - at, text, sizeof text, told) != 0)
            fail("a feed was refused");
        if (told[0] != SIM7000_NO_EVENT) {
            keep(text);
            sum += told[2] + 1;
        }
    }
    return sum;
}

static uint64_t lent_feed(const struct lines *l)
{
    static sim7000_desk desk;
    sim7000_reset(desk.state);
    return desk_feed(l, sim7000_feed, &desk);
}

/* No line is the echo, so that each is compared with it; the mixed lines have AT+CSQ among them, but not AT+GSN. */
static uint64_t echo_feed(const struct lines *l)
{
    static sim7000_desk desk;
    static const uint8_t none[1];
    uint8_t out[256];
    uint64_t size;
    sim7000_reset(desk.state);
    if (sim7000_open_echo(desk.state, desk.sent, SIM7000_GET_IMEI, 0, 0, none, 0, none, 0, out, sizeof out, &size) != 0)
        fail("an open was refused");
    uint64_t sum = desk_feed(l, sim7000_feed, &desk);
    if (desk.state[2] != size)
        fail("a line is the echo");
    return sum;
}

/* crates/bench: the desk is made of its parts, fed by value and taken apart again, for each event. It answers 1 with an event, and told has the
 * bytes taken and the size. */
uint8_t bench_feed(uint8_t line[257], size_t *len, const uint8_t *chunk, size_t chunk_len, uint8_t *text, size_t text_len, size_t told[2]);

static uint8_t by_value(uint8_t line[257], uint64_t state[SIM7000_STATE], const uint8_t sent[210], const uint8_t *chunk, size_t chunk_len, uint8_t *text,
                        size_t text_len, uint64_t told[SIM7000_TOLD])
{
    size_t len = state[0], got[2];
    (void)sent;
    uint8_t answer = bench_feed(line, &len, chunk, chunk_len, text, text_len, got);
    state[0] = len;
    told[0] = answer;
    told[1] = got[0];
    told[2] = got[1];
    return answer > 1 ? answer : 0;
}

static uint64_t value_feed(const struct lines *l)
{
    static sim7000_desk desk;
    sim7000_reset(desk.state);
    return desk_feed(l, by_value, &desk);
}

/* Both cutters and the desk hear the same events of the same bytes, in chunks of 1 to 40 bytes: prompts, CRs, empty lines, lines around 256 bytes. */
static void cutters_agree(void)
{
    static struct cutter c[2];
    static sim7000_desk desk;
    static uint8_t bytes[400000];
    cuts *const by[] = {cut, cut_by_memchr};
    uint64_t x = 1, told[SIM7000_TOLD];
    size_t n = 0, got = 0;
    while (n < sizeof bytes) {
        x = x * 6364136223846793005u + 1442695040888963407u;
        size_t run = (x >> 33) % 64 == 0 ? 246 + (x >> 40) % 12 : 0;
        for (size_t i = 0; i < run && n < sizeof bytes; i++)
            bytes[n++] = 'x';
        if (n < sizeof bytes)
            bytes[n++] = (uint8_t)"> \r\n\r\nab"[(x >> 50) % 8];
    }
    sim7000_reset(desk.state);
    for (size_t at = 0; at < n; at += got) {
        uint8_t text[3][256];
        size_t taken, size;
        x = x * 6364136223846793005u + 1442695040888963407u;
        size_t chunk = 1 + (x >> 33) % 40;
        if (chunk > n - at)
            chunk = n - at;
        if (sim7000_feed(desk.line, desk.state, desk.sent, bytes + at, chunk, text[2], 256, told) != 0)
            fail("a feed was refused");
        int event = told[0] == SIM7000_NO_EVENT ? 0 : told[0] == SIM7000_OVERLONG ? 2 : 1;
        got = told[1];
        for (int k = 0; k < 2; k++)
            if (by[k](&c[k], bytes + at, chunk, text[k], &taken, &size) != event || taken != got
                || (event && (size != told[2] || memcmp(text[k], text[2], size) != 0)))
                fail("a cutter and the desk hear different events");
    }
}

/* ---- lines: four sides in turns */

enum { THEIRS, IN_ORDER, READ, SORT, SIDES };

/* All sides answer alike on each line; so many are accepted, and the sum of the ordered trial is less by one for each registration. */
static size_t lines_agree(const struct lines *l, uint64_t *registrations)
{
    uint64_t values[SIM7000_VALUES];
    size_t len, accepted = 0;
    *registrations = 0;
    for (size_t i = 0; i < l->count; i++) {
        const uint8_t *line = line_at(l, i, &len);
        uint8_t theirs = rust_read_line(line, len), ours = sim7000_sort_line(line, len), read = sim7000_read_line(line, len, values);
        if (theirs != (ours < SIM7000_REFUSED ? ours : 0))
            fail("the Rust and the library take a line for different readers'");
        if (ours != (read == 0 ? values[0] : SIM7000_REFUSED + (uint64_t)read))
            fail("a line's values and its sort are of different readers");
        if (bench_sort_in_order(line, len) != (ours == SIM7000_NETWORK_REGISTRATION ? SIM7000_GNSS_REPORT : ours))
            fail("the ordered trial and the library take a line for different readers'");
        accepted += theirs != 0;
        *registrations += ours == SIM7000_NETWORK_REGISTRATION;
    }
    return accepted;
}

static size_t lines_timed(const struct lines *l, double best[SIDES])
{
    work *const sides[SIDES] = {their_read, in_order, our_read, our_sort};
    uint64_t sums[SIDES], registrations;
    size_t accepted = lines_agree(l, &registrations);
    timed(l, sides, SIDES, best, sums);
    if (sums[THEIRS] != sums[IN_ORDER] + registrations || sums[THEIRS] != sums[READ] || sums[THEIRS] != sums[SORT])
        fail("the sums of the lines differ");
    return accepted;
}

static void lines_bench(const char *name, const struct lines *l)
{
    double best[SIDES], n = (double)l->count * 1e-6;
    size_t accepted = lines_timed(l, best);
    printf("%s: %zu, of which %zu are accepted, %zu bytes\n", name, l->count, accepted, l->size - l->count);
    printf("  the Rust, both trials          %8.2f million lines a second\n", n / best[THEIRS]);
    printf("  the ordered trial, sorting     %8.2f million lines a second, %.2f times the Rust's\n", n / best[IN_ORDER], best[THEIRS] / best[IN_ORDER]);
    printf("  sim7000_read_line              %8.2f million lines a second, %.2f times the Rust's\n", n / best[READ], best[THEIRS] / best[READ]);
    printf("  sim7000_sort_line              %8.2f million lines a second, %.2f times the Rust's\n", n / best[SORT], best[THEIRS] / best[SORT]);
}

/* ---- the same by reader: the lines that it accepts, told by its number and where that is not enough by their front */

static const struct row {
    const char *name, *front;
    uint8_t reader;
} rows[] = {
    {"GenericOk", "", SIM7000_GENERIC_OK},
    {"SimError", "", SIM7000_SIM_ERROR},
    {"WritePrompt", "", SIM7000_WRITE_PROMPT},
    {"CloseOk", "", SIM7000_CLOSE_OK},
    {"Iccid", "", SIM7000_ICCID},
    {"SignalQuality", "", SIM7000_SIGNAL_QUALITY},
    {"SystemInfo", "", SIM7000_SYSTEM_INFO},
    {"OperatorInfo", "", SIM7000_OPERATOR_INFO},
    {"NetworkTime", "", SIM7000_NETWORK_TIME},
    {"DownloadInfo", "", SIM7000_DOWNLOAD_INFO},
    {"Imei", "", SIM7000_IMEI},
    {"SmsMessageFormat", "", SIM7000_SMS_MESSAGE_FORMAT},
    {"SmsMessage", "", SIM7000_SMS_MESSAGE},
    {"GnssReport", "", SIM7000_GNSS_REPORT},
    {"GnssReport, fixes", "+UGNSINF: 1,1,", SIM7000_GNSS_REPORT}, /* no other line has numerals, up to eight to a fix */
    {"CReg", "+CREG: ", SIM7000_NETWORK_REGISTRATION},
    {"CGReg", "+CGREG: ", SIM7000_NETWORK_REGISTRATION},
    {"CEReg", "+CEREG: ", SIM7000_NETWORK_REGISTRATION},
    {"no reader", "", 0},
};

#define REPEATED 20000 /* fewer lines are repeated in their order up to so many: else a reader's time would be too short to tell */

static struct lines own_lines(const struct lines *l, const struct row *row, size_t *count)
{
    size_t *which = malloc((l->count + REPEATED) * sizeof *which), size = 0, n = 0, len;
    for (size_t i = 0; i < l->count; i++) {
        const uint8_t *line = line_at(l, i, &len);
        if (rust_read_line(line, len) == row->reader && len >= strlen(row->front) && memcmp(line, row->front, strlen(row->front)) == 0)
            which[n++] = i;
    }
    *count = n;
    for (size_t i = 0; n > 0 && n < REPEATED; i++)
        which[n++] = which[i];
    for (size_t i = 0; i < n; i++)
        size += l->starts[which[i] + 1] - l->starts[which[i]];
    uint8_t *bytes = malloc(size + 1);
    size = 0;
    for (size_t i = 0; i < n; i++) {
        const uint8_t *line = line_at(l, which[i], &len);
        memcpy(bytes + size, line, len + 1);
        size += len + 1;
    }
    free(which);
    return lines_of(bytes, size);
}

#define ROWS (sizeof rows / sizeof *rows)
#define PASSES 3 /* over the whole table, so that what else the machine does meets no reader alone */

static void readers_bench(const char *name, const struct lines *l)
{
    struct lines own[ROWS];
    size_t count[ROWS];
    double best[ROWS][SIDES], took[SIDES];
    for (size_t k = 0; k < ROWS; k++)
        own[k] = own_lines(l, &rows[k], &count[k]);
    for (int pass = 0; pass < PASSES; pass++) {
        for (size_t k = 0; k < ROWS; k++) {
            lines_timed(&own[k], took);
            for (int side = 0; side < SIDES; side++)
                if (pass == 0 || took[side] < best[k][side])
                    best[k][side] = took[side];
        }
    }
    printf("by reader, its lines among %s, repeated up to %d; in millions a second\n", name, REPEATED);
    printf("  %-18s %6s %9s %9s  %-30s %s\n", "", "lines", "the Rust", "in order", "sim7000_read_line", "sim7000_sort_line");
    for (size_t k = 0; k < ROWS; k++) {
        const double *b = best[k], n = (double)own[k].count * 1e-6;
        if (count[k] > 0)
            printf("  %-18s %6zu %9.2f %9.2f %7.2f, %.2f times the Rust's %7.2f, %.2f times the Rust's\n", rows[k].name, count[k], n / b[THEIRS],
                   n / b[IN_ORDER], n / b[READ], b[THEIRS] / b[READ], n / b[SORT], b[THEIRS] / b[SORT]);
    }
}

/* ---- feeds beside both cutters */

static void told_feed(const char *name, double took, double readers, double plain, double bytes)
{
    printf("  %-30s %8.2f ns a byte, %7.1f MB/s; less the readers %.2f ns, %.2f times the cutter's\n", name, took / bytes * 1e9, bytes / took * 1e-6,
           (took - readers) / bytes * 1e9, (took - readers) / plain);
}

static const struct lines *cut_already;

/* The readers take their turns among the feeds, over the same lines. */
static uint64_t readers_alone(const struct lines *l)
{
    (void)l;
    return our_sort(cut_already);
}

/* `text` are the lines without CR LF, `wire` the same bytes with it. */
static void feed_bench(const char *name, const struct lines *text, const struct lines *wire)
{
    work *const sides[] = {plain_cut, memchr_cut, lent_feed, echo_feed, value_feed, readers_alone};
    double best[6];
    uint64_t sums[6];
    cut_already = text;
    timed(wire, sides, 6, best, sums);
    for (int k = 1; k < 5; k++)
        if (sums[0] != sums[k])
            fail("the cutters and the desk hear different lines");
    double bytes = (double)wire->size, readers = best[5];
    printf("feed, %s: %zu bytes\n", name, wire->size);
    printf("  a plain cutter in C            %8.2f ns a byte, %7.1f MB/s\n", best[0] / bytes * 1e9, bytes / best[0] * 1e-6);
    printf("  a cutter by memchr and memcpy  %8.2f ns a byte, %7.1f MB/s\n", best[1] / bytes * 1e9, bytes / best[1] * 1e-6);
    printf("  the readers alone              %8.2f ns a byte\n", readers / bytes * 1e9);
    told_feed("sim7000_feed, the desk lent", best[2], readers, best[0], bytes);
    printf("    which is %.2f times the memchr cutter's\n", (best[2] - readers) / best[1]);
    told_feed("the same, an echo awaited", best[3], readers, best[0], bytes);
    printf("    which is %.2f times the plain feed's\n", best[3] / best[2]);
    told_feed("Desk::feed, by value", best[4], readers, best[0], bytes);
}

/* ---- commands */

static const char *const names[] = {"GetSignalQuality", "ShowIccid", "GetImei", "GetOperatorInfo", "SetManualOperator", "SetAutomaticOperator",
                                    "GetSystemInfo", "SynchronizeNetworkTime", "Execute", "DownloadToFileSystem", "GetSmsMessageFormat",
                                    "SetSmsMessageFormat", "ReadSms"};

struct asked {
    uint8_t request, code;
    uint16_t number;
    const uint8_t *first, *second;
    size_t first_len, second_len;
};

static struct asked *ours;
static size_t asked_count;
static struct requests *theirs;

/* A number without leading zeros or sign, to keep the parse simple; any other request of the list is left out. */
static int plain_number(const uint8_t *text, size_t len, unsigned most, unsigned *value)
{
    unsigned n = 0;
    if (len == 0 || len > 5)
        return 0;
    for (size_t i = 0; i < len; i++) {
        if (text[i] < '0' || text[i] > '9')
            return 0;
        n = n * 10 + (unsigned)(text[i] - '0');
    }
    *value = n;
    return n <= most;
}

static int parse_request(const uint8_t *line, size_t len, struct asked *a)
{
    const uint8_t *field[5];
    size_t size[5], n = 0, from = 0;
    unsigned x = 0, y = 0;
    for (size_t i = 0; i <= len; i++) {
        if (i == len || line[i] == '\t') {
            if (n == 5)
                return 0;
            field[n] = line + from;
            size[n++] = i - from;
            from = i + 1;
        }
    }
    for (uint8_t k = 0; k < 13; k++) {
        if (size[0] != strlen(names[k]) || memcmp(field[0], names[k], size[0]) != 0)
            continue;
        *a = (struct asked){k, 0, 0, line, line, 0, 0};
        switch (k) {
        case SIM7000_SET_MANUAL_OPERATOR:
            a->first = field[1];
            a->first_len = size[1];
            return n == 2;
        case SIM7000_SYNCHRONIZE_NETWORK_TIME:
            if (n != 4 || !plain_number(field[2], size[2], 65535, &x) || !plain_number(field[3], size[3], 255, &y))
                return 0;
            *a = (struct asked){k, (uint8_t)y, (uint16_t)x, field[1], line, size[1], 0};
            return 1;
        case SIM7000_DOWNLOAD_TO_FILE_SYSTEM:
            if (n != 3)
                return 0;
            *a = (struct asked){k, 0, 0, field[1], field[2], size[1], size[2]};
            return 1;
        case SIM7000_SET_SMS_MESSAGE_FORMAT:
            if (n != 2 || size[1] < 3)
                return 0;
            a->code = memcmp(field[1], "Pdu", 3) != 0;
            return size[1] == (a->code ? 4u : 3u) && memcmp(field[1], a->code ? "Text" : "Pdu", size[1]) == 0;
        case SIM7000_READ_SMS:
            if (n != 2 || !plain_number(field[1], size[1], 255, &x))
                return 0;
            a->code = (uint8_t)x;
            return 1;
        default:
            return n == 1;
        }
    }
    return 0;
}

static uint64_t our_commands(const struct lines *l)
{
    uint8_t out[256];
    uint64_t sum = 0, size = 0;
    (void)l;
    for (size_t i = 0; i < asked_count; i++) {
        const struct asked *a = ours + i;
        if (sim7000_write_command(a->request, a->number, a->code, a->first, a->first_len, a->second, a->second_len, out, sizeof out, &size) != 0)
            fail("a request was refused");
        keep(out);
        sum += size;
    }
    return sum;
}

static uint64_t their_commands(const struct lines *l)
{
    (void)l;
    return rust_commands(theirs);
}

static void commands_bench(const struct lines *l)
{
    uint8_t out[256], command[256];
    size_t len, with_texts = 0;
    uint64_t size = 0;
    ours = malloc(l->count * sizeof *ours);
    theirs = rust_requests();
    for (size_t i = 0; i < l->count; i++) {
        struct asked *a = ours + asked_count;
        const uint8_t *line = line_at(l, i, &len);
        if (!parse_request(line, len, a))
            continue;
        rust_ask(theirs, a->request, a->number, a->code, a->first, a->first_len, a->second, a->second_len);
        if (sim7000_write_command(a->request, a->number, a->code, a->first, a->first_len, a->second, a->second_len, out, sizeof out, &size) != 0)
            fail("a request was refused");
        if (size != rust_command(theirs, asked_count, command) || memcmp(out, command, size) != 0)
            fail("the Rust and the library write different commands");
        with_texts += a->first_len > 0;
        asked_count++;
    }
    work *const sides[] = {their_commands, our_commands};
    double best[2];
    uint64_t sums[2];
    timed(l, sides, 2, best, sums);
    if (sums[0] != sums[1])
        fail("the sums of the commands differ");
    double n = (double)asked_count * 1e-6;
    printf("commands: %zu, of which %zu have texts\n", asked_count, with_texts);
    printf("  the Rust's encode              %8.2f million a second\n", n / best[0]);
    printf("  sim7000_write_command          %8.2f million a second, %.2f times the Rust's\n", n / best[1], best[0] / best[1]);
}

int main(int argc, char **argv)
{
    if (argc != 4)
        fail("usage: bench LINES BUSY REQUESTS");
    struct lines mixed = read_file(argv[1]), busy = read_file(argv[2]), requests = read_file(argv[3]);
    struct lines mixed_wire = framed(&mixed), busy_wire = framed(&busy), even = noise(100000, 32), even_wire = framed(&even);
    cutters_agree();
    lines_bench("the mixed lines", &mixed);
    lines_bench("the busy lines", &busy);
    readers_bench("the mixed lines", &mixed);
    feed_bench("lines of 32 bytes", &even, &even_wire);
    feed_bench("the mixed lines", &mixed, &mixed_wire);
    feed_bench("the busy lines", &busy, &busy_wire);
    commands_bench(&requests);
    return 0;
}
