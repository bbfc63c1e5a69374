/* What firmware links of sim7000, for C99 or later and for C++. `rt lib` in crates/sim7000 writes
 * out/libsim7000.a there: ELF, for x86-64 and its System V calling convention.
 *
 * A main loop takes five calls: sim7000_desk_open_echo writes a command and awaits its answers, sim7000_desk_feed takes the modem's bytes and tells
 * what each line is to that command, sim7000_read reads the line, sim7000_as_.. hands its values over in a struct, and sim7000_desk_reset gives a
 * command up after a time-out, of which this library knows nothing. example.c is such a loop.
 *
 * What is proved is the archive: each of its calls ends, for all bytes, lengths and states, and answers what the definitions in crates/sim7000/specs
 * say. The inline calls here are plain C over them. They are tested (bindings/test-c), not proved.
 *
 * Refusals. A call answers 0, or the number of why it refuses; then nothing that was lent to it has changed.
 *
 * What a caller owes. A pointer leads to as many bytes as the length beside it says. In the inline calls NULL is allowed where that length is 0, and
 * for sim7000_string, and nowhere else: no desk, request, size, line, reader or heard is NULL. The archive's own calls want pointers that are not null for no
 * bytes too. What a call writes overlaps nothing else that it is lent: not out with a text of the request, not the text buffer with the chunk. What it only reads may
 * overlap: both texts of a request may be the same bytes.
 *
 * What it needs. Of the C library memcpy alone: no heap, no file, no clock. Some 43 kilobytes of
 * code and constants and no writable data, so that calls on different desks and buffers may run at
 * the same time; of calls on one desk each begins when the one before it has ended, and that is the
 * caller's to see to. For the stack count 1536 bytes a call of the archive, and some 200 more for
 * an inline one: measured on a painted stack, over the stored list of lines, the deepest was
 * sim7000_read_line with 1424, and bindings/test-c measures it again. The code uses the SSE
 * registers and the 128 bytes below the stack pointer, as the convention allows: think of both
 * before calling it in an interrupt. Of <string.h> this header uses memcpy alone.
 *
 * Later versions add refusals, readers, events and requests: give a switch over an enum a default. */
#ifndef SIM7000_H
#define SIM7000_H

#include <stddef.h>
#include <stdint.h>
#include <string.h>

#ifdef _WIN32
#error "libsim7000.a has the System V calling convention, which Windows does not"
#endif

#ifdef __cplusplus
extern "C" {
#endif

/* ---- the version of this header; sim7000_version() is the archive's: where they differ, one of the two is of another build */

#define SIM7000_VERSION_MAJOR 0
#define SIM7000_VERSION_MINOR 9
#define SIM7000_VERSION_PATCH 0
#define SIM7000_VERSION (SIM7000_VERSION_MAJOR * 10000 + SIM7000_VERSION_MINOR * 100 + SIM7000_VERSION_PATCH)

/* ---- sizes, in bytes where nothing else is said */

#define SIM7000_LONGEST_LINE 256    /* of a line without its CR LF; a longer one is refused, and dropped by a desk */
#define SIM7000_LONGEST_COMMAND 210 /* with its CR: an output buffer of so many is never too short */
#define SIM7000_TEXT_BUFFER 256     /* the least that a feed wants for the line that it hands over */

#define SIM7000_LONGEST_NTP_SERVER 64 /* the texts of requests */
#define SIM7000_LONGEST_URL 64
#define SIM7000_LONGEST_FILE_PATH 32
#define SIM7000_LONGEST_PLMN 6

#define SIM7000_LONGEST_SENDER 20 /* texts in a line */
#define SIM7000_LONGEST_TIME 32

#define SIM7000_LINE 257  /* what a desk holds of the line that is coming: the longest, and its CR */
#define SIM7000_STATE 4   /* how many numbers a desk's state has */
#define SIM7000_TOLD 5    /* how many numbers the archive's feed tells */
#define SIM7000_VALUES 20 /* how many numbers a line is read into */

/* ---- refusals: documents 01 and 02 give the numbers */

typedef enum sim7000_refusal {
    SIM7000_NO_REFUSAL = 0,
    SIM7000_LINE_TOO_LONG = 1,        /* more than SIM7000_LONGEST_LINE */
    SIM7000_LINE_NOT_UTF8 = 2,
    SIM7000_NOT_ACCEPTED = 3,         /* no reader accepts the line; no request has the number */
    SIM7000_TEXT_IN_LINE_LONG = 4,    /* a sender above SIM7000_LONGEST_SENDER, a network time above SIM7000_LONGEST_TIME */
    SIM7000_TEXT_TOO_LONG = 5,        /* a request's text */
    SIM7000_TEXT_NOT_PLAIN = 6,       /* a request's text has a byte outside 32 to 126 */
    SIM7000_OUT_TOO_SHORT = 7,        /* the output buffer is shorter than the command */
    SIM7000_COMMAND_OPEN = 8,         /* of an open, while a command is open */
    SIM7000_LINE_UNFINISHED = 9,      /* of an open, while a line has begun and not ended */
    SIM7000_TEXT_BUFFER_SHORT = 10,   /* of a feed, with less than SIM7000_TEXT_BUFFER */
    SIM7000_NOT_OPERATOR_NUMBER = 12, /* a plmn that is not five or six digits */
    SIM7000_NO_SUCH_DATE = 13         /* a GNSS fix whose date field is no date and time of 1980 to 2099 */
} sim7000_refusal;

/* ---- lines: which reader took it, and the codes that its values may be */

typedef enum sim7000_reader {
    SIM7000_GENERIC_OK = 1,           /* OK, SHUT OK */
    SIM7000_SIM_ERROR = 2,            /* ERROR, +CME ERROR, +CMS ERROR */
    SIM7000_WRITE_PROMPT = 3,         /* "> ", with which the modem asks for a text */
    SIM7000_CLOSE_OK = 4,             /* .., CLOSE OK */
    SIM7000_ICCID = 5,                /* 89.., 19 or 20 characters without any f or F at the end */
    SIM7000_SIGNAL_QUALITY = 6,       /* +CSQ */
    SIM7000_SYSTEM_INFO = 7,          /* +CPSI */
    SIM7000_OPERATOR_INFO = 8,        /* +COPS */
    SIM7000_NETWORK_TIME = 9,         /* +CNTP */
    SIM7000_DOWNLOAD_INFO = 10,       /* +HTTPTOFS */
    SIM7000_IMEI = 11,                /* fifteen digits with a right check digit, or sixteen */
    SIM7000_SMS_MESSAGE_FORMAT = 12,  /* +CMGF */
    SIM7000_SMS_MESSAGE = 13,         /* +CMGR */
    SIM7000_GNSS_REPORT = 14,         /* +UGNSINF, unsolicited */
    SIM7000_NETWORK_REGISTRATION = 15 /* +CREG, +CGREG, +CEREG, unsolicited */
} sim7000_reader;

typedef enum sim7000_error_kind { SIM7000_ERROR_GENERIC = 0, SIM7000_ERROR_CME = 1, SIM7000_ERROR_CMS = 2 } sim7000_error_kind;

typedef enum sim7000_system_mode {
    SIM7000_SYSTEM_NO_SERVICE = 0,
    SIM7000_SYSTEM_GSM = 1,
    SIM7000_SYSTEM_LTE_CAT_M1 = 2,
    SIM7000_SYSTEM_LTE_NB_IOT = 3
} sim7000_system_mode;

typedef enum sim7000_operation_mode {
    SIM7000_OPERATION_ONLINE = 0,
    SIM7000_OPERATION_OFFLINE = 1,
    SIM7000_OPERATION_FACTORY_TEST = 2,
    SIM7000_OPERATION_RESET = 3,
    SIM7000_OPERATION_LOW_POWER = 4
} sim7000_operation_mode;

typedef enum sim7000_operator_mode {
    SIM7000_OPERATOR_AUTOMATIC = 0,
    SIM7000_OPERATOR_MANUAL = 1,
    SIM7000_OPERATOR_MANUAL_DEREGISTER = 2,
    SIM7000_OPERATOR_MANUAL_AUTOMATIC = 4
} sim7000_operator_mode;

typedef enum sim7000_operator_format { SIM7000_FORMAT_LONG = 0, SIM7000_FORMAT_SHORT = 1, SIM7000_FORMAT_NUMERIC = 2 } sim7000_operator_format;

typedef enum sim7000_ntp_code {
    SIM7000_NTP_SUCCESS = 1,
    SIM7000_NTP_NETWORK_ERROR = 61,
    SIM7000_NTP_DNS_RESOLUTION_ERROR = 62,
    SIM7000_NTP_CONNECTION_ERROR = 63,
    SIM7000_NTP_SERVICE_RESPONSE_ERROR = 64,
    SIM7000_NTP_SERVICE_RESPONSE_TIMEOUT = 65
} sim7000_ntp_code;

typedef enum sim7000_http_code {
    SIM7000_HTTP_OTHER_ERRORS = 0, /* every code that is not below */
    SIM7000_HTTP_CONTINUE = 100,
    SIM7000_HTTP_OK = 200,
    SIM7000_HTTP_PARTIAL_CONTENT = 206,
    SIM7000_HTTP_BAD_REQUEST = 400,
    SIM7000_HTTP_NOT_FOUND = 404,
    SIM7000_HTTP_REQUEST_TIMEOUT = 408,
    SIM7000_HTTP_INTERNAL_SERVER_ERROR = 500,
    SIM7000_HTTP_NOT_HTTP_PDU = 600,
    SIM7000_HTTP_NETWORK_ERROR = 601,
    SIM7000_HTTP_NO_MEMORY = 602,
    SIM7000_HTTP_DNS_ERROR = 603,
    SIM7000_HTTP_STACK_BUSY = 604,
    SIM7000_HTTP_SSL_CONTINUE = 620
} sim7000_http_code;

typedef enum sim7000_sms_message_format { SIM7000_SMS_PDU = 0, SIM7000_SMS_TEXT = 1 } sim7000_sms_message_format;

typedef enum sim7000_gnss_status { SIM7000_GNSS_NOT_ENABLED = 0, SIM7000_GNSS_NO_FIX = 1, SIM7000_GNSS_FIX = 2 } sim7000_gnss_status;

typedef enum sim7000_registration_status {
    SIM7000_REGISTRATION_NOT_REGISTERED = 0, /* and every number that is not below */
    SIM7000_REGISTRATION_REGISTERED_HOME = 1,
    SIM7000_REGISTRATION_SEARCHING = 2,
    SIM7000_REGISTRATION_DENIED = 3,
    SIM7000_REGISTRATION_UNKNOWN = 4,
    SIM7000_REGISTRATION_REGISTERED_ROAMING = 5
} sim7000_registration_status;

/* ---- requests: behind each the answers that it awaits, in their order; the last one is Done, any before it Taken */

typedef enum sim7000_request_kind {
    SIM7000_GET_SIGNAL_QUALITY = 0,       /* SIM7000_SIGNAL_QUALITY, SIM7000_GENERIC_OK */
    SIM7000_SHOW_ICCID = 1,               /* SIM7000_ICCID, SIM7000_GENERIC_OK */
    SIM7000_GET_IMEI = 2,                 /* SIM7000_IMEI, SIM7000_GENERIC_OK */
    SIM7000_GET_OPERATOR_INFO = 3,        /* SIM7000_OPERATOR_INFO, SIM7000_GENERIC_OK */
    SIM7000_SET_MANUAL_OPERATOR = 4,      /* SIM7000_GENERIC_OK */
    SIM7000_SET_AUTOMATIC_OPERATOR = 5,   /* SIM7000_GENERIC_OK */
    SIM7000_GET_SYSTEM_INFO = 6,          /* SIM7000_SYSTEM_INFO, SIM7000_GENERIC_OK */
    SIM7000_SYNCHRONIZE_NETWORK_TIME = 7, /* SIM7000_GENERIC_OK */
    SIM7000_EXECUTE = 8,                  /* SIM7000_GENERIC_OK, SIM7000_NETWORK_TIME */
    SIM7000_DOWNLOAD_TO_FILE_SYSTEM = 9,  /* SIM7000_GENERIC_OK, SIM7000_DOWNLOAD_INFO */
    SIM7000_GET_SMS_MESSAGE_FORMAT = 10,  /* SIM7000_SMS_MESSAGE_FORMAT, SIM7000_GENERIC_OK */
    SIM7000_SET_SMS_MESSAGE_FORMAT = 11,  /* SIM7000_GENERIC_OK */
    SIM7000_READ_SMS = 12                 /* SIM7000_SMS_MESSAGE, SIM7000_GENERIC_OK */
} sim7000_request_kind;

/* ---- events: what a line is to the command that is open */

typedef enum sim7000_event {
    SIM7000_NO_EVENT = 0,    /* all bytes are taken, and none yielded an event */
    SIM7000_UNSOLICITED = 1, /* a line that the modem sends by itself, with or without a command */
    SIM7000_TAKEN = 2,       /* an awaited answer, with another awaited behind it */
    SIM7000_DONE = 3,        /* the last awaited answer; closes the command */
    SIM7000_SHORT = 4,       /* OK, with another answer awaited; closes the command */
    SIM7000_FAILED = 5,      /* an error; closes the command */
    SIM7000_STRAY = 6,       /* any other line, with why it is refused, or no refusal where a reader takes it */
    SIM7000_OVERLONG = 7,    /* the end of a line of more than SIM7000_LONGEST_LINE, which is gone */
    SIM7000_ECHO = 8         /* the command, sent back, after an open in echo mode; it may end with a CR: modems send the command, CR, CR LF */
} sim7000_event;

/* ---- the archive's own calls, which the inline ones below are over. They take numbers where those have enums, no NULL, and a desk in parts: do not
 * mix those of two desks. */

/* SIM7000_VERSION of the header that goes with the archive. */
uint32_t sim7000_version(void);

/* The line without its CR LF: 0, with all the values set; or 1, 2, then 4 or 13, then 3. values[0] is the reader. Behind it:
 *   SIM_ERROR             kind; code, 0 for a generic one
 *   CLOSE_OK              connection
 *   ICCID                 country; issuer; account
 *   SIGNAL_QUALITY        1 or 0; signal_strength; 1 or 0; signal_quality
 *   SYSTEM_INFO           system_mode; operation_mode
 *   OPERATOR_INFO         mode; format; 1 where the line has no name, else 0; start and end of the name
 *   NETWORK_TIME          code; 1 or 0; start and end of the time
 *   DOWNLOAD_INFO         status_code; data_length
 *   IMEI                  start and end; 1 for a version number, else 0
 *   SMS_MESSAGE_FORMAT    format
 *   SMS_MESSAGE           start and end of the sender
 *   GNSS_REPORT           NOT_ENABLED; or NO_FIX, 1 or 0, satellites in view; or FIX, year, month, day, hour, minute, second, latitude, longitude,
 *                         altitude, speed_over_ground, course_over_ground, hdop, pdop, vdop, sat_gps_in_view, sat_gnss_used, sat_glonass_used,
 *                         signal_noise_ratio
 *   NETWORK_REGISTRATION  status; 1 or 0; lac; 1 or 0; ci
 * A float is its 32 bits. A text is its start and end in the line. What may be absent stands behind a 1, or is 0 behind a 0. All other values are 0. */
uint8_t sim7000_read_line(const uint8_t *line, size_t line_len, uint64_t values[SIM7000_VALUES]);

/* The same without values: the reader, or SIM7000_REFUSED and the refusal. */
#define SIM7000_REFUSED 128
uint8_t sim7000_sort_line(const uint8_t *line, size_t line_len);

/* Of the four parameters behind the request, SET_MANUAL_OPERATOR takes first: plmn; SYNCHRONIZE_NETWORK_TIME number: timezone, code: cid and first:
 * ntp_server; DOWNLOAD_TO_FILE_SYSTEM first: url and second: file_path; SET_SMS_MESSAGE_FORMAT code: 0 or 1; READ_SMS code: index. The others may be
 * anything. 0, with the command in front of out, nothing behind it changed, and its size in *size; or 3 for no such request or format, then 5, 12, 6, 7. */
uint8_t sim7000_write_command(uint8_t request, uint16_t number, uint8_t code, const uint8_t *first, size_t first_len, const uint8_t *second,
                              size_t second_len, uint8_t *out, size_t out_len, uint64_t *size);

/* The same, and the command's answers are awaited, and lines counted from 1 again: 0; or 3, 8, 9, 5, 12, 6, 7. */
uint8_t sim7000_open(uint64_t state[SIM7000_STATE], uint8_t request, uint16_t number, uint8_t code, const uint8_t *first, size_t first_len,
                     const uint8_t *second, size_t second_len, uint8_t *out, size_t out_len, uint64_t *size);

/* The same in echo mode. The command is kept in sent. */
uint8_t sim7000_open_echo(uint64_t state[SIM7000_STATE], uint8_t sent[SIM7000_LONGEST_COMMAND], uint8_t request, uint16_t number, uint8_t code,
                          const uint8_t *first, size_t first_len, const uint8_t *second, size_t second_len, uint8_t *out, size_t out_len, uint64_t *size);

/* 0, or 10. told[0] is the event, told[1] the bytes taken, told[2] the size of the line in text, told[3] the refusal of a stray, told[4] the ordinal of
 * the line. Without an event all but told[1] are 0. */
uint8_t sim7000_feed(uint8_t line[SIM7000_LINE], uint64_t state[SIM7000_STATE], const uint8_t sent[SIM7000_LONGEST_COMMAND], const uint8_t *chunk,
                     size_t chunk_len, uint8_t *text, size_t text_len, uint64_t told[SIM7000_TOLD]);

/* As sim7000_desk_reset below. */
void sim7000_reset(uint64_t state[SIM7000_STATE]);

/* 1 while a command is open, else 0: whether state[1] is 1 to 182. */
uint8_t sim7000_is_open(const uint64_t state[SIM7000_STATE]);

/* ---- a text: bytes with their number, and no NUL behind them. To print one, up to a NUL that the modem may have sent in it:
 *     printf("%.*s", (int)text.size, (const char *)text.bytes) */

typedef struct sim7000_text {
    const uint8_t *bytes;
    size_t size;
} sim7000_text;

static inline sim7000_text sim7000_text_of(const uint8_t *bytes, size_t size)
{
    sim7000_text text;
    text.bytes = bytes;
    text.size = size;
    return text;
}

/* A C string, which lives as long as the text is used; NULL is an empty one. No more than 65 bytes of it are looked at and kept: each request refuses so
 * many, with SIM7000_TEXT_TOO_LONG. */
static inline sim7000_text sim7000_string(const char *string)
{
    size_t size = 0;
    while (string != NULL && size <= SIM7000_LONGEST_URL && string[size] != '\0')
        size++;
    return sim7000_text_of((const uint8_t *)string, size);
}

/* ---- a line's values */

/* What was read, and by which reader. It holds the line's address and not its bytes: keep these as long as a text of it is used. */
typedef struct sim7000_line {
    sim7000_reader reader;
    sim7000_text text;
    uint64_t values[SIM7000_VALUES];
} sim7000_line;

/* The line without its CR LF, as a feed hands it over: SIM7000_NO_REFUSAL; or LINE_TOO_LONG, LINE_NOT_UTF8, then TEXT_IN_LINE_LONG or NO_SUCH_DATE, then
 * NOT_ACCEPTED. */
static inline sim7000_refusal sim7000_read(const uint8_t *line, size_t line_len, sim7000_line *read)
{
    const uint8_t none = 0;
    uint8_t answer = sim7000_read_line(line_len != 0 ? line : &none, line_len, read->values);
    if (answer == 0) {
        read->reader = (sim7000_reader)read->values[0];
        read->text = sim7000_text_of(line, line_len);
    }
    return (sim7000_refusal)answer;
}

/* The reader alone: SIM7000_NO_REFUSAL with *reader set, or the same refusal. */
static inline sim7000_refusal sim7000_sort(const uint8_t *line, size_t line_len, sim7000_reader *reader)
{
    const uint8_t none = 0;
    uint8_t answer = sim7000_sort_line(line_len != 0 ? line : &none, line_len);
    if (answer >= SIM7000_REFUSED)
        return (sim7000_refusal)(answer - SIM7000_REFUSED);
    *reader = (sim7000_reader)answer;
    return SIM7000_NO_REFUSAL;
}

/* The structs have the published program's names. A text in one is a part of the line that was read, no copy. What may be absent has a has_.. before
 * it, 1 or 0, and is 0 or empty where it is absent. Each sim7000_as_.. is for its own reader: of a line that another took all is 0, and texts are empty.
 * Names that end in _ are this header's own. */

static inline const uint64_t *sim7000_values_(const sim7000_line *line, int wanted)
{
    static const uint64_t zeros[SIM7000_VALUES] = {0};
    return wanted ? line->values : zeros;
}

static inline sim7000_text sim7000_part_(const sim7000_line *line, uint64_t start, uint64_t end)
{
    return sim7000_text_of(start != 0 ? line->text.bytes + start : line->text.bytes, (size_t)(end - start));
}

static inline float sim7000_float_(uint64_t value)
{
    uint32_t bits = (uint32_t)value;
    float number;
    memcpy(&number, &bits, sizeof number);
    return number;
}

typedef struct sim7000_sim_error {
    sim7000_error_kind kind;
    uint32_t code; /* of +CME ERROR and +CMS ERROR; 0 for the generic ERROR */
} sim7000_sim_error;

static inline sim7000_sim_error sim7000_as_sim_error(const sim7000_line *line)
{
    const uint64_t *values = sim7000_values_(line, line->reader == SIM7000_SIM_ERROR);
    sim7000_sim_error error;
    error.kind = (sim7000_error_kind)values[1];
    error.code = (uint32_t)values[2];
    return error;
}

typedef struct sim7000_close_ok {
    uint64_t connection;
} sim7000_close_ok;

static inline sim7000_close_ok sim7000_as_close_ok(const sim7000_line *line)
{
    const uint64_t *values = sim7000_values_(line, line->reader == SIM7000_CLOSE_OK);
    sim7000_close_ok close_ok;
    close_ok.connection = values[1];
    return close_ok;
}

typedef struct sim7000_iccid {
    uint8_t country;  /* the two digits behind the 89 */
    uint8_t issuer;   /* the next two */
    uint64_t account; /* all that follow, as one number, a check digit too */
} sim7000_iccid;

static inline sim7000_iccid sim7000_as_iccid(const sim7000_line *line)
{
    const uint64_t *values = sim7000_values_(line, line->reader == SIM7000_ICCID);
    sim7000_iccid iccid;
    iccid.country = (uint8_t)values[1];
    iccid.issuer = (uint8_t)values[2];
    iccid.account = values[3];
    return iccid;
}

/* In percent; absent where the modem says 99. */
typedef struct sim7000_signal_quality {
    uint8_t has_signal_strength;
    float signal_strength; /* 0 at -115 dBm, 100 at -52 dBm */
    uint8_t has_signal_quality;
    float signal_quality; /* 100 less the bit error rate */
} sim7000_signal_quality;

static inline sim7000_signal_quality sim7000_as_signal_quality(const sim7000_line *line)
{
    const uint64_t *values = sim7000_values_(line, line->reader == SIM7000_SIGNAL_QUALITY);
    sim7000_signal_quality quality;
    quality.has_signal_strength = (uint8_t)values[1];
    quality.signal_strength = sim7000_float_(values[2]);
    quality.has_signal_quality = (uint8_t)values[3];
    quality.signal_quality = sim7000_float_(values[4]);
    return quality;
}

typedef struct sim7000_system_info {
    sim7000_system_mode system_mode;
    sim7000_operation_mode operation_mode;
} sim7000_system_info;

static inline sim7000_system_info sim7000_as_system_info(const sim7000_line *line)
{
    const uint64_t *values = sim7000_values_(line, line->reader == SIM7000_SYSTEM_INFO);
    sim7000_system_info info;
    info.system_mode = (sim7000_system_mode)values[1];
    info.operation_mode = (sim7000_operation_mode)values[2];
    return info;
}

typedef struct sim7000_operator_info {
    sim7000_operator_mode mode;
    sim7000_operator_format format; /* SIM7000_FORMAT_LONG too where the line has none */
    sim7000_text operator_name;     /* without the quotes around it; empty too where the line has none */
} sim7000_operator_info;

static inline sim7000_operator_info sim7000_as_operator_info(const sim7000_line *line)
{
    const uint64_t *values = sim7000_values_(line, line->reader == SIM7000_OPERATOR_INFO);
    sim7000_operator_info info;
    info.mode = (sim7000_operator_mode)values[1];
    info.format = (sim7000_operator_format)values[2];
    info.operator_name = sim7000_part_(line, values[4], values[5]); /* values[3] is 1 where these are 0 and 0 */
    return info;
}

typedef struct sim7000_network_time {
    sim7000_ntp_code code;
    uint8_t has_time;
    sim7000_text time; /* all behind the first comma as it stands, quotes too */
} sim7000_network_time;

static inline sim7000_network_time sim7000_as_network_time(const sim7000_line *line)
{
    const uint64_t *values = sim7000_values_(line, line->reader == SIM7000_NETWORK_TIME);
    sim7000_network_time time;
    time.code = (sim7000_ntp_code)values[1];
    time.has_time = (uint8_t)values[2];
    time.time = sim7000_part_(line, values[3], values[4]);
    return time;
}

typedef struct sim7000_download_info {
    sim7000_http_code status_code;
    uint64_t data_length; /* bytes, by the modem's manual; 0 too where the line has none, or no number there */
} sim7000_download_info;

static inline sim7000_download_info sim7000_as_download_info(const sim7000_line *line)
{
    const uint64_t *values = sim7000_values_(line, line->reader == SIM7000_DOWNLOAD_INFO);
    sim7000_download_info info;
    info.status_code = (sim7000_http_code)values[1];
    info.data_length = values[2];
    return info;
}

typedef struct sim7000_imei {
    sim7000_text imei;         /* the whole line: fifteen digits, of which the last is the check digit, or sixteen */
    uint8_t is_version_number; /* 1 for sixteen, an IMEISV: the last two are the software's version, and none is a check digit (TS 23.003, 6.2) */
} sim7000_imei;

static inline sim7000_imei sim7000_as_imei(const sim7000_line *line)
{
    const uint64_t *values = sim7000_values_(line, line->reader == SIM7000_IMEI);
    sim7000_imei imei;
    imei.imei = sim7000_part_(line, values[1], values[2]);
    imei.is_version_number = (uint8_t)values[3];
    return imei;
}

static inline sim7000_sms_message_format sim7000_as_sms_message_format(const sim7000_line *line)
{
    return (sim7000_sms_message_format)sim7000_values_(line, line->reader == SIM7000_SMS_MESSAGE_FORMAT)[1];
}

typedef struct sim7000_sms_message {
    sim7000_text sender; /* without the quotes around it. The message follows in lines of its own, which are read like any others */
} sim7000_sms_message;

static inline sim7000_sms_message sim7000_as_sms_message(const sim7000_line *line)
{
    const uint64_t *values = sim7000_values_(line, line->reader == SIM7000_SMS_MESSAGE);
    sim7000_sms_message message;
    message.sender = sim7000_part_(line, values[1], values[2]);
    return message;
}

/* A date and time that exists in the Gregorian calendar, from 1980 to 2099; in UTC, as the modem's AT manual has it. */
typedef struct sim7000_date_time {
    uint16_t year;
    uint8_t month;
    uint8_t day;
    uint8_t hour;
    uint8_t minute;
    uint8_t second; /* to 59; what the line says of fractions is left out */
} sim7000_date_time;

/* The units are those of the modem's AT manual (AT+CGNSINF). They are not checked here, and neither are ranges. A float is a single one, of some 7 digits,
 * the nearest to what the line says, never infinite or a NaN; beyond 128 degrees of longitude its steps are 0.000015 degrees, 1.7 metres at the equator.
 * Of what stands behind altitude each may be empty in the line, and is 0 then. */
typedef struct sim7000_gnss_fix {
    sim7000_date_time date_time;
    float latitude;              /* degrees, WGS 84, south below 0 */
    float longitude;             /* degrees, WGS 84, west below 0 */
    float altitude;              /* metres above mean sea level */
    float speed_over_ground;     /* kilometres an hour */
    float course_over_ground;    /* degrees */
    float hdop;                  /* dilution of precision, a plain number: horizontal, position, vertical */
    float pdop;
    float vdop;
    uint32_t sat_gps_in_view;    /* satellites; which these three are the manual leaves unclear, as the published program notes */
    uint32_t sat_gnss_used;
    uint32_t sat_glonass_used;
    uint32_t signal_noise_ratio; /* the greatest C/N0, dBHz */
} sim7000_gnss_fix;

typedef struct sim7000_gnss_report {
    sim7000_gnss_status status;
    uint8_t has_sat_gps_view; /* 1 at SIM7000_GNSS_NO_FIX alone, where the line has that number */
    uint32_t sat_gps_view;
    sim7000_gnss_fix fix; /* at SIM7000_GNSS_FIX; else all is 0 */
} sim7000_gnss_report;

static inline sim7000_gnss_report sim7000_as_gnss_report(const sim7000_line *line)
{
    const uint64_t *values = sim7000_values_(line, line->reader == SIM7000_GNSS_REPORT);
    const uint64_t *no_fix = sim7000_values_(line, values[1] == SIM7000_GNSS_NO_FIX), *fix = sim7000_values_(line, values[1] == SIM7000_GNSS_FIX);
    sim7000_gnss_report report;
    report.status = (sim7000_gnss_status)values[1];
    report.has_sat_gps_view = (uint8_t)no_fix[2];
    report.sat_gps_view = (uint32_t)no_fix[3];
    report.fix.date_time.year = (uint16_t)fix[2];
    report.fix.date_time.month = (uint8_t)fix[3];
    report.fix.date_time.day = (uint8_t)fix[4];
    report.fix.date_time.hour = (uint8_t)fix[5];
    report.fix.date_time.minute = (uint8_t)fix[6];
    report.fix.date_time.second = (uint8_t)fix[7];
    report.fix.latitude = sim7000_float_(fix[8]);
    report.fix.longitude = sim7000_float_(fix[9]);
    report.fix.altitude = sim7000_float_(fix[10]);
    report.fix.speed_over_ground = sim7000_float_(fix[11]);
    report.fix.course_over_ground = sim7000_float_(fix[12]);
    report.fix.hdop = sim7000_float_(fix[13]);
    report.fix.pdop = sim7000_float_(fix[14]);
    report.fix.vdop = sim7000_float_(fix[15]);
    report.fix.sat_gps_in_view = (uint32_t)fix[16];
    report.fix.sat_gnss_used = (uint32_t)fix[17];
    report.fix.sat_glonass_used = (uint32_t)fix[18];
    report.fix.signal_noise_ratio = (uint32_t)fix[19];
    return report;
}

typedef struct sim7000_network_registration {
    sim7000_registration_status status;
    uint8_t has_lac; /* 0 at +CEREG, and where the line has no such number, or one that cannot be read; the other likewise */
    uint16_t lac;    /* location area code */
    uint8_t has_ci;
    uint32_t ci; /* cell identity */
} sim7000_network_registration;

static inline sim7000_network_registration sim7000_as_network_registration(const sim7000_line *line)
{
    const uint64_t *values = sim7000_values_(line, line->reader == SIM7000_NETWORK_REGISTRATION);
    sim7000_network_registration registration;
    registration.status = (sim7000_registration_status)values[1];
    registration.has_lac = (uint8_t)values[2];
    registration.lac = (uint16_t)values[3];
    registration.has_ci = (uint8_t)values[4];
    registration.ci = (uint32_t)values[5];
    return registration;
}

/* ---- a request. Make it with one of the thirteen below; its texts are lent, and stay as they are while it is used. */

typedef struct sim7000_request {
    sim7000_request_kind kind;
    uint16_t number;
    uint8_t code;
    sim7000_text first;
    sim7000_text second;
} sim7000_request;

/* No number above 255 becomes one below it, and 255 is no request and no format. */
static inline uint8_t sim7000_byte_(unsigned number) { return (uint8_t)(number < 255 ? number : 255); }

static inline sim7000_request sim7000_request_(sim7000_request_kind kind, uint16_t number, uint8_t code, sim7000_text first, sim7000_text second)
{
    sim7000_request request;
    request.kind = kind;
    request.number = number;
    request.code = code;
    request.first = first;
    request.second = second;
    return request;
}

static inline sim7000_request sim7000_plain_(sim7000_request_kind kind, uint8_t code)
{
    return sim7000_request_(kind, 0, code, sim7000_text_of(NULL, 0), sim7000_text_of(NULL, 0));
}

static inline sim7000_request sim7000_get_signal_quality(void) { return sim7000_plain_(SIM7000_GET_SIGNAL_QUALITY, 0); }         /* AT+CSQ */
static inline sim7000_request sim7000_show_iccid(void) { return sim7000_plain_(SIM7000_SHOW_ICCID, 0); }                         /* AT+CCID */
static inline sim7000_request sim7000_get_imei(void) { return sim7000_plain_(SIM7000_GET_IMEI, 0); }                             /* AT+GSN */
static inline sim7000_request sim7000_get_operator_info(void) { return sim7000_plain_(SIM7000_GET_OPERATOR_INFO, 0); }           /* AT+COPS? */
static inline sim7000_request sim7000_set_automatic_operator(void) { return sim7000_plain_(SIM7000_SET_AUTOMATIC_OPERATOR, 0); } /* AT+COPS=0 */
static inline sim7000_request sim7000_get_system_info(void) { return sim7000_plain_(SIM7000_GET_SYSTEM_INFO, 0); }               /* AT+CPSI? */
static inline sim7000_request sim7000_execute(void) { return sim7000_plain_(SIM7000_EXECUTE, 0); }                               /* AT+CNTP */
static inline sim7000_request sim7000_get_sms_message_format(void) { return sim7000_plain_(SIM7000_GET_SMS_MESSAGE_FORMAT, 0); } /* AT+CMGF? */

/* AT+COPS=1,2,"plmn": five or six digits, country and network. */
static inline sim7000_request sim7000_set_manual_operator(sim7000_text plmn)
{
    return sim7000_request_(SIM7000_SET_MANUAL_OPERATOR, 0, 0, plmn, sim7000_text_of(NULL, 0));
}

/* AT+CNTP="ntp_server",zone,cid: of the server at most SIM7000_LONGEST_NTP_SERVER bytes. sim7000_execute is what starts it. */
static inline sim7000_request sim7000_synchronize_network_time(sim7000_text ntp_server, uint16_t zone, uint8_t cid)
{
    return sim7000_request_(SIM7000_SYNCHRONIZE_NETWORK_TIME, zone, cid, ntp_server, sim7000_text_of(NULL, 0));
}

/* AT+HTTPTOFS="url","file_path": at most SIM7000_LONGEST_URL and SIM7000_LONGEST_FILE_PATH bytes. */
static inline sim7000_request sim7000_download_to_file_system(sim7000_text url, sim7000_text file_path)
{
    return sim7000_request_(SIM7000_DOWNLOAD_TO_FILE_SYSTEM, 0, 0, url, file_path);
}

/* AT+CMGF=format */
static inline sim7000_request sim7000_set_sms_message_format(sim7000_sms_message_format format)
{
    return sim7000_plain_(SIM7000_SET_SMS_MESSAGE_FORMAT, sim7000_byte_((unsigned)format));
}

/* AT+CMGR=index */
static inline sim7000_request sim7000_read_sms(uint8_t index) { return sim7000_plain_(SIM7000_READ_SMS, index); }

/* Writes the command, CR included, to the front of out, and its size to *size: SIM7000_NO_REFUSAL; or NOT_ACCEPTED, TEXT_TOO_LONG, NOT_OPERATOR_NUMBER,
 * TEXT_NOT_PLAIN, OUT_TOO_SHORT, the first of these that applies. No desk awaits its answers: sim7000_desk_open_echo is for that. */
static inline sim7000_refusal sim7000_write(const sim7000_request *request, uint8_t *out, size_t out_len, size_t *size)
{
    uint8_t none = 0, answer;
    uint64_t written = 0;
    const sim7000_text *first = &request->first, *second = &request->second;
    answer = sim7000_write_command(sim7000_byte_((unsigned)request->kind), request->number, request->code, first->size != 0 ? first->bytes : &none,
                                   first->size, second->size != 0 ? second->bytes : &none, second->size, out_len != 0 ? out : &none, out_len, &written);
    if (answer == 0)
        *size = (size_t)written;
    return (sim7000_refusal)answer;
}

/* ---- the desk */

/* One for each modem; 504 bytes. All zeros is a new desk:  static sim7000_desk desk;  or  sim7000_desk desk = SIM7000_DESK_NEW;  It holds no pointer, so it
 * may be copied and moved. Leave its parts to the calls, though no content is ill-formed: state[0] counts the bytes of the line that is coming (above 257
 * it is being dropped); state[1] is 0, or above 182, while no command is open; state[2] is how many bytes of sent are the echo that is awaited, and 0, or
 * above 210, while none is; state[3] is how many lines were counted since the last accepted open or reset: a number above 4294967295 is read as that. */
typedef struct sim7000_desk {
    uint8_t line[SIM7000_LINE];
    uint8_t sent[SIM7000_LONGEST_COMMAND];
    uint64_t state[SIM7000_STATE];
} sim7000_desk;

#define SIM7000_DESK_NEW {{0}, {0}, {0}}

/* For a modem with echo on: send ATE1 and a CR yourself, once, before the first; what comes back of it are strays. Writes the command to the front of out
 * and its size to *size, for the caller to send, awaits its answers, and counts lines from 1 again. Until the command comes back as a line, its last CR
 * there or not, a response or an error is taken for a late one, of a command that was given up: a stray with no refusal. That line is the echo, and from
 * then on all is as after sim7000_desk_open. The desk keeps the command itself, so out may be used for other things at once. With echo off every answer
 * stays a stray and the command stays open, until a reset.
 * SIM7000_NO_REFUSAL; or NOT_ACCEPTED, COMMAND_OPEN, LINE_UNFINISHED, TEXT_TOO_LONG, NOT_OPERATOR_NUMBER, TEXT_NOT_PLAIN, OUT_TOO_SHORT, the first of these
 * that applies. A new desk, one that was reset and one whose last feed told an event have no unfinished line. */
static inline sim7000_refusal sim7000_desk_open_echo(sim7000_desk *desk, const sim7000_request *request, uint8_t *out, size_t out_len, size_t *size)
{
    uint8_t none = 0, answer;
    uint64_t written = 0;
    const sim7000_text *first = &request->first, *second = &request->second;
    answer = sim7000_open_echo(desk->state, desk->sent, sim7000_byte_((unsigned)request->kind), request->number, request->code,
                               first->size != 0 ? first->bytes : &none, first->size, second->size != 0 ? second->bytes : &none, second->size,
                               out_len != 0 ? out : &none, out_len, &written);
    if (answer == 0)
        *size = (size_t)written;
    return (sim7000_refusal)answer;
}

/* The same for a modem with echo off. Where a command was given up with a reset, its answer may still come, and is taken for that of this one where this
 * one awaits one of its kind. */
static inline sim7000_refusal sim7000_desk_open(sim7000_desk *desk, const sim7000_request *request, uint8_t *out, size_t out_len, size_t *size)
{
    uint8_t none = 0, answer;
    uint64_t written = 0;
    const sim7000_text *first = &request->first, *second = &request->second;
    answer = sim7000_open(desk->state, sim7000_byte_((unsigned)request->kind), request->number, request->code,
                          first->size != 0 ? first->bytes : &none, first->size, second->size != 0 ? second->bytes : &none, second->size,
                          out_len != 0 ? out : &none, out_len, &written);
    if (answer == 0)
        *size = (size_t)written;
    return (sim7000_refusal)answer;
}

/* What a feed tells. Without an event all but taken is 0.
 *
 * The ordinal finds the line in a capture of what was fed: go to where the last open before it was accepted, in either mode, or the last reset made, of a
 * new desk to the start, and count from 1 the lines that end from there on. Empty ones are left out. Overlong ones are counted, and so is a prompt, "> "
 * where a line begins, which is a line as soon as it is there: what follows it is the next. Of a line that a reset came into, only what follows the reset
 * is a line. A refused open leaves the count, and so does an event that closes the command. At 4294967295 it stays. */
typedef struct sim7000_heard {
    sim7000_event event;
    size_t taken;          /* of the chunk, from its front: feed the rest again */
    size_t size;           /* of the line, which is in front of the text buffer; 0 at SIM7000_OVERLONG */
    sim7000_refusal stray; /* at SIM7000_STRAY why no reader takes the line, or SIM7000_NO_REFUSAL where one does, and at other events */
    uint32_t ordinal;
} sim7000_heard;

/* Takes bytes of the chunk up to and with the first that yields an event, or all of them, and lays the line, without its CR LF, in front of text; what is
 * behind it there stays. Call it until the chunk is taken: of a chunk that is not empty it takes at least a byte. SIM7000_NO_REFUSAL, or
 * TEXT_BUFFER_SHORT.
 *     for (at = 0; at < got; at += heard.taken) {
 *         if (sim7000_desk_feed(&desk, chunk + at, got - at, text, sizeof text, &heard) != SIM7000_NO_REFUSAL)
 *             break;
 *         if (heard.event != SIM7000_NO_EVENT)
 *             ..
 *     } */
static inline sim7000_refusal sim7000_desk_feed(sim7000_desk *desk, const uint8_t *chunk, size_t chunk_len, uint8_t *text, size_t text_len,
                                                sim7000_heard *heard)
{
    uint8_t none = 0, answer;
    uint64_t told[SIM7000_TOLD];
    answer = sim7000_feed(desk->line, desk->state, desk->sent, chunk_len != 0 ? chunk : &none, chunk_len, text_len != 0 ? text : &none, text_len,
                          told);
    if (answer == 0) {
        heard->event = (sim7000_event)told[0];
        heard->taken = (size_t)told[1];
        heard->size = (size_t)told[2];
        heard->stray = (sim7000_refusal)told[3];
        heard->ordinal = (uint32_t)told[4];
    }
    return (sim7000_refusal)answer;
}

/* After a time-out: closes the command, awaits no echo, forgets an unfinished line, and counts lines from 1 again. */
static inline void sim7000_desk_reset(sim7000_desk *desk) { sim7000_reset(desk->state); }

/* 1 from an accepted open to the event that closes the command, or a reset; else 0. */
static inline int sim7000_desk_is_open(const sim7000_desk *desk) { return sim7000_is_open(desk->state); }

#ifdef __cplusplus
}
#endif

#endif
