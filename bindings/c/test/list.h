/* What lists.c and captures.c share: the two files of a stored list, line by line, and the request that a line names. */
#ifndef LIST_H
#define LIST_H

#include <stdlib.h>

#include "check.h"
#include "print.h"

/* ---- files */

static struct {
    uint8_t *bytes;
    size_t size;
} files[2];

/* The file's bytes, with room behind them; the last is an LF where they are lines. */
static inline void load(int which, const char *crate, const char *name, int lines)
{
    char path[128];
    FILE *file;
    size_t room = 1 << 20;
    snprintf(path, sizeof path, "crates/%s/%s", crate, name);
    file = fopen(path, "rb");
    if (file == NULL) {
        perror(path);
        exit(2);
    }
    if (files[which].bytes == NULL)
        files[which].bytes = malloc(room);
    if (files[which].bytes == NULL)
        exit(2);
    files[which].size = fread(files[which].bytes, 1, room, file);
    CHECK(files[which].size < room && !ferror(file));
    CHECK(!lines || (files[which].size > 0 && files[which].bytes[files[which].size - 1] == '\n'));
    fclose(file);
}

static inline void unload(void)
{
    free(files[0].bytes);
    free(files[1].bytes);
}

/* The next line of a file, without its LF, which the last may lack; *at is where it begins, and then where the one behind it does. */
static inline sim7000_text next(int which, size_t *at)
{
    const uint8_t *start = files[which].bytes + *at, *end = memchr(start, '\n', files[which].size - *at);
    size_t size = end != NULL ? (size_t)(end - start) : files[which].size - *at;
    *at += size + (end != NULL);
    return sim7000_text_of(start, size);
}

static inline void expect(const char *list, int number, const struct printed *ours, sim7000_text theirs)
{
    if (ours->size == theirs.size && memcmp(ours->bytes, theirs.bytes, ours->size) == 0)
        return;
    fprintf(stderr, "%s %d: printed  %.*s  for  %.*s\n", list, number, (int)ours->size, ours->bytes, (int)theirs.size, (const char *)theirs.bytes);
    wrongs++;
}

/* ---- requests */

/* A number as the Rust reads it: a plus or none, and digits. */
static inline int number_in(sim7000_text text, unsigned most, unsigned *number)
{
    size_t at = text.size != 0 && text.bytes[0] == '+';
    if (at == text.size)
        return 0;
    for (*number = 0; at < text.size; at++) {
        if (text.bytes[at] < '0' || text.bytes[at] > '9')
            return 0;
        *number = *number * 10 + (unsigned)(text.bytes[at] - '0');
        if (*number > most)
            return 0;
    }
    return 1;
}

/* The request of a list's line, 0 where it is none. */
static inline int request_in(sim7000_text asked, sim7000_request *request)
{
    sim7000_text fields[5];
    size_t count = 0, start = 0, at;
    unsigned first, second;
    for (at = 0; at <= asked.size; at++)
        if (at == asked.size || asked.bytes[at] == '\t') {
            if (count < 5)
                fields[count++] = sim7000_text_of(asked.bytes + start, at - start);
            start = at + 1;
        }
#define NAMED(name, others) (count == (others) + 1 && is(fields[0].bytes, fields[0].size, name))
    if (NAMED("GetSignalQuality", 0))
        *request = sim7000_get_signal_quality();
    else if (NAMED("ShowIccid", 0))
        *request = sim7000_show_iccid();
    else if (NAMED("GetImei", 0))
        *request = sim7000_get_imei();
    else if (NAMED("GetOperatorInfo", 0))
        *request = sim7000_get_operator_info();
    else if (NAMED("SetManualOperator", 1))
        *request = sim7000_set_manual_operator(fields[1]);
    else if (NAMED("SetAutomaticOperator", 0))
        *request = sim7000_set_automatic_operator();
    else if (NAMED("GetSystemInfo", 0))
        *request = sim7000_get_system_info();
    else if (NAMED("SynchronizeNetworkTime", 3) && number_in(fields[2], 65535, &first) && number_in(fields[3], 255, &second))
        *request = sim7000_synchronize_network_time(fields[1], (uint16_t)first, (uint8_t)second);
    else if (NAMED("Execute", 0))
        *request = sim7000_execute();
    else if (NAMED("DownloadToFileSystem", 2))
        *request = sim7000_download_to_file_system(fields[1], fields[2]);
    else if (NAMED("GetSmsMessageFormat", 0))
        *request = sim7000_get_sms_message_format();
    else if (NAMED("SetSmsMessageFormat", 1) && is(fields[1].bytes, fields[1].size, "Pdu"))
        *request = sim7000_set_sms_message_format(SIM7000_SMS_PDU);
    else if (NAMED("SetSmsMessageFormat", 1) && is(fields[1].bytes, fields[1].size, "Text"))
        *request = sim7000_set_sms_message_format(SIM7000_SMS_TEXT);
    else if (NAMED("ReadSms", 1) && number_in(fields[1], 255, &first))
        *request = sim7000_read_sms((uint8_t)first);
    else
        return 0;
    return 1;
}

#endif
