/* Lines, refusals and events in the formats of oracle/README.md, each number through its name in the header: two names that are swapped print otherwise. */
#ifndef PRINT_H
#define PRINT_H

#include "../sim7000.h"

struct printed {
    char bytes[1024];
    size_t size;
};

void put(struct printed *to, const void *bytes, size_t size);
void put_word(struct printed *to, const char *word);
void put_number(struct printed *to, uint64_t number);
void put_hex(struct printed *to, const uint8_t *bytes, size_t size);

/* What the values of that reader say, whichever reader took the line. */
void put_as(struct printed *to, sim7000_reader reader, const sim7000_line *line);

void put_line(struct printed *to, const sim7000_line *line);
void put_refused(struct printed *to, sim7000_refusal refusal);

/* The event's word, the ordinal and a stray's refusal; put_heard goes on with the line and an LF. */
void put_event(struct printed *to, const sim7000_heard *heard);
void put_heard(struct printed *to, const sim7000_heard *heard, const uint8_t *text);

/* The number that documents 01 and 02 give the refusal. */
unsigned refusal_number(sim7000_refusal refusal);

#endif
