/* What the tests share: a check that says where it fails and goes on, and what they print into. Run at the repository's top. */
#ifndef CHECK_H
#define CHECK_H

#include <stdio.h>
#include <string.h>

#include "../sim7000.h"

#define BYTES(text) (const uint8_t *)(text), sizeof(text) - 1
#define CHECK(holds) ((holds) ? (void)0 : wrong(__FILE__, __LINE__, #holds))

static int wrongs;

static void wrong(const char *file, int line, const char *what)
{
    fprintf(stderr, "%s:%d: not so: %s\n", file, line, what);
    wrongs++;
}

/* Whether these bytes are that text. */
static inline int is(const uint8_t *bytes, size_t size, const char *text) { return size == strlen(text) && memcmp(bytes, text, size) == 0; }

#endif
