/* Stands before those of the archive's calls that are lent bytes, by the linker's --wrap, and sees that none is lent NULL, which the archive may take for
 * an address like any other. */
#include <stdio.h>
#include <stdlib.h>

#include "../sim7000.h"

#define LENT(pointer) lent(__func__, #pointer, pointer)

static void lent(const char *call, const char *name, const void *pointer)
{
    if (pointer != NULL)
        return;
    fprintf(stderr, "%s: %s is NULL\n", call, name);
    exit(1);
}

uint8_t __real_sim7000_read_line(const uint8_t *line, size_t line_len, uint64_t *values);
uint8_t __real_sim7000_sort_line(const uint8_t *line, size_t line_len);
uint8_t __real_sim7000_write_command(uint8_t request, uint16_t number, uint8_t code, const uint8_t *first, size_t first_len, const uint8_t *second,
                                     size_t second_len, uint8_t *out, size_t out_len, uint64_t *size);
uint8_t __real_sim7000_open(uint64_t *state, uint8_t request, uint16_t number, uint8_t code, const uint8_t *first, size_t first_len, const uint8_t *second,
                            size_t second_len, uint8_t *out, size_t out_len, uint64_t *size);
uint8_t __real_sim7000_open_echo(uint64_t *state, uint8_t *sent, uint8_t request, uint16_t number, uint8_t code, const uint8_t *first, size_t first_len,
                                 const uint8_t *second, size_t second_len, uint8_t *out, size_t out_len, uint64_t *size);
uint8_t __real_sim7000_feed(uint8_t *line, uint64_t *state, const uint8_t *sent, const uint8_t *chunk, size_t chunk_len, uint8_t *text, size_t text_len,
                            uint64_t *told);

uint8_t __wrap_sim7000_read_line(const uint8_t *line, size_t line_len, uint64_t *values)
{
    LENT(line);
    LENT(values);
    return __real_sim7000_read_line(line, line_len, values);
}

uint8_t __wrap_sim7000_sort_line(const uint8_t *line, size_t line_len)
{
    LENT(line);
    return __real_sim7000_sort_line(line, line_len);
}

uint8_t __wrap_sim7000_write_command(uint8_t request, uint16_t number, uint8_t code, const uint8_t *first, size_t first_len, const uint8_t *second,
                                     size_t second_len, uint8_t *out, size_t out_len, uint64_t *size)
{
    LENT(first);
    LENT(second);
    LENT(out);
    LENT(size);
    return __real_sim7000_write_command(request, number, code, first, first_len, second, second_len, out, out_len, size);
}

uint8_t __wrap_sim7000_open(uint64_t *state, uint8_t request, uint16_t number, uint8_t code, const uint8_t *first, size_t first_len, const uint8_t *second,
                            size_t second_len, uint8_t *out, size_t out_len, uint64_t *size)
{
    LENT(first);
    LENT(second);
    LENT(out);
    LENT(size);
    return __real_sim7000_open(state, request, number, code, first, first_len, second, second_len, out, out_len, size);
}

uint8_t __wrap_sim7000_open_echo(uint64_t *state, uint8_t *sent, uint8_t request, uint16_t number, uint8_t code, const uint8_t *first, size_t first_len,
                                 const uint8_t *second, size_t second_len, uint8_t *out, size_t out_len, uint64_t *size)
{
    LENT(first);
    LENT(second);
    LENT(out);
    LENT(size);
    return __real_sim7000_open_echo(state, sent, request, number, code, first, first_len, second, second_len, out, out_len, size);
}

uint8_t __wrap_sim7000_feed(uint8_t *line, uint64_t *state, const uint8_t *sent, const uint8_t *chunk, size_t chunk_len, uint8_t *text, size_t text_len,
                            uint64_t *told)
{
    LENT(chunk);
    LENT(text);
    LENT(told);
    return __real_sim7000_feed(line, state, sent, chunk, chunk_len, text, text_len, told);
}
