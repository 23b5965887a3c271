/* The ARMv7 instruction printer for programs in C. docs/EMBEDDING.md describes it. */
#ifndef DITHWELLOR_H
#define DITHWELLOR_H

#include <stddef.h>
#include <stdint.h>

#ifdef __cplusplus
extern "C" {
#endif

/* What came of a print. */
struct dithwellor_answer {
    /* How many bytes of text stand in the lent memory. */
    size_t length;
    /* How many marks stand in the lent row. */
    size_t marks;
    /* The column, from 1, of what cannot be read in the line; 0 if all was read. */
    size_t column;
    /* The number of a refusal, 3 to 9; 0 if nothing was refused. */
    uint8_t number;
    /* The place of the operand that the refusal is about, 0 to 3; 4 if it is about none. */
    uint8_t place;
};

/* The column, from 1, of what cannot be read in a line of a record; 0 if it can be read. */
size_t dithwellor_read(const uint8_t *line, size_t line_length);

/* Prints the instruction of a line of a record to the lent bytes. */
void dithwellor_print(const uint8_t *line, size_t line_length, uint8_t *out, size_t out_length,
                      struct dithwellor_answer *answer);

/* The same, with the marks of the line in a lent row besides. A mark is four times the length of the
   text where it falls, 2 more for the end of a span and 1 more for a register's. */
void dithwellor_print_marked(const uint8_t *line, size_t line_length, uint8_t *out, size_t out_length,
                             uint64_t *row, size_t row_length, struct dithwellor_answer *answer);

#ifdef __cplusplus
}
#endif

#endif
