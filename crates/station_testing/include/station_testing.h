/* The calls of libstation_testing.a, which only tests and benchmarks link, beside libstation.a: numbers, fields, the index of a
   store, the parsed form of a line, jumps. What station.h says of pointers, threads, stack and of these declarations holds here
   too. */
#ifndef STATION_TESTING_H
#define STATION_TESTING_H

#include "station.h"
#ifndef __cplusplus
#include <stdbool.h>
#endif

#ifdef __cplusplus
extern "C" {
#endif

/* Kinds are those of a cell: STATION_INTEGER, STATION_DECIMAL (a count of millionths); any other kind is taken for a decimal. */

/* operation: 0 add, 1 subtract, 2 multiply, any other divide. 0 and the value in *result, or 12 or 13. */
uint32_t station_integers(uint32_t operation, int64_t a, int64_t b, int64_t *result);
uint32_t station_decimals(uint32_t operation, int64_t a, int64_t b, int64_t *result);

/* operation: 0 magnitude of an integer, 1 of a decimal, any other an integer as a decimal. */
uint32_t station_one(uint32_t operation, int64_t a, int64_t *result);

/* The integer next to a number, toward zero. */
int64_t station_whole(uint8_t kind, int64_t n);

/* test: 0 a < b, 1 a <= b, any other a = b; by value, whatever the kinds. */
bool station_compare(uint32_t test, uint8_t kind, int64_t a, uint8_t other, int64_t b);

/* The magnitude of a number, rounded, in units of the last of 0 to 6 places, in *units; false where there is none. */
bool station_rounded(uint8_t kind, int64_t n, size_t places, uint64_t *units);

/* A value in the `width` bytes of a field at `at`; places count only where said. False, and nothing written, where
   width, places or number is out of its limits or the buffer has no room. */
bool station_number_field(uint8_t *buffer, size_t length, size_t at, size_t width, bool said, size_t places,
                          uint8_t kind, int64_t n);
bool station_string_field(uint8_t *buffer, size_t length, size_t at, size_t width, const uint8_t *bytes,
                          size_t bytes_length);
bool station_missing_field(uint8_t *buffer, size_t length, size_t at, size_t width);

/* The places of the store's cells, at most STATION_STORE_CELLS of them, and their count: 0. Where the store is out of form, 1, and
   where there are fewer places than cells, 16; then nothing is written. */
uint32_t station_index(const uint8_t *buffer, size_t buffer_length, size_t length, uint16_t *places,
                       size_t places_length, size_t *count);

/* A question over the first `known` places, which station_index wrote for this store; over other places any answer. */
void station_look_up(const uint8_t *buffer, size_t buffer_length, const uint16_t *places, size_t places_length,
                     size_t known, uint32_t kind, uint32_t datasource, uint32_t parameter, uint32_t record,
                     uint32_t entry, uint8_t *answered, int64_t *value, size_t *place, size_t *count);

/* The same, first sought near a hint, which may be any number: *ended says where the search ended, a good hint for the next. */
void station_look_up_near(const uint8_t *buffer, size_t buffer_length, const uint16_t *places, size_t places_length,
                          size_t known, uint32_t kind, uint32_t datasource, uint32_t parameter, uint32_t record,
                          uint32_t entry, size_t hint, uint8_t *answered, int64_t *value, size_t *place,
                          size_t *count, size_t *ended);

/* The parsed form of a line without its line end, and of the piece of its text at `at`, as 16 numbers: a form, a
   number, seven numbers each of a first and a second argument. What is not there is 0. False, and nothing written, where
   there are fewer than 16 places.

   line                            form  number                  first                            second
   without a form                    0
   text                              1
   $SEC                              2                           the name's start and end
   $SETE $SETA $SETS $SETM $SETD     3   1 to 5                  the variable                     the argument
   $IFNOT                            4                           the argument
   $IF                               5                           the argument
   $IFEQSS $IFEQSI $IFEQ $IFNE       6   1 to 4                  the argument                     the argument
   $IFLT $IFLE $IFGT $IFGE           6   5 to 8                  the argument                     the argument
   $ELSE, $ENDIF                   7, 8
   $BT, $ET                       9, 10                          the argument
   $REC, $TBL                    11, 12  n                       the parameter, three indexes
   $SETDS                           13                           the index
   $NOFF                            14
   $NP                              15                           the argument
   $PHn with a text                 16   n                       the text's start
   $PHn alone                       17   n
   $REM                             18

   piece
   none, also behind the end         0
   a byte                            1   the place behind it     the byte
   a field                           2   the place behind it     the argument                     w, 1 with .d, d

   An argument is a kind, five numbers and a filter: 0 for none, 1 to 6 for ABS INT UPPER LEN RECCNT ENTCNT.
   1 an integer, 2 a decimal in millionths: 1 below zero, the magnitude. 3 a string: its start and end in the line.
   4 IVn, 5 FVn, 6 SVn, 10 Rn, 11 Tn: n. 7 PAGENUM, 8 LINENUM, 9 LOOP. 12 Pn, 13 Pn.r, 14 Pn.r.e: n, the indexes.
   An index is two numbers: 1 and its value, 2 and n for IVn, 3 and 0 for LOOP. */
bool station_line(const uint8_t *line, size_t line_length, uint64_t *numbers, size_t numbers_length);
bool station_piece(const uint8_t *line, size_t line_length, size_t at, uint64_t *numbers, size_t numbers_length);

/* A jump: how many bytes and lines are passed over in `rest`, the part of a template behind the line that jumps. code: 0 a failed
   test, up to its matching $ELSE, or $ENDIF if there is none; 1 an executed $ELSE, up to $ENDIF; any other a table with n below
   1, up to its $ET; that line included. Each line is taken by its word. Where none matches all is passed over, and nothing
   of a part with more than STATION_TEMPLATE_BYTES. */
void station_skip(const uint8_t *rest, size_t rest_length, uint32_t code, size_t *bytes, uint32_t *lines);

#ifdef __cplusplus
}
#endif

#endif
