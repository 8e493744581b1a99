/* The calls of libstation.a, all of them. A test compares the names with the Rattle source and with what the library exports,
   nothing the parameters: keep them beside it.

   What every call here gives is document 01's ("Counting-station report interpreter"): a result or one numbered refusal, for
   any bytes and any lengths. Only the pointers are the caller's care:

   - A slice is a pointer and then a length. The pointer may be null where the length is 0, and only there.
   - No output pointer is null. `struct station_question`, numbers and sizes are aligned as C aligns them.
   - A buffer or output that a call writes to overlaps with nothing else that the call is handed. What it only reads may
     overlap: template, section and store of a report.
   - A `length` longer than its buffer is no fault: it is refused with 1.
   - Nothing is kept after a call, and no call has a state of its own: calls may run at the same time on any threads, as long
     as none writes what another reads or writes.
   - A call takes less than 64 KB of stack (STATION_STACK_BYTES), no heap, and calls nothing but memcpy, memmove and memset. */
#ifndef STATION_H
#define STATION_H

#include <stddef.h>
#include <stdint.h>

#ifdef __cplusplus
extern "C" {
#endif

/* The most bytes of a store, and the most cells that they can hold: integers, the shortest, have 12 bytes. */
#define STATION_STORE_BYTES 65536
#define STATION_STORE_CELLS 5461

/* The most bytes of a template. */
#define STATION_TEMPLATE_BYTES 32768

/* The text and the read list that the program `sheet` lends; a caller may lend more or less. */
#define STATION_TEXT_BYTES 65536
#define STATION_READ_PLACES 4096

/* Stack that is enough for any call. */
#define STATION_STACK_BYTES 65536

/* What an answer is: no cell, a highest number, or the kind of a cell. */
#define STATION_MISSING 0x00
#define STATION_HIGHEST 0x01
#define STATION_INTEGER 0x49
#define STATION_DECIMAL 0x46
#define STATION_STRING 0x53

/* A question: its kind (1 a cell, 2 a parameter's highest record, 3 a record's highest entry) and four numbers, those that the
   kind doesn't use 0. */
struct station_question {
    uint32_t kind, datasource, parameter, record, entry;
};

/* Ask: a question to the store in the first `length` bytes of a buffer. The number that document 01 gives is returned: 0, 1 or
   15. *answered says what the answer is, STATION_MISSING also where the question is refused. An integer and a decimal (a count
   of millionths) are in *value; of a string, *place and *count say where it lies in the buffer and how long it is; a highest
   number is in *count. Outputs that an answer doesn't need are 0. */
uint32_t station_ask(const uint8_t *buffer, size_t buffer_length, size_t length, uint32_t kind, uint32_t datasource,
                     uint32_t parameter, uint32_t record, uint32_t entry, uint8_t *answered, int64_t *value,
                     size_t *place, size_t *count);

/* Put: a cell as the store holds it, a byte of kind, a key's seven bytes, a value of 4, 8 or 17 bytes. Remove: a key's seven
   bytes. The number is returned: 0, 1, 15, and 16 for a put, 17 for a remove. *left is the store's length afterwards, the old
   one where the edit is refused. */
uint32_t station_put(uint8_t *buffer, size_t buffer_length, size_t length, const uint8_t *cell, size_t cell_length,
                     size_t *left);
uint32_t station_remove(uint8_t *buffer, size_t buffer_length, size_t length, const uint8_t *key, size_t key_length,
                        size_t *left);

/* Checks 2 to 6 of a template, with the caller's section name: the number, in *line the line that is named, and in *start the
   number of the line that a run starts with, 0 where the template is refused. */
uint32_t station_check(const uint8_t *text, size_t text_length, const uint8_t *section, size_t section_length,
                       uint32_t *line, uint32_t *start);

/* The report of a template on the store in the first `length` bytes of a buffer. `section` is the caller's name for a
   section, empty for all. The text and the questions asked go to the starts of `text` and `reads`; the rest of both stays as
   it is. The number that the report ends with, 0 to 14, is returned; its line, its pages, its text bytes and its questions go
   to the four outputs. */
uint32_t station_report(const uint8_t *template_bytes, size_t template_length, const uint8_t *section, size_t section_length,
                        const uint8_t *buffer, size_t buffer_length, size_t length, uint8_t *text, size_t text_length,
                        struct station_question *reads, size_t places,
                        uint32_t *line, uint32_t *pages, size_t *text_bytes, size_t *questions);

#ifdef __cplusplus
}
#endif

#endif
