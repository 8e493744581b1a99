/* Puts, asks, reports and prints, by libstation.a. From the repository's folder, after `tools/library station`:

       cc -Icrates/station/include examples/c/report.c target/staticlib/libstation.a -o target/report && target/report */
#include "station.h"
#include <stdio.h>
#include <string.h>

static uint8_t store[STATION_STORE_BYTES], text[STATION_TEXT_BYTES];
static struct station_question reads[STATION_READ_PLACES];
static size_t length;

/* Puts a cell of datasource 1, record and entry 0: a kind, a key, a value. */
static uint32_t put(uint8_t kind, uint8_t parameter, const void *value, size_t bytes) {
    uint8_t cell[25] = {kind, 1, 0, parameter};
    memcpy(cell + 8, value, bytes);
    return station_put(store, sizeof store, length, cell, 8 + bytes, &length);
}

int main(void) {
    const uint8_t sample[17] = {6, 'S', '-', '2', '2', '3', '1'}, counts[4] = {0, 0, 0x35, 0xec};
    if (put(STATION_STRING, 2, sample, 17) != 0 || put(STATION_INTEGER, 3, counts, 4) != 0)
        return 2;

    uint8_t answered;
    int64_t value;
    size_t place, count;
    uint32_t number = station_ask(store, sizeof store, length, 1, 1, 3, 0, 0, &answered, &value, &place, &count);
    if (number == 0 && answered == STATION_INTEGER)
        printf("P3 is %lld, the store has %zu bytes.\n", (long long)value, length);

    const char *template = "$SEC SHEET\n"
                           "Sample  {P2,16}\n"
                           "Counts  {P3,8}\n"
                           "Mass    {P4,8.3}\n";
    uint32_t line, pages;
    size_t bytes, questions;
    number = station_report((const uint8_t *)template, strlen(template), (const uint8_t *)"SHEET", 5, store, sizeof store,
                            length, text, sizeof text, reads, STATION_READ_PLACES, &line, &pages, &bytes, &questions);
    fwrite(text, 1, bytes, stdout);
    printf("It ends with %u in line %u, on page %u.\n", number, line, pages);
    for (size_t i = 0; i < questions; i++)
        printf("It read P%u of datasource %u.\n", reads[i].parameter, reads[i].datasource);
    return number != 0;
}
