/* Every call of station.h with null for slices of length 0, and with lengths past their buffers. Prints what isn't so. */
#include "station.h"
#include "is.h"

int main(void) {
    uint8_t answered = 9;
    int64_t value;
    size_t place, count, left = 7, bytes, questions;
    uint32_t line, start = 7, pages;
    IS(station_ask(NULL, 0, 0, 1, 1, 1, 0, 0, &answered, &value, &place, &count), 0);
    IS(answered, STATION_MISSING);
    IS(station_ask(NULL, 0, 0, 2, 1, 1, 0, 0, &answered, &value, &place, &count), 0);
    IS(answered, STATION_HIGHEST);
    IS(station_ask(NULL, 0, 1, 1, 1, 1, 0, 0, &answered, &value, &place, &count), 1);
    IS(station_ask(NULL, 0, 0, 4, 1, 1, 0, 0, &answered, &value, &place, &count), 15);
    IS(station_put(NULL, 0, 0, NULL, 0, &left), 15);
    IS(left, 0);
    IS(station_put(NULL, 0, 12, NULL, 0, &left), 1);
    IS(left, 12);
    const uint8_t cell[12] = {STATION_INTEGER, 1, 0, 1};
    IS(station_put(NULL, 0, 0, cell, sizeof cell, &left), 16);
    IS(station_remove(NULL, 0, 0, NULL, 0, &left), 15);
    IS(station_remove(NULL, 0, 0, cell + 1, 7, &left), 17);
    IS(station_check(NULL, 0, NULL, 0, &line, &start), 6);
    IS(start, 0);
    IS(station_report(NULL, 0, NULL, 0, NULL, 0, 0, NULL, 0, NULL, 0, &line, &pages, &bytes, &questions), 6);
    IS(station_report(NULL, 0, NULL, 0, NULL, 0, 1, NULL, 0, NULL, 0, &line, &pages, &bytes, &questions), 1);
    return faults;
}
