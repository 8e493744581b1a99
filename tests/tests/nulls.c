/* Calls of station_testing.h with null for slices of length 0. Prints what isn't so. */
#include "station_testing.h"
#include "../../rust/tests/is.h"

int main(void) {
    size_t count = 7, bytes = 7;
    uint32_t lines = 7;
    IS(station_index(NULL, 0, 0, NULL, 0, &count), 0);
    IS(count, 0);
    IS(station_index(NULL, 0, 1, NULL, 0, &count), 1);
    IS(station_line(NULL, 0, NULL, 0), 0);
    station_skip(NULL, 0, 0, &bytes, &lines);
    IS(bytes, 0);
    IS(lines, 0);
    IS(station_string_field(NULL, 0, 0, 1, NULL, 0), 0);
    return faults;
}
