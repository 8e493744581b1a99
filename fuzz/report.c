/* station_report on any bytes, by libFuzzer's interface. An input is a header of eight bytes, then the section's name, the
   template and the store; the header's numbers are big-endian:

   0-1 room for text   2-3 places on the read list   4 the name's length   5 the store's length is so much more   6-7 the template's length

   What document 01 says of every report is checked: its numbers, that nothing is printed or asked past its end or behind the
   buffers, that 1 to 6 touch nothing, that a second call does the same, and that a shorter buffer gives a start of the text.

   Built without libFuzzer and with -DPLAIN, it has a main of its own: `report --seed SECTION TEMPLATE STORE` writes an input,
   `report SECONDS FILE...` tries the files and then bytes changed in them at random. */
#include "../crates/station/include/station.h"
#include <stdio.h>
#include <stdlib.h>
#include <string.h>

enum { HEADER = 8, BEHIND = 32, BYTE = 0xee };

#define MUST(fact) \
    do { \
        if (!(fact)) { \
            fprintf(stderr, "report.c:%d: not so: %s\n", __LINE__, #fact); \
            abort(); \
        } \
    } while (0)

struct part {
    const uint8_t *bytes;
    size_t length;
};

struct end {
    uint32_t number, line, pages;
    size_t text_bytes, questions;
};

struct lent {
    uint8_t *text;
    struct station_question *reads;
    size_t room, places;
};

static struct lent lend(size_t room, size_t places) {
    struct lent l = {malloc(room + BEHIND), malloc((places + BEHIND) * sizeof *l.reads), room, places};
    MUST(l.text && l.reads);
    memset(l.text, BYTE, room + BEHIND);
    memset(l.reads, BYTE, (places + BEHIND) * sizeof *l.reads);
    return l;
}

static void give_back(struct lent l) {
    free(l.text);
    free(l.reads);
}

static int untouched(const void *from, size_t count) {
    const uint8_t *bytes = from;
    for (size_t i = 0; i < count; i++)
        if (bytes[i] != BYTE)
            return 0;
    return 1;
}

static struct end report(struct part template, struct part name, struct part store, size_t length, struct lent l) {
    struct end e = {0, 77, 77, 77, 77};
    e.number = station_report(template.bytes, template.length, name.bytes, name.length, store.bytes, store.length, length,
                              l.text, l.room, l.reads, l.places, &e.line, &e.pages, &e.text_bytes, &e.questions);
    MUST(e.number <= 14);
    MUST(e.text_bytes <= l.room && e.questions <= l.places);
    MUST(untouched(l.text + e.text_bytes, l.room - e.text_bytes + BEHIND));
    MUST(untouched(l.reads + e.questions, (l.places - e.questions + BEHIND) * sizeof *l.reads));
    MUST((e.pages == 0) == (e.number >= 1 && e.number <= 6));
    if (e.pages == 0)
        MUST(e.text_bytes == 0 && e.questions == 0);
    if (e.number == 0 || e.number == 1 || e.number == 6)
        MUST(e.line == 0);
    for (size_t i = 0; i < e.text_bytes; i++)
        MUST((l.text[i] >= 0x20 && l.text[i] <= 0x7e) || l.text[i] == 0x0a || l.text[i] == 0x0c);
    for (size_t i = 0; i < e.questions; i++) {
        struct station_question q = l.reads[i];
        MUST(q.kind >= 1 && q.kind <= 3 && q.datasource >= 1 && q.datasource <= 35);
        MUST(q.parameter >= 1 && q.parameter <= 65535 && q.record <= 999 && q.entry <= 999);
        MUST((q.kind == 1 || q.entry == 0) && (q.kind != 2 || q.record == 0));
    }
    return e;
}

static struct part take(const uint8_t **data, size_t *left, size_t length) {
    struct part p = {*data, length < *left ? length : *left};
    *data += p.length;
    *left -= p.length;
    return p;
}

int LLVMFuzzerTestOneInput(const uint8_t *data, size_t size) {
    if (size < HEADER)
        return 0;
    const uint8_t *h = data;
    size_t room = (size_t)h[0] << 8 | h[1], places = (size_t)h[2] << 8 | h[3];
    places %= 4097;
    data += HEADER;
    size -= HEADER;
    struct part name = take(&data, &size, h[4]);
    struct part template = take(&data, &size, (size_t)h[6] << 8 | h[7]);
    struct part store = take(&data, &size, size);
    size_t length = store.length + h[5];

    struct lent first = lend(room, places), second = lend(room, places), shorter = lend(room / 2, places);
    struct end a = report(template, name, store, length, first);
    struct end b = report(template, name, store, length, second);
    MUST(a.number == b.number && a.line == b.line && a.pages == b.pages);
    MUST(a.text_bytes == b.text_bytes && memcmp(first.text, second.text, a.text_bytes) == 0);
    MUST(a.questions == b.questions && memcmp(first.reads, second.reads, a.questions * sizeof *first.reads) == 0);
    struct end c = report(template, name, store, length, shorter);
    MUST(c.text_bytes <= a.text_bytes && memcmp(first.text, shorter.text, c.text_bytes) == 0);
    MUST(c.questions <= a.questions && memcmp(first.reads, shorter.reads, c.questions * sizeof *first.reads) == 0);
    MUST(c.number == 14 || c.number == a.number);
    give_back(first);
    give_back(second);
    give_back(shorter);
    return 0;
}

#ifdef PLAIN
#include <time.h>

enum { MOST = 1 << 20 };

static size_t load(const char *path, uint8_t *to) {
    FILE *f = fopen(path, "rb");
    if (!f) {
        perror(path);
        exit(2);
    }
    size_t n = fread(to, 1, MOST, f);
    fclose(f);
    return n;
}

static uint64_t state = 0x5eed;

static size_t below(size_t limit) {
    state ^= state << 13;
    state ^= state >> 7;
    state ^= state << 17;
    return (state >> 11) % limit;
}

int main(int argc, char **argv) {
    static uint8_t bytes[MOST], changed[2 * MOST];
    if (argc == 5 && strcmp(argv[1], "--seed") == 0) {
        size_t name = strlen(argv[2]) & 0xff, template = load(argv[3], bytes), store = load(argv[4], changed);
        uint8_t header[HEADER] = {0x20, 0, 1, 0, (uint8_t)name, 0, (uint8_t)(template >> 8), (uint8_t)template};
        fwrite(header, 1, HEADER, stdout);
        fwrite(argv[2], 1, name, stdout);
        fwrite(bytes, 1, template, stdout);
        fwrite(changed, 1, store, stdout);
        return 0;
    }
    if (argc < 3) {
        fprintf(stderr, "report SECONDS FILE...\nreport --seed SECTION TEMPLATE STORE\n");
        return 2;
    }
    for (int i = 2; i < argc; i++)
        LLVMFuzzerTestOneInput(bytes, load(argv[i], bytes));
    time_t until = time(NULL) + atoi(argv[1]);
    unsigned long runs = 0;
    while (time(NULL) < until) {
        size_t n = load(argv[2 + below(argc - 2)], bytes);
        for (int k = 0; k < 200; k++, runs++) {
            memcpy(changed, bytes, n);
            for (size_t times = 1 + below(4); n && times; times--) {
                size_t at = below(n), from = below(n), count = below(16);
                switch (below(3)) {
                case 0: changed[at] = (uint8_t)below(256); break;
                case 1: changed[at] = (uint8_t) "${}\"0|. \nIV1P"[below(13)]; break;
                default:
                    if (at + count <= n && from + count <= n)
                        memmove(changed + at, bytes + from, count);
                }
            }
            LLVMFuzzerTestOneInput(changed, n);
        }
    }
    printf("%lu changed inputs, nothing found\n", runs);
    return 0;
}
#endif
