/* Reads the file on standard input, from memory, as many times as the first argument says, and writes the outcome and the
   bytes used: for tools/bench and tools/long-files, linked with the crate `export`. The second argument says how:
     (none)  into tables of the rooms that the file needs, lent once
     user    as a caller does it each time: asks for the rooms, allocates the tables, reads, frees them
     words   as with none, and writes all seventeen words that are said of the reading
     counts  no further than the counts: the shelf, of which it writes all eleven words
     stack   once, and writes how many bytes of the stack the reading touches */
#include <stdint.h>
#include <stdio.h>
#include <stdlib.h>

void fungusleigh_read(const uint8_t *data, size_t bytes, uint32_t *bars, size_t, uint32_t *tracks, size_t,
                      uint32_t *rows, size_t, uint32_t *members, size_t, uint32_t *points, size_t, uint32_t *texts,
                      size_t, uint32_t *said, size_t);
void fungusleigh_shelf(const uint8_t *data, size_t bytes, uint32_t *said, size_t);

enum { TABLES = 6, SAID = 17, OUTCOME = 0, USED = 1, ROOMS = 8, NO_ROOM = 6 };
enum { SHELF = 11 };
enum { STACK = 4 << 20, EDGE = 4096, MARK = 0xA5 };

static const size_t entry[TABLES] = {16, 16, 30, 8, 2, 4}; /* words of an entry: docs/TABLES.md */
static uint32_t *table[TABLES], said[SAID];
static size_t words[TABLES];

static void reading(const uint8_t *data, size_t bytes) {
    fungusleigh_read(data, bytes, table[0], words[0], table[1], words[1], table[2], words[2], table[3], words[3],
                     table[4], words[4], table[5], words[5], said, SAID);
}

static void ask_rooms(const uint8_t *data, size_t bytes) {
    static uint32_t none[TABLES];
    for (int i = 0; i < TABLES; i++) {
        table[i] = &none[i];
        words[i] = 1;
    }
    reading(data, bytes);
}

static void lend(void) {
    for (int i = 0; i < TABLES; i++) {
        words[i] = said[ROOMS + i] * entry[i] + 1;
        table[i] = malloc(words[i] * sizeof(uint32_t));
        if (!table[i]) exit(2);
    }
}

static void as_a_user(const uint8_t *data, size_t bytes) {
    ask_rooms(data, bytes);
    if (said[OUTCOME] != NO_ROOM) return;
    lend();
    reading(data, bytes);
    for (int i = 0; i < TABLES; i++) free(table[i]);
}

/* The stack below here is marked; then a byte counts as touched from the first one, beyond the far end's edge, that is not marked. */
static void mark(void) {
    volatile uint8_t below[STACK];
    for (size_t i = 0; i < STACK; i++) below[i] = MARK;
}

static size_t touched(void) {
    volatile uint8_t below[STACK];
    size_t at = EDGE;
    while (at < STACK && below[at] == MARK) at++;
    return STACK - at;
}

static void write_words(const uint32_t *word, int count) {
    for (int i = 0; i < count; i++) printf(i ? " %u" : "%u", word[i]);
    printf("\n");
}

static void shelves(const uint8_t *data, size_t bytes, long times) {
    uint32_t shelf[SHELF] = {0};
    while (times-- > 0) fungusleigh_shelf(data, bytes, shelf, SHELF);
    write_words(shelf, SHELF);
}

int main(int count, char **word) {
    size_t bytes = 0, room = 1 << 16, got;
    uint8_t *data = malloc(room);
    char how = count > 2 ? word[2][0] : 'r';
    while (data && (got = fread(data + bytes, 1, room - bytes, stdin)) > 0) {
        bytes += got;
        if (bytes == room) data = realloc(data, room *= 2);
    }
    if (!data || ferror(stdin)) return 2;
    if (how == 'c') {
        shelves(data, bytes, atol(word[1]));
        return 0;
    }
    if (how != 'u') {
        ask_rooms(data, bytes);
        if (said[OUTCOME] == NO_ROOM) lend();
    }
    if (how == 's') {
        mark();
        reading(data, bytes);
        printf("%zu\n", touched());
        return 0;
    }
    for (long left = atol(word[1]); left > 0; left--)
        if (how == 'u') as_a_user(data, bytes);
        else reading(data, bytes);
    if (how == 'w') {
        write_words(said, SAID);
        return 0;
    }
    printf("%u %u\n", said[OUTCOME], said[OUTCOME] ? 0 : said[USED]);
    return 0;
}
