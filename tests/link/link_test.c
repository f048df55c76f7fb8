/* The library called from C. Usage: link_test TABLE SCHEDULE TEXT, the paper's table E, its schedule, and what desk
 * prints for them. Every byte of both buffers and around them is compared.
 */
#include <stdio.h>
#include <stdlib.h>
#include <string.h>

#include "hunavosk.h"

#define MARGIN 64
#define LOG 20000
#define SIZE (MARGIN + HUNAVOSK_TEXT_ROOM(LOG) + MARGIN)

struct bytes {
    uint8_t at[100];
    size_t length;
};

/* What a call is to leave: the text, and the entries of the log. */
struct expected {
    const void *text;
    size_t length;
    const void *entries;
    size_t entries_length;
};

static uint8_t log_is[SIZE], log_should[SIZE], text_is[SIZE], text_should[SIZE];
static int failed, passed;

static struct bytes load(const char *path)
{
    struct bytes b;
    FILE *file = fopen(path, "rb");
    if (file == NULL) {
        perror(path);
        exit(1);
    }
    b.length = fread(b.at, 1, sizeof b.at, file);
    fclose(file);
    return b;
}

/* Bytes that differ from place to place, so that none moves unseen. */
static void fill(uint8_t *room, unsigned seed)
{
    for (size_t i = 0; i < SIZE; i++)
        room[i] = (uint8_t)(i * 7 + i / 251 + seed);
}

static void check(const char *name, const struct bytes *table, const struct bytes *schedule, size_t log_length,
                  size_t text_length, struct expected e)
{
    fill(log_is, 1);
    fill(log_should, 1);
    fill(text_is, 2);
    fill(text_should, 2);
    memcpy(log_should + MARGIN, e.entries, e.entries_length);
    memcpy(text_should + MARGIN, e.text, e.length);
    size_t count = hunavosk_desk(table->at, table->length, schedule->at, schedule->length, log_is + MARGIN,
                                 log_length, text_is + MARGIN, text_length);
    int same_text = memcmp(text_is, text_should, SIZE) == 0;
    int same_log = memcmp(log_is, log_should, SIZE) == 0;
    if (count == e.length && same_text && same_log) {
        passed++;
        return;
    }
    failed++;
    fprintf(stderr, "link_test.c: %s: count %zu for %zu, text %s, log %s\n", name, count, e.length,
            same_text ? "as expected" : "other", same_log ? "as expected" : "other");
}

static struct expected only(const char *text)
{
    return (struct expected){text, strlen(text), "", 0};
}

int main(int argc, char **argv)
{
    if (argc != 4) {
        fprintf(stderr, "usage: link_test TABLE SCHEDULE TEXT\n");
        return 1;
    }
    struct bytes table = load(argv[1]), schedule = load(argv[2]), printed = load(argv[3]);
    struct bytes none = {{0}, 0}, cut = schedule, no_mask = table;
    cut.length = 3;
    no_mask.at[71] = 0;
    struct expected run = {printed.at, printed.length, "\1\0", 2}, refused = only("");
    const char *full = "answer 10 delivered 7 log 0 quiet no\nstate 0 0 0\n";
    size_t room = HUNAVOSK_TEXT_ROOM(LOG);

    check("table E", &table, &schedule, LOG, room, run);
    check("table E once more", &table, &schedule, LOG, room, run);
    check("more room than is asked for", &table, &schedule, 10, room, run);
    check("a log of one entry", &table, &schedule, 2, HUNAVOSK_TEXT_ROOM(2), run);
    check("a log of half an entry", &table, &schedule, 1, HUNAVOSK_TEXT_ROOM(1), only(full));
    check("no log", &table, &schedule, 0, HUNAVOSK_TEXT_ROOM(0), only(full));
    check("a text buffer one byte too short", &table, &schedule, LOG, room - 1, refused);
    check("no log, and one byte too short", &table, &schedule, 0, HUNAVOSK_TEXT_ROOM(0) - 1, refused);
    check("no text buffer", &table, &schedule, LOG, 0, refused);
    check("room for the text, but less than is asked for", &table, &schedule, LOG, printed.length, refused);
    check("an empty table", &none, &schedule, LOG, room, only("answer 6 at 0\n"));
    check("a mask of 0", &no_mask, &schedule, LOG, room, only("answer 4 at 66\n"));
    check("a refused table, and one byte too short", &none, &schedule, LOG, room - 1, refused);
    check("a schedule that is cut off", &table, &cut, LOG, room, only("answer 1 at 0\n"));
    check("an empty schedule", &table, &none, LOG, room, only("answer 0 delivered 0 log 0 quiet no\nstate 0 0 0\n"));
    printf("link_test.c: %d passed, %d failed\n", passed, failed);
    return failed != 0;
}
