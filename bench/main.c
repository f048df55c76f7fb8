// The C side of the benchmark.
//
//   desk < INPUT                    runs an input of the benchmark, as crate bench does
//   desk FOLDER                     prints what program desk prints for FOLDER/table.bin and FOLDER/sched.bin
//   desk TABLE COUNT SEED           writes a schedule of COUNT deliveries that can be made, or fewer where the
//                                   line comes to rest: each the oldest message of a channel chosen by chance
#include "desk.c"
#include <stdio.h>
#include <stdlib.h>
#include <unistd.h>

enum { TABLE_SIZE = 40000, SCHEDULE_SIZE = 60001, LOG_SIZE = 20000, HEAD = 13 };

static struct table table;
static struct state state;
static uint8_t table_file[TABLE_SIZE], schedule_file[SCHEDULE_SIZE], log_bytes[LOG_SIZE];

static size_t load(const char *path, uint8_t *buffer, size_t size)
{
    FILE *file = fopen(path, "rb");
    if (!file)
        return 0;
    size_t n = fread(buffer, 1, size, file);
    fclose(file);
    return n;
}

static void report(enum answer answer, size_t made)
{
    printf("answer %d delivered %zu log %zu quiet %s\n", answer, made, state.logged, is_quiet(&state) ? "yes" : "no");
    for (size_t i = 0; i < state.logged; i++) {
        unsigned g = log_bytes[2 * i], v = log_bytes[2 * i + 1];
        printf("fire gate %u vector %u tasks %u\n", g, v, table.masks[g][v]);
    }
    printf("state");
    for (int t = 0; t < table.tasks; t++)
        printf(" %u", state.tasks[t].state);
    printf("\n");
}

typedef enum answer way(const struct table *, struct state *, uint8_t *, size_t, unsigned, unsigned);

// Makes deliveries in one of two ways until one is refused.
static inline enum answer run(way *one, size_t count, size_t *made)
{
    for (size_t i = 0; i < count; i++) {
        const uint8_t *d = schedule_file + 6 * i + 4;
        enum answer answer = one(&table, &state, log_bytes, LOG_SIZE, d[0], d[1]);
        if (answer != DONE) {
            *made = i;
            return answer;
        }
    }
    *made = count;
    return DONE;
}

// Runs both files so many times. Mode 0 only starts the line fresh, 1 also makes the deliveries, 2 asks number 11 in each.
static void rounds_of(size_t m, size_t n, unsigned mode, unsigned rounds)
{
    size_t place, count, made = 0;
    enum answer answer = read_table(table_file, m, &table, &place);
    if (answer == DONE)
        answer = read_schedule(schedule_file, n, &count, &place);
    if (answer != DONE) {
        printf("answer %d at %zu\n", answer, place);
        return;
    }
    for (unsigned i = 0; i < rounds; i++) {
        fresh(&table, &state);
        answer = mode == 2 ? run(deliver, count, &made) : run(step, mode == 1 ? count : 0, &made);
    }
    report(answer, made);
}

static unsigned long number_at(const uint8_t *head)
{
    return head[0] | (unsigned long)head[1] << 8 | (unsigned long)head[2] << 16 | (unsigned long)head[3] << 24;
}

// As many bytes as there are and find room.
static size_t read_input(uint8_t *buffer, size_t room, size_t size)
{
    return fread(buffer, 1, size < room ? size : room, stdin);
}

static void run_input(void)
{
    uint8_t head[HEAD];
    while (fread(head, 1, HEAD, stdin) == HEAD) {
        size_t m = read_input(table_file, TABLE_SIZE, number_at(head + 5));
        size_t n = read_input(schedule_file, SCHEDULE_SIZE, number_at(head + 9));
        memset(log_bytes, 0, LOG_SIZE);
        rounds_of(m, n, head[0], number_at(head + 1));
    }
}

static void run_folder(const char *folder)
{
    if (chdir(folder) != 0)
        return;
    size_t m = load("table.bin", table_file, TABLE_SIZE);
    size_t n = load("sched.bin", schedule_file, SCHEDULE_SIZE);
    rounds_of(m, n, 2, 1);
}

// The channels that hold a message, as pairs of endpoints.
static size_t undelivered(uint8_t (*pairs)[2])
{
    size_t n = 0;
    for (int i = 0; i < 16; i++)
        for (int j = 0; j < 16; j++) {
            if (state.tasks[i].up[j].count)
                pairs[n][0] = i, pairs[n++][1] = 16 + j;
            if (state.tasks[i].across[j].count)
                pairs[n][0] = i, pairs[n++][1] = j;
            if (state.gates[i].down[j].count)
                pairs[n][0] = 16 + i, pairs[n++][1] = j;
        }
    return n;
}

static int make_schedule(const char *path, unsigned long count, uint64_t seed)
{
    static uint8_t pairs[3 * 256][2];
    size_t place, n;
    if (read_table(table_file, load(path, table_file, TABLE_SIZE), &table, &place) != DONE)
        return 1;
    fresh(&table, &state);
    while (count-- > 0 && (n = undelivered(pairs)) > 0) {
        seed = seed * 6364136223846793005u + 1442695040888963407u;
        const uint8_t *d = pairs[(seed >> 33) % n];
        if (step(&table, &state, log_bytes, LOG_SIZE, d[0], d[1]) != DONE)
            return 1;
        uint8_t record[] = { 2, 0, 5, 0, d[0], d[1] };
        fwrite(record, 1, sizeof record, stdout);
    }
    return 0;
}

int main(int count, char **words)
{
    if (count == 4)
        return make_schedule(words[1], strtoul(words[2], 0, 10), strtoul(words[3], 0, 10));
    if (count == 2)
        run_folder(words[1]);
    else
        run_input();
    return 0;
}
