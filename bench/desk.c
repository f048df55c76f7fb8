// The paper's rules in plain C, for the benchmark: structs and arrays by pointer, and nothing of the shape
// that the proofs ask for. It is written from docs/PAPER.md; main.c uses it.
//
// Built with -DTUNED it does the same by what a programmer would do who counts instructions: a test of a run of
// bytes has no early exit, so that the compiler compares them side by side; an empty channel is told by one
// comparison; and a delivery works on the state itself and keeps a list of what it has sent, to take it back where it
// is refused. The plain one stops at the first fault, and works on a copy of the task.
#include <stdbool.h>
#include <stddef.h>
#include <stdint.h>
#include <string.h>

enum { TASKS = 16, GATES = 16, STATES = 16, VECTORS = 8, WAITING = 16 };

enum answer {
    DONE, CUT_OFF, KIND, BODY_LENGTH, FIELD_RANGE, ORDER, MISSING, TOO_MANY, NO_CHANNEL, CHANNEL_EMPTY,
    LOG_FULL, UNSOUND, EXCLUDED
};

// A cell of moves is 0 for no transition, and else one more than the state it leads to.
struct table {
    uint8_t tasks, gates;
    uint8_t states[TASKS], starts[TASKS];
    uint8_t moves[TASKS][STATES][GATES];
    uint8_t vectors[GATES];
    uint16_t masks[GATES][VECTORS];
};

// The filler of unused room is all 0, which is a READY.
enum kind { READY, LOCK, COMMIT, ABORT };

struct message { uint8_t kind, gate, vector; };

struct request { uint8_t gate, vector; };

struct channel1 { uint8_t count; struct message first; };

struct channel3 { uint8_t count; struct message at[3]; };

static const struct channel1 empty1;
static const struct channel3 empty3;

struct task {
    uint8_t state, held, count;
    struct request by;
    struct request waiting[WAITING];
    struct channel3 up[GATES];
    struct channel1 across[TASKS];
};

struct gate {
    uint16_t offers;
    uint8_t dealing, vector;
    struct channel1 down[TASKS];
};

struct state {
    struct task tasks[TASKS];
    struct gate gates[GATES];
    size_t logged;
};

// ---- "Numbers and the table file"

static const uint16_t body_lengths[] = { 0, 2, 3, 4, 3, 2 };

static unsigned word_at(const uint8_t *file, size_t at)
{
    return file[at] | (unsigned)file[at + 1] << 8;
}

// Where a table file has been read up to.
struct loading {
    unsigned kind;      // of the record before
    unsigned came;      // task records so far
    unsigned cell;      // the lowest (task, from, gate), as one number, that may come next
    unsigned gate;      // the lowest gate of a vector that may come next
};

static bool is_count(unsigned n)
{
    return 1 <= n && n <= 16;
}

static enum answer add_task(struct table *table, struct loading *l, const uint8_t *body)
{
    if (body[0] >= table->tasks || !is_count(body[1]) || body[2] >= body[1])
        return FIELD_RANGE;
    if (body[0] != l->came)
        return ORDER;
    table->states[body[0]] = body[1];
    table->starts[body[0]] = body[2];
    l->came++;
    return DONE;
}

static enum answer add_move(struct table *table, struct loading *l, const uint8_t *body)
{
    if (body[0] >= table->tasks || body[1] >= table->states[body[0]] || body[2] >= table->gates
        || body[3] >= table->states[body[0]])
        return FIELD_RANGE;
    unsigned cell = (body[0] * 16u + body[1]) * 16u + body[2];
    if (cell < l->cell)
        return ORDER;
    table->moves[body[0]][body[1]][body[2]] = body[3] + 1;
    l->cell = cell + 1;
    return DONE;
}

static enum answer add_vector(struct table *table, struct loading *l, const uint8_t *body)
{
    unsigned g = body[0], mask = word_at(body, 1);
    if (g >= table->gates || mask == 0 || mask >> table->tasks)
        return FIELD_RANGE;
    if (table->vectors[g] == VECTORS)
        return TOO_MANY;
    if (g < l->gate)
        return ORDER;
    for (unsigned v = 0; v < table->vectors[g]; v++)
        if (table->masks[g][v] == mask)
            return ORDER;
    table->masks[g][table->vectors[g]++] = mask;
    l->gate = g;
    return DONE;
}

static enum answer add_record(struct table *table, struct loading *l, unsigned kind, const uint8_t *body)
{
    switch (kind) {
    case 1:
        if (!is_count(body[0]) || !is_count(body[1]))
            return FIELD_RANGE;
        table->tasks = body[0];
        table->gates = body[1];
        return DONE;
    case 2: return add_task(table, l, body);
    case 3: return add_move(table, l, body);
    default: return add_vector(table, l, body);
    }
}

static enum answer read_record(struct table *table, struct loading *l, const uint8_t *file, size_t left)
{
    if (left < 4)
        return CUT_OFF;
    unsigned kind = word_at(file, 2);
    if (kind < 1 || kind > 4 || kind < l->kind || (kind == 1) != (l->kind == 0))
        return KIND;
    if (kind > 2 && l->came < table->tasks)
        return MISSING;
    if (word_at(file, 0) != body_lengths[kind])
        return BODY_LENGTH;
    if (left < 4u + body_lengths[kind])
        return CUT_OFF;
    l->kind = kind;
    return add_record(table, l, kind, file + 4);
}

// Reads a table file. A refusal gives the empty table and the place.
static enum answer read_table(const uint8_t *file, size_t size, struct table *table, size_t *place)
{
    struct loading l = { 0 };
    size_t at = 0;
    enum answer answer = DONE;
    memset(table, 0, sizeof *table);
    while (answer == DONE && at < size) {
        answer = read_record(table, &l, file + at, size - at);
        if (answer == DONE)
            at += 4 + body_lengths[l.kind];
    }
    if (answer == DONE && (l.kind == 0 || l.came < table->tasks))
        answer = MISSING;
    if (answer != DONE)
        memset(table, 0, sizeof *table);
    *place = at;
    return answer;
}

// Reads a schedule file: delivery i then is file[6 i + 4], file[6 i + 5].
static enum answer read_schedule(const uint8_t *file, size_t size, size_t *count, size_t *place)
{
    *count = 0;
    *place = 60000;
    if (size > 60000)
        return TOO_MANY;
    size_t at;
    for (at = 0; at < size; at += 6) {
        *place = at;
        if (size - at < 4)
            return CUT_OFF;
        if (word_at(file, at + 2) != 5)
            return KIND;
        if (word_at(file, at) != body_lengths[5])
            return BODY_LENGTH;
        if (size - at < 6)
            return CUT_OFF;
    }
    *place = at;
    *count = size / 6;
    return DONE;
}

// ---- Number 11

static bool is_zero(const void *bytes, size_t size)
{
    const uint8_t *b = bytes;
#ifdef TUNED
    uint8_t any = 0;
    for (size_t i = 0; i < size; i++)
        any |= b[i];
    return any == 0;
#else
    for (size_t i = 0; i < size; i++)
        if (b[i] != 0)
            return false;
    return true;
#endif
}

static bool is_empty1(const struct channel1 *c)
{
#ifdef TUNED
    return memcmp(c, &empty1, sizeof *c) == 0;
#else
    return is_zero(c, sizeof *c);
#endif
}

// Whether a row of cells leads to none but the first states, at none but the first gates.
static bool sound_row(const uint8_t row[GATES], int gates, int states)
{
#ifdef TUNED
    bool bad = false;
    for (int g = 0; g < GATES; g++)
        bad |= row[g] > (g < gates ? states : 0);
    return !bad;
#else
    for (int g = 0; g < GATES; g++)
        if (row[g] > (g < gates ? states : 0))
            return false;
    return true;
#endif
}

static bool sound_moves(const struct table *table)
{
    for (int t = 0; t < TASKS; t++) {
        int states = table->states[t];
        if (!is_zero(table->moves[t][states], (STATES - states) * sizeof table->moves[t][0]))
            return false;
        for (int x = 0; x < states; x++)
            if (!sound_row(table->moves[t][x], table->gates, states))
                return false;
    }
    return true;
}

static bool sound_vectors(const struct table *table, int g)
{
    int count = table->vectors[g];
    if (count > (g < table->gates ? VECTORS : 0))
        return false;
    for (int v = 0; v < count; v++) {
        unsigned mask = table->masks[g][v];
        if (mask == 0 || mask >> table->tasks)
            return false;
        for (int w = 0; w < v; w++)
            if (table->masks[g][w] == mask)
                return false;
    }
    return is_zero(&table->masks[g][count], (VECTORS - count) * sizeof table->masks[g][0]);
}

static bool sound_table(const struct table *table)
{
    if (!is_count(table->tasks) || !is_count(table->gates))
        return false;
    for (int t = 0; t < table->tasks; t++)
        if (!is_count(table->states[t]) || table->starts[t] >= table->states[t])
            return false;
    for (int t = table->tasks; t < TASKS; t++)
        if (table->states[t] || table->starts[t])
            return false;
    if (!sound_moves(table))
        return false;
    for (int g = 0; g < GATES; g++)
        if (!sound_vectors(table, g))
            return false;
    return true;
}

// Whether a gate and vector are there, and the vector holds a task.
static bool names(const struct table *table, unsigned gate, unsigned vector, int task)
{
    return gate < table->gates && vector < table->vectors[gate] && (table->masks[gate][vector] >> task & 1);
}

static bool sound_up(const struct channel3 *c, int g)
{
#ifdef TUNED
    if (c->count == 0)
        return memcmp(c, &empty3, sizeof *c) == 0;
#endif
    if (c->count > 3)
        return false;
    for (int i = 0; i < c->count; i++) {
        const struct message *m = &c->at[i];
        if (m->kind != READY && ((m->kind != COMMIT && m->kind != ABORT) || m->gate != g))
            return false;
    }
    return is_zero(&c->at[c->count], (3 - c->count) * sizeof c->at[0]);
}

static bool sound_across(const struct table *table, const struct message *m, int from, int to)
{
    switch (m->kind) {
    case LOCK: return from < to && names(table, m->gate, m->vector, to);
    case COMMIT:
    case ABORT: return to < from && m->gate < table->gates;
    default: return false;
    }
}

static bool sound_task(const struct table *table, const struct task *task, int t)
{
    if (task->state >= table->states[t] || task->count > WAITING)
        return false;
    if (task->held) {
        const struct request *by = &task->by;
        if (!names(table, by->gate, by->vector, t) || table->masks[by->gate][by->vector] >> (t + 1) == 0)
            return false;
    } else if (task->count > 0 || task->by.gate || task->by.vector) {
        return false;
    }
    for (int i = 0; i < task->count; i++)
        if (!names(table, task->waiting[i].gate, task->waiting[i].vector, t))
            return false;
    if (!is_zero(&task->waiting[task->count], (WAITING - task->count) * sizeof task->waiting[0]))
        return false;
    for (int g = 0; g < table->gates; g++)
        if (!sound_up(&task->up[g], g))
            return false;
    if (!is_zero(&task->up[table->gates], (GATES - table->gates) * sizeof task->up[0]))
        return false;
    for (int b = 0; b < table->tasks; b++) {
        const struct channel1 *c = &task->across[b];
        if (c->count == 0 ? !is_empty1(c) : c->count > 1 || !sound_across(table, &c->first, t, b))
            return false;
    }
    return is_zero(&task->across[table->tasks], (TASKS - table->tasks) * sizeof task->across[0]);
}

static bool sound_gate(const struct table *table, const struct gate *gate, int g)
{
    if (gate->offers >> table->tasks)
        return false;
    if (gate->dealing ? gate->vector >= table->vectors[g] : gate->vector != 0)
        return false;
    for (int b = 0; b < table->tasks; b++) {
        const struct channel1 *c = &gate->down[b];
        const struct message *m = &c->first;
        if (c->count == 0 ? !is_empty1(c)
                          : c->count > 1 || m->kind != LOCK || m->gate != g || !names(table, g, m->vector, b))
            return false;
    }
    return is_zero(&gate->down[table->tasks], (TASKS - table->tasks) * sizeof gate->down[0]);
}

static bool sound_state(const struct table *table, const struct state *state)
{
    for (int t = 0; t < table->tasks; t++)
        if (!sound_task(table, &state->tasks[t], t))
            return false;
    for (int g = 0; g < table->gates; g++)
        if (!sound_gate(table, &state->gates[g], g))
            return false;
    return is_zero(&state->tasks[table->tasks], (TASKS - table->tasks) * sizeof state->tasks[0])
        && is_zero(&state->gates[table->gates], (GATES - table->gates) * sizeof state->gates[0]);
}

// ---- "What a delivery does"

// What a delivery has done at its task: the entries it fires and, where it works on the state itself, what it has
// sent.
struct work {
    const struct table *table;
    struct task *task;
    int number;
    bool ok;
    unsigned fired;
    struct request entries[WAITING];
#ifdef TUNED
    unsigned sent;
    uint16_t across;
    uint8_t up[GATES * 3];
#endif
};

static void put_up(struct work *w, int g, struct message message)
{
    struct channel3 *c = &w->task->up[g];
    if (c->count == 3) {
        w->ok = false;
        return;
    }
    c->at[c->count++] = message;
#ifdef TUNED
    w->up[w->sent++] = g;
#endif
}

static void put_across(struct work *w, int b, struct message message)
{
    struct channel1 *c = &w->task->across[b];
    if (c->count == 1) {
        w->ok = false;
        return;
    }
    c->count = 1;
    c->first = message;
#ifdef TUNED
    w->across |= 1u << b;
#endif
}

#ifdef TUNED
static void take_back(struct work *w)
{
    while (w->sent > 0) {
        struct channel3 *c = &w->task->up[w->up[--w->sent]];
        c->at[--c->count] = (struct message){ 0 };
    }
    for (unsigned rest = w->across; rest; rest &= rest - 1)
        w->task->across[__builtin_ctz(rest)] = empty1;
}
#endif

static void announce(struct work *w)
{
    const uint8_t *moves = w->table->moves[w->number][w->task->state];
    for (int g = 0; g < w->table->gates; g++) {
        const struct channel3 *c = &w->task->up[g];
        if (moves[g] && (c->count == 0 || c->at[c->count - 1].kind != READY))
            put_up(w, g, (struct message){ READY, 0, 0 });
    }
}

static void move_along(struct work *w, uint8_t cell)
{
    w->task->state = cell - 1;
    w->task->held = 0;
    w->task->by = (struct request){ 0 };
    announce(w);
}

// The result to each lower task, then to the gate.
static void send_result(struct work *w, unsigned lower, enum kind kind, uint8_t gate)
{
    struct message result = { kind, gate, 0 };
    for (unsigned rest = lower; rest; rest &= rest - 1)
        put_across(w, __builtin_ctz(rest), result);
    put_up(w, gate, result);
}

static void handle(struct work *w, struct request request)
{
    unsigned mask = w->table->masks[request.gate][request.vector];
    unsigned lower = mask & ((1u << w->number) - 1);
    unsigned higher = mask >> (w->number + 1);
    uint8_t cell = w->table->moves[w->number][w->task->state][request.gate];
    if (cell == 0) {
        send_result(w, lower, ABORT, request.gate);
    } else if (higher) {
        w->task->held = 1;
        w->task->by = request;
        put_across(w, w->number + 1 + __builtin_ctz(higher), (struct message){ LOCK, request.gate, request.vector });
    } else {
        w->entries[w->fired++] = request;
        send_result(w, lower, COMMIT, request.gate);
        move_along(w, cell);
    }
}

static void handle_waiting(struct work *w)
{
    struct task *task = w->task;
    while (w->ok && task->count > 0 && !task->held) {
        struct request front = task->waiting[0];
        task->count--;
        memmove(&task->waiting[0], &task->waiting[1], (WAITING - 1) * sizeof task->waiting[0]);
        task->waiting[WAITING - 1] = (struct request){ 0 };
        handle(w, front);
    }
}

static void at_task(struct work *w, struct message message)
{
    struct task *task = w->task;
    if (message.kind == LOCK) {
        struct request request = { message.gate, message.vector };
        if (!task->held)
            handle(w, request);
        else if (task->count < WAITING)
            task->waiting[task->count++] = request;
        else
            w->ok = false;
        return;
    }
    if (!task->held || task->by.gate != message.gate) {
        w->ok = false;
        return;
    }
    if (message.kind == COMMIT) {
        uint8_t cell = w->table->moves[w->number][task->state][message.gate];
        if (cell == 0) {
            w->ok = false;
            return;
        }
        move_along(w, cell);
    } else {
        task->held = 0;
        task->by = (struct request){ 0 };
    }
    handle_waiting(w);
}

// A task takes the message of a channel, or nothing is changed.
static enum answer to_task(const struct table *table, struct state *state, uint8_t *log, size_t size,
                           struct channel1 *channel, int b)
{
    struct task *task = &state->tasks[b];
    if (channel->count == 0)
        return CHANNEL_EMPTY;
#ifdef TUNED
    struct { uint8_t state, held, count; struct request by, waiting[WAITING]; } before;
    memcpy(&before, task, sizeof before);
    struct work w;
    w.table = table;
    w.task = task;
    w.number = b;
    w.ok = true;
    w.fired = w.sent = w.across = 0;
    at_task(&w, channel->first);
    if (!w.ok || w.fired > size / 2 - state->logged) {
        take_back(&w);
        memcpy(task, &before, sizeof before);
        return w.ok ? LOG_FULL : EXCLUDED;
    }
#else
    struct task copy = *task;
    struct work w;
    w.table = table;
    w.task = &copy;
    w.number = b;
    w.ok = true;
    w.fired = 0;
    at_task(&w, channel->first);
    if (!w.ok)
        return EXCLUDED;
    if (w.fired > size / 2 - state->logged)
        return LOG_FULL;
    *task = copy;
#endif
    memcpy(log + 2 * state->logged, w.entries, w.fired * sizeof w.entries[0]);
    state->logged += w.fired;
    *channel = empty1;
    return DONE;
}

// A gate takes a task's oldest message. All is judged before anything is written.
static enum answer to_gate(const struct table *table, struct state *state, int t, int g)
{
    struct channel3 *channel = &state->tasks[t].up[g];
    struct gate *gate = &state->gates[g];
    if (channel->count == 0)
        return CHANNEL_EMPTY;
    unsigned offers = gate->offers;
    bool dealing = gate->dealing;
    if (channel->at[0].kind == READY) {
        offers |= 1u << t;
    } else {
        unsigned dealt = table->masks[g][gate->vector];
        if (!dealing || !(dealt >> t & 1))
            return EXCLUDED;
        if (channel->at[0].kind == ABORT)
            offers |= dealt;
        offers &= ~(1u << t);
        dealing = false;
    }
    if (!dealing) {
        int v = 0;
        while (v < table->vectors[g] && (table->masks[g][v] & ~offers))
            v++;
        if (v < table->vectors[g]) {
            struct channel1 *down = &gate->down[__builtin_ctz(table->masks[g][v])];
            if (down->count == 1)
                return EXCLUDED;
            *down = (struct channel1){ 1, { LOCK, g, v } };
            offers &= ~table->masks[g][v];
            gate->dealing = 1;
            gate->vector = v;
        } else {
            gate->dealing = 0;
            gate->vector = 0;
        }
    }
    gate->offers = offers;
    channel->at[0] = channel->at[1];
    channel->at[1] = channel->at[2];
    channel->at[2] = (struct message){ 0 };
    channel->count--;
    return DONE;
}

// One delivery on a line that is known to be sound.
static enum answer step(const struct table *table, struct state *state, uint8_t *log, size_t size, unsigned from,
                        unsigned to)
{
    bool from_task = from < table->tasks, from_gate = from >= 16 && from - 16 < table->gates;
    bool is_task = to < table->tasks, is_gate = to >= 16 && to - 16 < table->gates;
    if (from_task && is_gate)
        return to_gate(table, state, from, to - 16);
    if (from_gate && is_task)
        return to_task(table, state, log, size, &state->gates[from - 16].down[to], to);
    if (from_task && is_task && from != to)
        return to_task(table, state, log, size, &state->tasks[from].across[to], to);
    return NO_CHANNEL;
}

static enum answer deliver(const struct table *table, struct state *state, uint8_t *log, size_t size, unsigned from,
                           unsigned to)
{
    if (!sound_table(table) || !sound_state(table, state) || state->logged > size / 2)
        return UNSOUND;
    return step(table, state, log, size, from, to);
}

// ---- "Fresh", and whether nothing is undelivered

static enum answer fresh(const struct table *table, struct state *state)
{
    memset(state, 0, sizeof *state);
    if (!sound_table(table))
        return UNSOUND;
    for (int t = 0; t < table->tasks; t++) {
        struct work w = { .table = table, .task = &state->tasks[t], .number = t, .ok = true };
        w.task->state = table->starts[t];
        announce(&w);
    }
    return DONE;
}

static bool is_quiet(const struct state *state)
{
    for (int i = 0; i < TASKS; i++)
        for (int j = 0; j < TASKS; j++)
            if (state->tasks[i].up[j].count || state->tasks[i].across[j].count || state->gates[i].down[j].count)
                return false;
    return true;
}
