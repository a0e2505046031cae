// The machine in plain C: a fresh one, and one tick in place, with every condition of the state and of the two sets.
#include "plain.h"

void machine_fresh(machine *m, const table *t) {
    *m = (machine){.table = {.cores = t->cores, .partitions = t->partitions, .n = t->n}};
    for (u64 i = 0; i < t->n && i < MOST_TASKS; i++) {
        m->table.rows[i] = t->rows[i];
        m->jobs[i] = (job){.stage = IDLE, .age = t->rows[i].t};
    }
}

// The sets of tasks that run, that wait, that have run their C with this tick, and whose age reaches T with it.
typedef struct {
    u32 running, waiting, over, due;
} seen;

static u64 below(u32 p) { return p < 64 ? ((u64)1 << p) - 1 : ~(u64)0; }

static int job_good(const job *j, const task *r, u64 partitions) {
    if (j->age > r->t) return 0;
    if (j->stage == RUNNING)
        return j->ran < r->c && j->ran <= j->age && (u32)__builtin_popcountl(j->held) == r->a &&
               !(j->held & ~partitions);
    return !j->held && !j->ran && (j->stage == WAITING || j->age >= 1);
}

static int entry_zero(const job *j, const task *r) {
    return !(r->d | r->t | r->c | r->a | j->stage | j->age | j->ran | j->held);
}

// Whether the state meets its conditions; if so, what it shows.
static int state_good(const machine *m, seen *s) {
    const table *t = &m->table;
    if (table_refused(t).number) return 0;
    u64 all = below(t->partitions), held = 0;
    *s = (seen){0};
    for (u64 i = 0; i < t->n; i++) {
        const job *j = &m->jobs[i];
        const task *r = &t->rows[i];
        u32 bit = (u32)1 << i;
        if (!job_good(j, r, all) || held & j->held) return 0;
        held |= j->held;
        if (j->stage == RUNNING) {
            s->running |= bit;
            if (j->ran + 1 == r->c) s->over |= bit;
        } else if (j->stage == WAITING) s->waiting |= bit;
        if (j->age + 1 >= r->t) s->due |= bit;
    }
    for (u64 i = t->n; i < MOST_TASKS; i++)
        if (!entry_zero(&m->jobs[i], &t->rows[i])) return 0;
    return (u32)__builtin_popcount(s->running) <= t->cores;
}

// Where a set is not empty: the refusal, with the lowest task of the set.
static int given(u32 number, u32 tasks, refusal *refused) {
    if (!tasks) return 0;
    *refused = (refusal){number, (u64)__builtin_ctz(tasks) + 1};
    return 1;
}

static int tick_refused(const machine *m, u32 released, u32 finished, seen *s, refusal *refused) {
    if (!state_good(m, s)) {
        *refused = (refusal){14, 0};
        return 1;
    }
    u32 tasks = (u32)below(m->table.n);
    return given(9, (released | finished) & ~tasks, refused) || given(10, finished & ~s->running, refused)
        || given(11, s->over & ~finished, refused) || given(12, released & ~s->due, refused)
        || given(13, released & (s->waiting | (s->running & ~finished)), refused);
}

// The a lowest members of a set that has as many.
static u64 lowest(u64 set, u32 a) {
    u64 rest = set;
    while (a--) rest &= rest - 1;
    return set & ~rest;
}

// Steps 1 to 4.
static void pass(machine *m, u32 released, u32 finished, answer *answer) {
    for (u64 i = 0; i < m->table.n; i++) {
        job *j = &m->jobs[i];
        const task *r = &m->table.rows[i];
        u32 bit = (u32)1 << i, age = j->age;
        if (age < r->t) j->age++;
        if (finished & bit) *j = (job){.stage = IDLE, .age = j->age};
        else if (j->stage == RUNNING) j->ran++;
        if (j->stage != IDLE && age + 1 == r->d) answer->late |= bit;
        if (released & bit) *j = (job){.stage = WAITING};
    }
}

// Step 5.
static void start(machine *m, u32 waiting, u32 running, answer *answer) {
    u64 idle = below(m->table.partitions);
    for (u32 rest = running; rest; rest &= rest - 1) idle &= ~m->jobs[__builtin_ctz(rest)].held;
    u32 count = __builtin_popcount(running), room = __builtin_popcountl(idle);
    for (; waiting; waiting &= waiting - 1) {
        u32 i = __builtin_ctz(waiting), a = m->table.rows[i].a;
        if (count >= m->table.cores || a > room) return;
        job *j = &m->jobs[i];
        j->stage = RUNNING;
        j->held = lowest(idle, a);
        idle &= ~j->held;
        room -= a;
        count++;
        answer->started |= (u32)1 << i;
    }
}

void machine_tick(machine *m, u32 released, u32 finished, answer *answer) {
    seen s;
    answer->finished = answer->late = answer->started = 0;
    if (tick_refused(m, released, finished, &s, &answer->refused)) return;
    answer->refused = (refusal){0, 0};
    answer->finished = finished;
    pass(m, released, finished, answer);
    start(m, s.waiting | released, s.running & ~finished, answer);
}
