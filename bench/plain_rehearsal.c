// A rehearsal in plain C, twice: event by event, which is the algorithm of the proved code, and tick by tick on the
// plain machine, whose conditions are not tried again at each tick.
#include "plain.h"

// Later than any tick of a rehearsal.
static const u32 NEVER = ~(u32)0;

// Of a task, ticks to come: its next release, when its unfinished job is late, when its running job has run C.
typedef struct {
    u32 due, late, ends;
} lane;

// By Euclid, as wish 1 names it.
static u32 gcd(u32 a, u32 b) { return b ? gcd(b, a % b) : a; }

// The least common multiple of the periods, or 0 where it is above the longest rehearsal.
static u32 multiple(const table *t) {
    u32 so_far = 1;
    for (u64 i = 0; i < t->n; i++) {
        u64 next = (u64)(so_far / gcd(so_far, t->rows[i].t)) * t->rows[i].t;
        if (next > LONGEST_REHEARSAL) return 0;
        so_far = next;
    }
    return so_far;
}

static u32 sooner(u32 a, u32 b) { return a < b ? a : b; }

// Steps 1 to 4 of tick i: the lowest late task, or 0.
static u64 settle(const table *t, lane *lanes, u32 i, u32 *cores, u32 *partitions) {
    for (u64 k = 0; k < t->n; k++) {
        lane *x = &lanes[k];
        const task *r = &t->rows[k];
        if (x->ends == i) {
            x->late = x->ends = NEVER;
            ++*cores;
            *partitions += r->a;
        } else if (x->late == i) return k + 1;
        if (x->due == i) {
            x->due = i + r->t;
            x->late = i + r->d;
        }
    }
    return 0;
}

// Step 5 of tick i: the next tick at which something happens.
static u32 begin(const table *t, lane *lanes, u32 i, u32 *cores, u32 *partitions, u32 *started) {
    u32 next = NEVER;
    int goes = 1;
    for (u64 k = 0; k < t->n; k++) {
        lane *x = &lanes[k];
        const task *r = &t->rows[k];
        if (goes && x->late != NEVER && x->ends == NEVER) {
            goes = *cores && r->a <= *partitions;
            if (goes) {
                --*cores;
                *partitions -= r->a;
                x->ends = i + r->c;
                started[k]++;
            }
        }
        next = sooner(next, sooner(x->due, sooner(x->late, x->ends)));
    }
    return next;
}

static void by_events(const table *t, u32 last, rehearsal *answer) {
    lane lanes[MOST_TASKS];
    u32 cores = t->cores, partitions = t->partitions;
    for (u64 k = 0; k < t->n; k++) lanes[k] = (lane){0, NEVER, NEVER};
    for (u32 i = 0;; i = begin(t, lanes, i, &cores, &partitions, answer->started)) {
        answer->task = settle(t, lanes, i, &cores, &partitions);
        if (answer->task) answer->tick = i;
        if (answer->task || i == last) return;
    }
}

static void by_ticks(const table *t, u32 last, rehearsal *rehearsed) {
    machine m;
    u32 waiting = 0, running = 0;
    machine_fresh(&m, t);
    for (u32 i = 0;; i++) {
        answer now = {0};
        u32 released = 0, finished = 0;
        for (u64 k = 0; k < t->n; k++) {
            const job *j = &m.jobs[k];
            if (j->age + 1 >= t->rows[k].t && i < last) released |= (u32)1 << k;
            if (j->stage == RUNNING && j->ran + 1 == t->rows[k].c) finished |= (u32)1 << k;
        }
        pass(&m, released, finished, &now);
        if (now.late) {
            rehearsed->tick = i;
            rehearsed->task = (u64)__builtin_ctz(now.late) + 1;
        }
        if (now.late || i == last) return;
        waiting |= released;
        running &= ~finished;
        start(&m, waiting, running, &now);
        waiting &= ~now.started;
        running |= now.started;
        for (u32 rest = now.started; rest; rest &= rest - 1) rehearsed->started[__builtin_ctz(rest)]++;
    }
}

void rehearse(const table *t, int tick_by_tick, rehearsal *answer) {
    *answer = (rehearsal){.refused = table_refused(t)};
    if (answer->refused.number) return;
    u32 last = multiple(t);
    if (!last) answer->refused = (refusal){17, 0};
    else if (tick_by_tick) by_ticks(t, last, answer);
    else by_events(t, last, answer);
}
