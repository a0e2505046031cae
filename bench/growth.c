// How a rehearsal grows: tables of which one thing grows, and the longest that there are. For each it prints a line,
// with its events and the times of the proved code and of plain C event by event and tick by tick, in milliseconds.
// Given any word, it runs them once instead, between marks, for a count of their instructions: four marks a table.
#include "rounds.h"
#include "periods.c"

int printf(const char *form, ...);
int fflush(void *stream);
struct when {
    i64 seconds, nanoseconds;
};
int clock_gettime(int clock, struct when *now);

enum { OWN_TIME = 2, REPETITIONS = 3, WORDS = 3 + 4 * MOST_TASKS };

typedef u64 rounds(const u32 *words, u64 count, u32 p, u32 q, u64 n);

static u32 words[WORDS];
static int counts, bad;

static u64 once(rounds *f) { return f(words, WORDS, MOST_PARTITIONS, MOST_PARTITIONS, 1); }

static double best(rounds *f, u64 *answer) {
    i64 least = 0;
    for (int i = 0; i < REPETITIONS; i++) {
        struct when a, b;
        clock_gettime(OWN_TIME, &a);
        *answer = once(f);
        clock_gettime(OWN_TIME, &b);
        i64 took = (b.seconds - a.seconds) * 1000000000 + b.nanoseconds - a.nanoseconds;
        if (!i || took < least) least = took;
    }
    return (double)least / 1000000;
}

// The ticks from 0 to l at which something is released, finished or late, and l: those that event by event are visited.
// No job of these tables is ever late.
static u64 events(u32 l) {
    table t = table_of(words, WORDS);
    machine m;
    u64 sum = 1;
    machine_fresh(&m, &t);
    for (u32 i = 0; i < l; i++) {
        answer got;
        u32 released = 0, finished = 0;
        for (u64 k = 0; k < t.n; k++) {
            if (i % t.rows[k].t == 0) released |= (u32)1 << k;
            if (m.jobs[k].stage == RUNNING && m.jobs[k].ran + 1 == t.rows[k].c) finished |= (u32)1 << k;
        }
        machine_tick(&m, released, finished, &got);
        if (got.refused.number || got.late) bad = printf("tick %u: refused or late\n", i);
        sum += (released | finished) != 0;
    }
    return sum;
}

// What is executed between two calls of it is counted.
__attribute__((noinline)) void mark(void) { __asm__ volatile(""); }

static rounds *const versions[3] = {proved_rehearsal, plain_rehearsal_by_events, plain_rehearsal_by_ticks};

// Tick by tick a million ticks take long to count, so that not all tables are.
static void counted(int by_ticks) {
    for (int i = 0; i < 3; i++) {
        mark();
        if (i < 2 || by_ticks) once(versions[i]);
    }
    mark();
}

static void timed(const char *what, u32 l) {
    double took[3];
    u64 answers[3];
    for (int i = 0; i < 3; i++) took[i] = best(versions[i], &answers[i]);
    if (answers[0] != answers[1] || answers[0] != answers[2]) bad = printf("%s: the answers differ\n", what);
    printf("%s|%u|%u|%lu|%.2f|%.2f|%.2f\n", what, words[0], l, events(l), took[0], took[1], took[2]);
    fflush(0);
}

static void point(const char *what, u32 l, int by_ticks) {
    if (counts) counted(by_ticks);
    else timed(what, l);
}

static void put_row(u32 k, u32 period, u32 run) {
    u32 *row = words + 3 + 4 * k;
    row[0] = row[1] = period;
    row[2] = run;
    row[3] = 1;
}

// The same 8 tasks with all their ticks `times` as long: the same events.
static void longer(u32 times) {
    periods_words(words, 8, 8, 5040, 10, 315);
    for (u32 k = 0; k < 8; k++)
        for (u32 i = 0; i < 3; i++) words[3 + 4 * k + i] *= times;
    point("L", 5040 * times, 1);
}

// Of n tasks all but the last have the period 2 and a run of 1: an event at every tick.
static void wider(u32 n) {
    words[0] = n;
    words[1] = 16;
    words[2] = MOST_PARTITIONS;
    for (u32 k = 0; k + 1 < n; k++) put_row(k, 2, 1);
    put_row(n - 1, 10000, 1);
    point("n", 10000, 1);
}

// Of 32 tasks `many` have the one period, those that follow the other; with the last two L is 1,000,000.
static void denser(const char *what, u32 many, u32 period, u32 other, int by_ticks) {
    words[0] = MOST_TASKS;
    words[1] = MOST_CORES;
    words[2] = MOST_PARTITIONS;
    for (u32 k = 0; k < 30; k++) put_row(k, k < many ? period : other, 1);
    put_row(30, 40000, 1);
    put_row(31, 62500, 1);
    point(what, LONGEST_REHEARSAL, by_ticks);
}

// Periods above 1,000 with about as many events as they can have. A task has two events a period at most, and those of
// one period are released together, so it is periods below twice the shortest, each once, and else the shortest; of all
// common multiples up to 1,000,000, 720,720 has the most for that. No two jobs run for as long.
static void densest(void) {
    u32 l = 720720, shortest = 1001, k = MOST_TASKS;
    words[0] = MOST_TASKS;
    words[1] = MOST_CORES;
    words[2] = MOST_PARTITIONS;
    for (u32 period = 2 * shortest - 1; period > shortest; period--)
        if (l % period == 0) put_row(--k, period, 50 + k);
    while (k) {
        k--;
        put_row(k, shortest, 50 + k);
    }
    point("T ≥ 1,001", l, 1);
}

int main(int count, char **arguments) {
    static const u32 times[6] = {1, 4, 16, 50, 100, 198}, periods[6] = {20000, 5000, 1000, 200, 40, 8};
    (void)arguments;
    counts = count > 1;
    for (int i = 0; i < 3; i++) once(versions[i]); // of no task: what a program does once is done
    for (int i = 0; i < 6; i++) longer(times[i]);
    for (u32 n = 2; n <= MOST_TASKS; n += n < 4 ? 2 : 4) wider(n);
    for (int i = 0; i < 6; i++) denser("events", 30, periods[i], 0, i == 0);
    denser("T = 2", 30, 2, 0, 1);
    denser("T = 1", 15, 1, 64, 1);
    densest();
    return bad != 0;
}
