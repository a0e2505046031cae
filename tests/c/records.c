/* Calls with records: the cases of document 01, rows at the edges of every size, refusals that change nothing, and
 * machines in use that are set up anew. */
#include "gorsetumble.h"

#include "expect.h"

typedef gorsetumble_platform Platform;
typedef gorsetumble_task Task;
typedef gorsetumble_machine Machine;

static bool refused(gorsetumble_refusal r, uint32_t number, size_t row) { return r.number == number && r.row == row; }

static bool same_task(Task x, Task y) { return x.d == y.d && x.t == y.t && x.c == y.c && x.a == y.a; }

static bool same_job(gorsetumble_job x, gorsetumble_job y) {
    return x.stage == y.stage && x.age == y.age && x.ran == y.ran && x.held == y.held;
}

static bool same(const Machine *x, const Machine *y) {
    bool good = x->table.platform.cores == y->table.platform.cores &&
                x->table.platform.partitions == y->table.platform.partitions && x->table.n == y->table.n;
    for (size_t i = 0; i < GORSETUMBLE_MOST_TASKS; i++) {
        good = good && same_task(x->table.rows[i], y->table.rows[i]) && same_job(x->jobs[i], y->jobs[i]);
    }
    return good;
}

/* all tasks idle with age T and no partition held, and zero past n */
static bool fresh(const Machine *m, Platform p, const Task *rows, size_t n) {
    const Task no_task = {0, 0, 0, 0};
    bool good = m->table.platform.cores == p.cores && m->table.platform.partitions == p.partitions && m->table.n == n;
    for (size_t i = 0; i < GORSETUMBLE_MOST_TASKS; i++) {
        Task row = i < n ? rows[i] : no_task;
        gorsetumble_job job = {GORSETUMBLE_IDLE, row.t, 0, 0};
        good = good && same_task(m->table.rows[i], row) && same_job(m->jobs[i], job);
    }
    return good;
}

static Task rows[1000000];

static void fill(Task row) {
    for (size_t i = 0; i < sizeof rows / sizeof rows[0]; i++) {
        rows[i] = row;
    }
}

/* the two answers on a row, which must agree */
static void judges(const char *what, Platform p, const Task *row, size_t n, uint32_t number, size_t at, size_t first,
                   const int64_t *margins) {
    gorsetumble_full_answer full = gorsetumble_full(p, row, n);
    gorsetumble_quick_answer quick = gorsetumble_quick(p, row, n);
    bool good =
        refused(full.refused, number, at) && full.admitted == (number == 0 && first == 0) && full.first == first;
    for (size_t i = 0; i < GORSETUMBLE_MOST_TASKS; i++) {
        good = good && full.margins[i] == (margins != NULL && i < n ? margins[i] : 0);
    }
    expect(good, what);
    expect(refused(quick.refused, number, at) && quick.admitted == full.admitted && quick.first == full.first, what);
}

static void answers(void) {
    const Task p1[] = {{40, 50, 2, 1}, {60, 60, 3, 2}, {80, 100, 4, 2}};
    const Task p2 = {6, 6, 2, 1}, p3 = {7, 7, 2, 1}, p4 = {5, 5, 2, 1}, p5 = {2, 2, 2, 1}, p6 = {6, 6, 2, 0};
    const Platform two_four = {2, 4}, one_one = {1, 1};
    judges("P1", two_four, p1, 3, 0, 0, 0, (const int64_t[]){232, 268, 370});
    judges("P2", one_one, &p2, 1, 0, 0, 1, (const int64_t[]){0});
    judges("P3", one_one, &p3, 1, 0, 0, 0, (const int64_t[]){1});
    judges("P4", one_one, &p4, 1, 0, 0, 1, (const int64_t[]){-1});
    judges("P5", one_one, &p5, 1, 0, 0, 1, (const int64_t[]){-4});
    judges("P6", one_one, &p6, 1, 0, 0, 1, (const int64_t[]){0});

    /* a task that needs no partition and runs 1 of 65,535 ticks: S is 65,534, B is 65, and each task is charged 2 */
    const Platform wide = {16, 64};
    int64_t of_32[32], of_15[15];
    for (size_t i = 0; i < 32; i++) {
        of_32[i] = INT64_C(16) * 65 * 65534 - 32 * 65 * 2;
    }
    for (size_t i = 0; i < 15; i++) {
        of_15[i] = INT64_C(16) * 65 * 65534 - 15 * 65 * 2;
    }
    fill((Task){65535, 65535, 1, 0});
    judges("32 rows", wide, rows, 32, 0, 0, 0, of_32);
    judges("no row", wide, rows, 0, 1, 0, 0, NULL);
    judges("no row, and null", wide, NULL, 0, 1, 0, 0, NULL);
    judges("33 rows", wide, rows, 33, 1, 0, 0, NULL);
    judges("a million rows", wide, rows, sizeof rows / sizeof rows[0], 1, 0, 0, NULL);
    judges("no core", (Platform){0, 64}, rows, 32, 2, 0, 0, NULL);
    judges("65,537 cores", (Platform){65537, 64}, rows, 32, 2, 0, 0, NULL);
    judges("no partition", (Platform){16, 0}, rows, 32, 3, 0, 0, NULL);
    judges("65 partitions", (Platform){16, 65}, rows, 32, 3, 0, 0, NULL);
    rows[31] = (Task){65535, 65536, 1, 0};
    judges("row 32, period", wide, rows, 32, 4, 32, 0, NULL);
    rows[31] = (Task){65535, 65535, 0, 0};
    judges("row 32, no run", wide, rows, 32, 5, 32, 0, NULL);
    rows[30] = (Task){5, 65535, 6, 0};
    judges("row 31 before row 32", wide, rows, 32, 6, 31, 0, NULL);
    rows[16] = (Task){6, 5, 5, 0};
    judges("row 17, deadline", wide, rows, 32, 7, 17, 0, NULL);
    rows[0] = (Task){5, 5, 5, 65};
    judges("row 1, partitions", wide, rows, 32, 8, 1, 0, NULL);
    judges("the rows before and after are not read", wide, rows + 1, 15, 0, 0, 0, of_15);
}

static void ticks(const char *what, Machine *m, uint32_t released, uint32_t finished, uint32_t number, size_t task,
                  uint32_t late, uint32_t started) {
    Machine before = *m;
    gorsetumble_answer a = gorsetumble_tick(m, released, finished);
    expect(refused(a.refused, number, task) && a.finished == (number == 0 ? finished : 0) && a.late == late &&
               a.started == started,
           what);
    expect(number == 0 || same(m, &before), what);
}

static void sets_up(const char *what, Machine *m, Platform p, const Task *row, size_t n, uint32_t number, size_t at) {
    Machine before = *m;
    expect(refused(gorsetumble_set_up(m, p, row, n), number, at), what);
    expect(number == 0 ? fresh(m, p, row, n) : same(m, &before), what);
}

static void machines(void) {
    const Task p8[] = {{6, 6, 2, 1}, {8, 8, 3, 2}, {9, 9, 2, 2}, {12, 12, 2, 1}};
    const Task p9[] = {{2, 4, 2, 1}, {3, 4, 2, 1}};
    const Task p10[] = {{3, 3, 3, 1}, {1, 1, 1, 1}};
    const Platform three_four = {3, 4}, one_one = {1, 1};
    static Machine m; /* zero, which is no good state */

    ticks("a machine that was never set up", &m, 0, 0, 14, 0, 0, 0);
    sets_up("no row", &m, three_four, p8, 0, 1, 0);
    sets_up("no row, and null", &m, three_four, NULL, 0, 1, 0);
    sets_up("P8", &m, three_four, p8, 4, 0, 0);
    ticks("P8, tick 0", &m, 15, 0, 0, 0, 0, 3);
    ticks("P8, tick 1", &m, 0, 0, 0, 0, 0, 0);
    ticks("P8, tick 2", &m, 0, 1, 0, 0, 0, 4);
    expect(m.jobs[2].held == 9, "P8: task 3 takes partitions 0 and 3");
    ticks("P8, tick 3", &m, 0, 2, 0, 0, 0, 8);
    ticks("P8, tick 4", &m, 0, 4, 0, 0, 0, 0);
    ticks("P8, too early", &m, 1, 8, 12, 1, 0, 0);
    ticks("P8, tick 5", &m, 0, 8, 0, 0, 0, 0);
    ticks("P8, tick 6", &m, 1, 0, 0, 0, 0, 1);
    ticks("a task above n", &m, 16, 0, 9, 5, 0, 0);
    ticks("not running", &m, 0, 2, 10, 2, 0, 0);

    /* in use, and refused: nothing changes; then set up anew: nothing of the old is left */
    fill((Task){65535, 65535, 1, 64});
    sets_up("33 rows", &m, three_four, rows, 33, 1, 0);
    sets_up("a bad row", &m, three_four, rows, 32, 8, 1);
    sets_up("32 rows", &m, (Platform){16, 64}, rows, 32, 0, 0);
    ticks("all 32 at once", &m, 0xffffffff, 0, 0, 0, 0, 1);
    expect(m.jobs[0].held == UINT64_MAX, "one task holds all 64 partitions");
    ticks("it must finish", &m, 0, 0, 11, 1, 0, 0);
    ticks("it finishes", &m, 0, 1, 0, 0, 0, 2);
    sets_up("P9", &m, one_one, p9, 2, 0, 0);
    ticks("P9, tick 0", &m, 3, 0, 0, 0, 0, 1);
    ticks("P9, tick 1", &m, 0, 0, 0, 0, 0, 0);
    ticks("P9, tick 2", &m, 0, 1, 0, 0, 0, 2);
    ticks("P9, tick 3", &m, 0, 0, 0, 0, 2, 0);
    sets_up("P10", &m, one_one, p10, 2, 0, 0);
    ticks("P10, tick 0", &m, 3, 0, 0, 0, 0, 1);
    ticks("P10, tick 1", &m, 2, 0, 13, 2, 0, 0);

    /* spoiled states */
    Machine good = m;
    m.jobs[1].stage = 3;
    ticks("a stage that is none", &m, 0, 0, 14, 0, 0, 0);
    m = good;
    m.jobs[31].stage = UINT32_MAX;
    ticks("a stage that is none, past n", &m, 0, 0, 14, 0, 0, 0);
    m = good;
    m.jobs[1].held = 1;
    ticks("a waiting job with a partition", &m, 0, 0, 14, 0, 0, 0);
    m = good;
    m.jobs[0].held = 0;
    ticks("a running job without its partition", &m, 0, 0, 14, 0, 0, 0);
    m = good;
    m.table.rows[2].t = 1;
    ticks("a row past n", &m, 0, 0, 14, 0, 0, 0);
    m = good;
    m.table.n = 33;
    ticks("33 tasks", &m, 0, 0, 14, 0, 0, 0);
    sets_up("a spoiled machine is set up", &m, one_one, p10, 2, 0, 0);
}

void records(void) {
    answers();
    machines();
}
