/* Rehearsals of rows and of two texts: the worked cases of wish 1, and a multiple at both sides of its limit. The texts
 * are made of the same rows, so that both calls are held to one answer. */
#include "gorsetumble.h"

#include "expect.h"

typedef gorsetumble_platform Platform;
typedef gorsetumble_task Task;

enum { MOST = 1000 };

typedef struct {
    uint8_t bytes[MOST];
    size_t length;
} Text;

static void add(Text *to, const char *words) {
    while (*words != 0) to->bytes[to->length++] = (uint8_t)*words++;
}

static void add_number(Text *to, uint64_t n) {
    if (n >= 10) add_number(to, n / 10);
    to->bytes[to->length++] = (uint8_t)('0' + n % 10);
}

static Text listing(gorsetumble_rehearsal r, size_t n) {
    Text t = {{0}, 0};
    if (r.refused.number != 0) {
        add(&t, "refused,row\r\n");
        add_number(&t, r.refused.number);
        add(&t, ",");
        add_number(&t, r.refused.row);
        add(&t, "\r\n");
        return t;
    }
    add(&t, "task,started,late\r\n");
    for (size_t i = 0; i < n; i++) {
        add_number(&t, i + 1);
        add(&t, ",");
        add_number(&t, r.started[i]);
        add(&t, ",");
        add_number(&t, i + 1 == r.task ? r.tick : 0);
        add(&t, "\r\n");
    }
    return t;
}

static bool all(const uint8_t *bytes, size_t from, size_t to, uint8_t byte) {
    while (from < to && bytes[from] == byte) from++;
    return from == to;
}

/* what the program would write; and with a byte too little room, nothing */
static void writes(const char *what, Platform p, const Task *rows, size_t n, gorsetumble_rehearsal expected) {
    static gorsetumble_table table;
    static uint8_t platform[MOST], tasks[MOST], out[MOST];
    Text text = listing(expected, n);
    table.platform = p;
    table.n = n;
    memcpy(table.rows, rows, n * sizeof *rows);
    gorsetumble_texts_written w = gorsetumble_write_texts(table, platform, MOST, tasks, MOST);

    memset(out, 0xa5, MOST);
    gorsetumble_written r = gorsetumble_rehearse_texts(platform, w.platform, tasks, w.tasks, out, text.length);
    expect(r.refused.number == 0 && r.length == text.length && memcmp(out, text.bytes, text.length) == 0, what);
    expect(all(out, text.length, MOST, 0xa5), what);
    memset(out, 0xa5, MOST);
    r = gorsetumble_rehearse_texts(platform, w.platform, tasks, w.tasks, out, text.length - 1);
    expect(r.refused.number == GORSETUMBLE_REFUSED_ROOM && r.length == 0 && all(out, 0, MOST, 0xa5), what);
}

static bool same(gorsetumble_rehearsal x, gorsetumble_rehearsal y) {
    bool good = x.refused.number == y.refused.number && x.refused.row == y.refused.row && x.tick == y.tick &&
                x.task == y.task;
    for (size_t i = 0; i < GORSETUMBLE_MOST_TASKS; i++) good = good && x.started[i] == y.started[i];
    return good;
}

static void rehearses(const char *what, Platform p, const Task *rows, size_t n, gorsetumble_rehearsal expected) {
    expect(same(gorsetumble_rehearse(p, rows, n), expected), what);
    writes(what, p, rows, n, expected);
}

#define NONE_LATE(...) ((gorsetumble_rehearsal){{0, 0}, 0, 0, {__VA_ARGS__}})
#define LATE(tick, task, ...) ((gorsetumble_rehearsal){{0, 0}, tick, task, {__VA_ARGS__}})
#define REFUSED(number, row) ((gorsetumble_rehearsal){{number, row}, 0, 0, {0}})

static void worked(void) {
    const Task p1[] = {{40, 50, 2, 1}, {60, 60, 3, 2}, {80, 100, 4, 2}};
    const Task p8[] = {{6, 6, 2, 1}, {8, 8, 3, 2}, {9, 9, 2, 2}, {12, 12, 2, 1}};
    const Task p9[] = {{2, 4, 2, 1}, {3, 4, 2, 1}};
    const Task p10[] = {{3, 3, 3, 1}, {1, 1, 1, 1}};
    const Task at_end[] = {{3, 3, 2, 1}, {3, 3, 2, 1}}, in_time[] = {{4, 4, 2, 1}, {4, 4, 2, 1}};
    const Task at_once[] = {{1, 10, 1, 1}, {3, 10, 1, 0}, {2, 10, 2, 1}, {2, 10, 1, 1}};
    const Platform one_one = {1, 1};
    rehearses("P1", (Platform){2, 4}, p1, 3, NONE_LATE(6, 5, 3));
    rehearses("P8", (Platform){3, 4}, p8, 4, NONE_LATE(12, 9, 8, 6));
    rehearses("P8 on one core", (Platform){1, 4}, p8, 4, LATE(12, 4, 2, 2, 1, 0));
    rehearses("P8 with two partitions", (Platform){3, 2}, p8, 4, LATE(24, 4, 4, 3, 3, 2));
    rehearses("P9", one_one, p9, 2, LATE(3, 2, 1, 1));
    rehearses("P10", one_one, p10, 2, LATE(1, 2, 1, 0));
    rehearses("late at the multiple", one_one, at_end, 2, LATE(3, 2, 1, 1));
    rehearses("done at the multiple", one_one, in_time, 2, NONE_LATE(1, 1));
    rehearses("two late at once", one_one, at_once, 4, LATE(2, 3, 1, 1, 0, 0));
}

static void limits(void) {
    const Task million[] = {{15625, 15625, 1, 1}, {64, 64, 1, 1}};
    const Task above[] = {{1000, 1000, 1, 1}, {1001, 1001, 1, 1}};
    const Task far_above[] = {{65535, 65535, 1, 1}, {65534, 65534, 1, 1}};
    const Task bad_row[] = {{1000, 1000, 1, 1}, {1002, 1001, 1, 1}};
    const Platform one_one = {1, 1};
    rehearses("a multiple of 1,000,000", one_one, million, 2, NONE_LATE(64, 15625));
    rehearses("a multiple of 1,001,000", one_one, above, 2, REFUSED(GORSETUMBLE_REFUSED_MULTIPLE, 0));
    rehearses("a multiple above 32 bits", one_one, far_above, 2, REFUSED(GORSETUMBLE_REFUSED_MULTIPLE, 0));
    rehearses("the row comes before the multiple", one_one, bad_row, 2, REFUSED(GORSETUMBLE_REFUSED_DEADLINE, 2));
    rehearses("no core", (Platform){0, 1}, above, 2, REFUSED(GORSETUMBLE_REFUSED_CORES, 0));
    rehearses("no row", one_one, above, 0, REFUSED(GORSETUMBLE_REFUSED_COUNT, 0));
    expect(same(gorsetumble_rehearse(one_one, NULL, 0), REFUSED(GORSETUMBLE_REFUSED_COUNT, 0)), "no row, and null");
}

void rehearsals(void) {
    worked();
    limits();
}
