/* What `admit` and `ticks` write, and the writers of the two texts, called from C: the cases of document 01, a buffer
 * without a byte to spare and one that is a byte too short, and bytes past the text that stay. */
#include "gorsetumble.h"

#include "expect.h"

enum { ROOM = 2048, BEFORE = 0xa5 };

typedef struct {
    const char *bytes;
    size_t length;
} Text;

#define TEXT(s) ((Text){s, sizeof(s) - 1})
#define LENT(t) (const uint8_t *)(t).bytes, (t).length

static const Text two_four = {"cores,partitions\r\n2,4\r\n", 23}, three_four = {"cores,partitions\r\n3,4\r\n", 23};
static const Text p1 = {"D,T,C,A\r\n40,50,2,1\r\n60,60,3,2\r\n80,100,4,2\r\n", 43};
static const Text p8 = {"D,T,C,A\r\n6,6,2,1\r\n8,8,3,2\r\n9,9,2,2\r\n12,12,2,1\r\n", 47};
static const gorsetumble_task rows[3] = {{40, 50, 2, 1}, {60, 60, 3, 2}, {80, 100, 4, 2}};

static uint8_t out[ROOM], other[ROOM];

static void clear(void) {
    memset(out, BEFORE, ROOM);
    memset(other, BEFORE, ROOM);
}

/* the text, or nothing, and every byte behind it as it was */
static bool holds(const uint8_t *buffer, Text text) {
    bool good = memcmp(buffer, text.bytes, text.length) == 0;
    for (size_t i = text.length; i < ROOM; i++) {
        good = good && buffer[i] == BEFORE;
    }
    return good;
}

static bool wrote(gorsetumble_written w, Text text) {
    return w.refused.number == 0 && w.refused.row == 0 && w.length == text.length && holds(out, text);
}

static bool too_short(gorsetumble_refusal r) { return r.number == GORSETUMBLE_REFUSED_ROOM && r.row == 0; }

static bool wrote_nothing(gorsetumble_written w) {
    return too_short(w.refused) && w.length == 0 && holds(out, TEXT(""));
}

static void admits(const char *what, Text platform, Text tasks, Text text) {
    clear();
    expect(wrote(gorsetumble_admit(LENT(platform), LENT(tasks), out, ROOM), text), what);
    clear();
    expect(wrote(gorsetumble_admit(LENT(platform), LENT(tasks), out, text.length), text), what);
    clear();
    expect(wrote_nothing(gorsetumble_admit(LENT(platform), LENT(tasks), out, text.length - 1)), what);
}

static void lists(const char *what, Text platform, Text tasks, Text ticks, Text text) {
    clear();
    expect(wrote(gorsetumble_ticks(LENT(platform), LENT(tasks), LENT(ticks), out, ROOM), text), what);
    clear();
    expect(wrote(gorsetumble_ticks(LENT(platform), LENT(tasks), LENT(ticks), out, text.length), text), what);
    clear();
    expect(wrote_nothing(gorsetumble_ticks(LENT(platform), LENT(tasks), LENT(ticks), out, text.length - 1)), what);
}

static void programs(void) {
    const Text reports = TEXT("released,finished\r\n15,0\r\n0,0\r\n0,1\r\n0,2\r\n0,4\r\n1,8\r\n0,8\r\n1,0\r\n");
    admits("admit, P1", two_four, p1, TEXT("task,margin,pass\r\n1,232,1\r\n2,268,1\r\n3,370,1\r\n"));
    admits("admit, no row", two_four, TEXT("D,T,C,A\r\n"), TEXT("refused,row\r\n1,0\r\n"));
    admits("admit, a bad platform", TEXT("cores"), p1, TEXT("refused,row\r\n15,5\r\n"));
    admits("admit, no tasks", two_four, TEXT(""), TEXT("refused,row\r\n15,0\r\n"));
    lists("ticks, P8", three_four, p8, reports,
          TEXT("tick,refused,finished,late,started\r\n0,0,0,0,3\r\n1,0,0,0,0\r\n2,0,1,0,4\r\n3,0,2,0,8\r\n4,0,4,0,0\r\n"
               "5,12,0,0,0\r\n5,0,8,0,0\r\n6,0,0,0,1\r\n"));
    lists("ticks, none", three_four, p8, TEXT("released,finished\r\n"), TEXT("tick,refused,finished,late,started\r\n"));
    lists("ticks, a bad ticks text before a bad table", TEXT("cores,partitions\r\n0,0\r\n"), p8,
          TEXT("released,finished\r\n1"), TEXT("refused,row\r\n15,20\r\n"));
    lists("ticks, no core", TEXT("cores,partitions\r\n0,0\r\n"), p8, reports, TEXT("refused,row\r\n2,0\r\n"));
}

static gorsetumble_table table_of(size_t n) {
    gorsetumble_table t = {{2, 4}, n, {{0, 0, 0, 0}}};
    for (size_t i = 0; i < 3; i++) {
        t.rows[i] = rows[i];
    }
    return t;
}

static void one_by_one(void) {
    const gorsetumble_platform largest = {UINT32_MAX, 0};
    const Text wide = TEXT("cores,partitions\r\n4294967295,0\r\n"), none = TEXT("D,T,C,A\r\n");
    clear();
    expect(wrote(gorsetumble_write_platform(largest, out, ROOM), wide), "a platform");
    clear();
    expect(wrote(gorsetumble_write_platform(largest, out, wide.length), wide), "a platform, no byte to spare");
    clear();
    expect(wrote_nothing(gorsetumble_write_platform(largest, out, wide.length - 1)), "a platform, a byte too few");
    clear();
    expect(wrote(gorsetumble_write_tasks(table_of(3), out, ROOM), p1), "tasks");
    clear();
    expect(wrote(gorsetumble_write_tasks(table_of(3), out, p1.length), p1), "tasks, no byte to spare");
    clear();
    expect(wrote_nothing(gorsetumble_write_tasks(table_of(3), out, p1.length - 1)), "tasks, a byte too few");
    clear();
    expect(wrote(gorsetumble_write_tasks(table_of(0), out, ROOM), none), "no task");
    clear();
    gorsetumble_written all = gorsetumble_write_tasks(table_of(32), out, ROOM);
    clear();
    gorsetumble_written more = gorsetumble_write_tasks(table_of(33), out, ROOM);
    expect(all.length == p1.length + 29 * 9 && more.length == all.length, "of 33 rows the 32 that are there");
}

/* both, or neither */
static void at_once(const char *what, size_t platform_room, size_t tasks_room, bool fits) {
    clear();
    gorsetumble_texts_written w = gorsetumble_write_texts(table_of(3), out, platform_room, other, tasks_room);
    if (fits) {
        expect(w.refused.number == 0 && w.refused.row == 0 && w.platform == two_four.length && w.tasks == p1.length,
               what);
        expect(holds(out, two_four) && holds(other, p1), what);
    } else {
        expect(too_short(w.refused) && w.platform == 0 && w.tasks == 0, what);
        expect(holds(out, TEXT("")) && holds(other, TEXT("")), what);
    }
}

/* what is written sets up the machine that its rows do */
static void back(void) {
    static gorsetumble_machine read, lent;
    memset(&read, BEFORE, sizeof read);
    memset(&lent, BEFORE, sizeof lent);
    at_once("written to be read", ROOM, ROOM, true);
    expect(gorsetumble_set_up_texts(&read, out, two_four.length, other, p1.length).refused.number == 0,
           "what is written is read");
    expect(gorsetumble_set_up(&lent, (gorsetumble_platform){2, 4}, rows, 3).number == 0, "the rows themselves");
    expect(read.table.n == 3 && memcmp(read.table.rows, lent.table.rows, sizeof read.table.rows) == 0,
           "and gives the rows back");
    expect(gorsetumble_tick(&read, 7, 0).started == 3 && gorsetumble_tick(&lent, 7, 0).started == 3,
           "and both machines run");
}

void writers(void) {
    programs();
    one_by_one();
    at_once("both texts", ROOM, ROOM, true);
    at_once("both texts, no byte to spare", two_four.length, p1.length, true);
    at_once("no room for the platform", two_four.length - 1, ROOM, false);
    at_once("no room for the tasks", ROOM, p1.length - 1, false);
    at_once("no room at all", 0, 0, false);
    back();
}
