/* The quick verdict on two texts, and set-up from them: the cases of document 01, each number that the verdict can
 * answer, texts at the edges of every size up to ten million bytes, and no text at all. Each text ends where memory
 * cannot be read, and is compared after the calls with what it was. */
#include "gorsetumble.h"

#include "expect.h"
#include "fence.h"

typedef struct {
    const char *bytes;
    size_t length;
} Text;

/* a text of string literals, which may hold any byte */
#define TEXT(s) ((Text){s, sizeof(s) - 1})

#define PLATFORM(row) TEXT("cores,partitions\r\n" row "\r\n")
#define TASKS(rows) TEXT("D,T,C,A\r\n" rows)

#define LARGEST ((size_t)10000000)

static fenced platform_room, tasks_room;

static gorsetumble_machine machine;

/* Set-up answers the number of a refusal where the verdict is one, and else is not refused; refused, it changes
 * nothing. */
static gorsetumble_text_refusal sets_up(const char *what, const uint8_t *p, size_t p_length, const uint8_t *t,
                                        size_t t_length, uint32_t verdict) {
    static gorsetumble_machine before;
    memset(&machine, 0xa5, sizeof machine);
    memcpy(&before, &machine, sizeof before);
    gorsetumble_text_refusal r = gorsetumble_set_up_texts(&machine, p, p_length, t, t_length);
    expect(r.refused.number == (verdict > GORSETUMBLE_FIRST_TASK_FAILS ? 0 : verdict), what);
    expect((r.text != GORSETUMBLE_IN_NO_TEXT) == (r.refused.number == GORSETUMBLE_REFUSED_TEXT), what);
    if (r.refused.number == 0) {
        expect(gorsetumble_tick(&machine, 0, 0).refused.number == 0, what);
    } else {
        expect(memcmp(&before, &machine, sizeof before) == 0, what);
    }
    return r;
}

static gorsetumble_text_refusal judges(const char *what, Text platform, Text tasks, uint32_t number) {
    uint8_t *p = last(platform_room, platform.length), *t = last(tasks_room, tasks.length);
    memcpy(p, platform.bytes, platform.length);
    memcpy(t, tasks.bytes, tasks.length);
    expect(gorsetumble_quick_verdict(p, platform.length, t, tasks.length) == number, what);
    gorsetumble_text_refusal r = sets_up(what, p, platform.length, t, tasks.length, number);
    expect(memcmp(p, platform.bytes, platform.length) == 0 && memcmp(t, tasks.bytes, tasks.length) == 0, what);
    return r;
}

/* a refusal's row, or the offset and which text it is in */
static void refuses(const char *what, Text platform, Text tasks, uint32_t number, size_t row, uint32_t text) {
    gorsetumble_text_refusal r = judges(what, platform, tasks, number);
    expect(r.refused.row == row && r.text == text, what);
}

static void places(void) {
    const Text two = PLATFORM("2,4"), good = TASKS("40,50,2,1\r\n"), none = TEXT("");
    refuses("platform empty", none, good, 15, 0, GORSETUMBLE_IN_PLATFORM);
    refuses("both empty", none, none, 15, 0, GORSETUMBLE_IN_PLATFORM);
    refuses("tasks empty", two, none, 15, 0, GORSETUMBLE_IN_TASKS);
    refuses("a platform cut short", TEXT("cores,partitions\r\n2"), none, 15, 19, GORSETUMBLE_IN_PLATFORM);
    refuses("a second platform row", PLATFORM("2,4\r\n2,4"), good, 15, 23, GORSETUMBLE_IN_PLATFORM);
    refuses("a bare LF", two, TEXT("D,T,C,A\n40,50,2,1\r\n"), 15, 7, GORSETUMBLE_IN_TASKS);
    refuses("a leading zero in row 2", two, TASKS("40,50,2,1\r\n40,050,2,1\r\n"), 15, 24, GORSETUMBLE_IN_TASKS);
    refuses("no core", PLATFORM("0,4"), good, 2, 0, GORSETUMBLE_IN_NO_TEXT);
    refuses("row 2, deadline", two, TASKS("40,50,2,1\r\n51,50,2,1\r\n"), 7, 2, GORSETUMBLE_IN_NO_TEXT);
}

/* a machine of the table that the texts give, which runs P8 */
static void runs(void) {
    const Text p8 = TASKS("6,6,2,1\r\n8,8,3,2\r\n9,9,2,2\r\n12,12,2,1\r\n");
    expect(judges("P8", PLATFORM("3,4"), p8, 101).refused.number == 0, "P8 is set up");
    expect(machine.table.n == 4 && machine.table.platform.cores == 3 && machine.table.platform.partitions == 4,
           "P8's table");
    expect(machine.table.rows[3].d == 12 && machine.table.rows[3].t == 12 && machine.table.rows[3].c == 2 &&
               machine.table.rows[3].a == 1,
           "P8's last row");
    expect(machine.table.rows[4].t == 0 && machine.jobs[4].age == 0, "nothing past n");
    expect(gorsetumble_tick(&machine, 15, 0).started == 3, "P8, tick 0");
    expect(gorsetumble_tick(&machine, 0, 0).started == 0, "P8, tick 1");
    expect(gorsetumble_tick(&machine, 0, 1).started == 4 && machine.jobs[2].held == 9, "P8, tick 2");
}

static void cases(void) {
    const Text one = PLATFORM("1,1"), two = PLATFORM("2,4");
    judges("P1", two, TASKS("40,50,2,1\r\n60,60,3,2\r\n80,100,4,2\r\n"), GORSETUMBLE_ADMITTED);
    judges("P2", one, TASKS("6,6,2,1\r\n"), 101);
    judges("P3", one, TASKS("7,7,2,1\r\n"), 0);
    judges("P4", one, TASKS("5,5,2,1\r\n"), 101);
    judges("P5", one, TASKS("2,2,2,1\r\n"), 101);
    judges("P6", one, TASKS("6,6,2,0\r\n"), 101);
    /* task 3 has no slack at all, and the two before it have enough */
    judges("the third task", two, TASKS("40,50,2,1\r\n60,60,3,2\r\n4,100,4,2\r\n"), 103);
}

static void refused(void) {
    const Text two = PLATFORM("2,4"), good = TASKS("40,50,2,1\r\n");
    judges("no row", two, TASKS(""), 1);
    judges("no core", PLATFORM("0,4"), good, 2);
    judges("17 cores", PLATFORM("17,4"), good, 2);
    judges("65,537 cores", PLATFORM("65537,4"), good, 2);
    judges("no partition", PLATFORM("2,0"), good, 3);
    judges("65 partitions", PLATFORM("2,65"), good, 3);
    judges("period 0", two, TASKS("40,0,2,1\r\n"), 4);
    judges("period 65,536", two, TASKS("40,65536,2,1\r\n"), 4);
    judges("no run", two, TASKS("40,50,0,1\r\n"), 5);
    judges("a run above the deadline", two, TASKS("1,50,2,1\r\n"), 6);
    judges("a deadline above the period", two, TASKS("51,50,2,1\r\n"), 7);
    judges("5 of 4 partitions", two, TASKS("40,50,2,5\r\n"), 8);
    judges("the cores come before the partitions", PLATFORM("0,0"), good, 2);
    judges("row 1 comes before row 2", two, TASKS("40,50,2,5\r\n40,0,2,1\r\n"), 8);
    judges("the form comes before every number", PLATFORM("0,0"), TASKS("40,50,2,1"), 15);
}

static void forms(void) {
    const Text two = PLATFORM("2,4"), good = TASKS("40,50,2,1\r\n"), none = TEXT("");
    judges("both empty", none, none, 15);
    judges("platform empty", none, good, 15);
    judges("tasks empty", two, none, 15);
    judges("texts changed over", good, two, 15);
    judges("a platform with no row", TEXT("cores,partitions\r\n"), good, 15);
    judges("a platform with two rows", PLATFORM("2,4\r\n2,4"), good, 15);
    judges("a bare LF", two, TEXT("D,T,C,A\n40,50,2,1\r\n"), 15);
    judges("no end of line", two, TASKS("40,50,2,1\r"), 15);
    judges("a leading zero", two, TASKS("040,50,2,1\r\n"), 15);
    judges("a sign", two, TASKS("40,50,+2,1\r\n"), 15);
    judges("a space", two, TASKS("40,50, 2,1\r\n"), 15);
    judges("a quote", two, TASKS("\"40\",50,2,1\r\n"), 15);
    judges("a column too few", two, TASKS("40,50,2\r\n"), 15);
    judges("a column too many", two, TASKS("40,50,2,1,1\r\n"), 15);
    judges("a blank line", two, TASKS("40,50,2,1\r\n\r\n"), 15);
    judges("a byte 0 within", two, TASKS("40,50,2,\0001\r\n"), 15);
    judges("a byte 0 behind", two, TASKS("40,50,2,1\r\n\000"), 15);
    judges("a byte-order mark", TEXT("\xef\xbb\xbf" "cores,partitions\r\n2,4\r\n"), good, 15);
    judges("4,294,967,295 is a number", two, TASKS("40,4294967295,2,1\r\n"), 4);
    judges("4,294,967,296 is none", two, TASKS("40,4294967296,2,1\r\n"), 15);
}

static char many[LARGEST];

/* the header and as many rows as fit into so many bytes, the last made longer by digits until the length is that */
static Text rows_of(const char *row, size_t length) {
    const char header[] = "D,T,C,A\r\n";
    size_t at = sizeof header - 1, step = 0;
    memcpy(many, header, at);
    while (row[step] != 0) {
        step++;
    }
    for (; length - at >= step; at += step) {
        memcpy(many + at, row, step);
    }
    for (; at < length; at++) {
        many[at - 2] = '1';
    }
    memcpy(many + length - 2, "\r\n", 2);
    return (Text){many, length};
}

/* rows of one task that needs no partition and runs 1 of 65,535 ticks: up to 32 are admitted on a large platform */
static void sizes(void) {
    const Text large = PLATFORM("16,64");
    const char row[] = "65535,65535,1,0\r\n";
    const size_t head = 9, step = sizeof row - 1;
    judges("1 row", large, rows_of(row, head + step), 0);
    judges("31 rows", large, rows_of(row, head + 31 * step), 0);
    judges("32 rows", large, rows_of(row, head + 32 * step), 0);
    judges("33 rows", large, rows_of(row, head + 33 * step), 1);
    judges("60,000 bytes", large, rows_of("1,1,1,1\r\n", 60000), 1);
    judges("60,001 bytes", large, rows_of("1,1,1,1\r\n", 60001), 1);

    Text ten_million = rows_of("1,1,1,1\r\n", LARGEST);
    judges("ten million bytes", large, ten_million, 1);
    judges("ten million bytes, the platform bad", PLATFORM("16,64,1"), ten_million, 15);
    many[LARGEST - 1] = '\r';
    judges("ten million bytes, the last bad", large, ten_million, 15);
    many[LARGEST - 1] = '\n';
    judges("ten million bytes for a platform", ten_million, TASKS(""), 15);
    memset(many, '1', LARGEST);
    judges("ten million digits", large, ten_million, 15);
    memset(many, 0, LARGEST);
    judges("ten million zero bytes", ten_million, ten_million, 15);
}

/* 32 tasks of which each but one has room to spare, and that one no slack */
static void firsts(void) {
    const char row[] = "65535,65535,1,0\r\n", short_row[] = "100,65535,100,0\r\n";
    const size_t head = 9, step = sizeof row - 1;
    _Static_assert(sizeof row == sizeof short_row, "the rows are of one length");
    for (uint32_t k = 1; k <= 32; k++) {
        Text text = rows_of(row, head + 32 * step);
        memcpy(many + head + (k - 1) * step, short_row, step);
        judges("one of 32 tasks does not pass", PLATFORM("16,64"), text, 100 + k);
    }
}

/* docs/C.md: what is known of null */
static void nothing(void) {
    const Text two = PLATFORM("2,4"), good = TASKS("40,50,2,1\r\n");
    const uint8_t *p = (const uint8_t *)two.bytes, *t = (const uint8_t *)good.bytes;
    expect(gorsetumble_quick_verdict(NULL, 0, NULL, 0) == 15, "two nulls");
    expect(gorsetumble_quick_verdict(NULL, 0, t, good.length) == 15, "null for the platform");
    expect(gorsetumble_quick_verdict(p, two.length, NULL, 0) == 15, "null for the tasks");
    expect(gorsetumble_quick_verdict(p, two.length, t, good.length) == 0, "neither null");
    sets_up("two nulls", NULL, 0, NULL, 0, 15);
    sets_up("null for the tasks", p, two.length, NULL, 0, 15);
}

void texts(void) {
    platform_room = fenced_room(LARGEST);
    tasks_room = fenced_room(LARGEST);
    cases();
    refused();
    forms();
    places();
    runs();
    sizes();
    firsts();
    nothing();
}
