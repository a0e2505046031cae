// Cases of set-up and verdict from texts, and of what the program `ticks` writes: texts of a full table, and of as many
// rows as a program takes.
#include "rounds.h"

enum { ROOM = LONGEST_TEXT, LISTING = 1300000 };

static u8 full_tasks[ROOM], long_tasks[ROOM], long_ticks[ROOM], some_ticks[ROOM], listing[2][LISTING];
static const char platform_text[] = "cores,partitions\r\n4,64\r\n";
static u64 full_length, long_length, ticks_length, some_length;

static u64 add_bytes(u8 *text, u64 at, const char *word) {
    while (*word) text[at++] = (u8)*word++;
    return at;
}

static u64 add_number(u8 *text, u64 at, u32 n) {
    if (n >= 10) at = add_number(text, at, n / 10);
    text[at] = (u8)('0' + n % 10);
    return at + 1;
}

static u64 add_row(u8 *text, u64 at, const u32 *numbers, u32 columns) {
    for (u32 i = 0; i < columns; i++) {
        if (i) at = add_bytes(text, at, ",");
        at = add_number(text, at, numbers[i]);
    }
    return add_bytes(text, at, "\r\n");
}

// At most so many tasks, as long as a row more is sure to fit.
static u64 tasks_text(u8 *text, u32 most) {
    u64 at = add_bytes(text, 0, "D,T,C,A\r\n");
    for (u32 i = 0; i < most && at + 46 <= ROOM; i++) {
        u32 period = 64 + i % 1000, row[4] = {period, period, 4, 4};
        at = add_row(text, at, row, 4);
    }
    return at;
}

// Every task is released each 128 ticks, task i first at tick 4 * i, and finished as soon as the plain machine says
// that it has run its C.
static u64 ticks_text(u8 *text, const u8 *tasks, u64 length, u64 most) {
    u64 at = add_bytes(text, 0, "released,finished\r\n");
    table t;
    machine m;
    read_tasks(tasks, length, &t);
    t.cores = 4;
    t.partitions = 64;
    machine_fresh(&m, &t);
    for (u32 tick = 0; at + 24 <= most; tick++) {
        u32 report[2] = {tick % 4 ? 0 : (u32)1 << tick / 4 % 32, 0};
        answer got;
        for (u32 i = 0; i < 32; i++)
            if (m.jobs[i].stage == RUNNING && m.jobs[i].ran + 1 == t.rows[i].c) report[1] |= (u32)1 << i;
        machine_tick(&m, report[0], report[1], &got);
        at = add_row(text, at, report, 2);
    }
    return at;
}
