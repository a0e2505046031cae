// Rounds of the archive's calls and of the plain version: the same inputs, changed in the same way, and the same fold.
// The plain version is one unit with its rounds, so that it is compiled with all of its code in view.
#include "gorsetumble.h"
#include "rounds.h"
#include "plain_admission.c"
#include "plain_machine.c"
#include "plain_rehearsal.c"
#include "plain_texts.c"

static u64 fold(u64 h, u64 x) { return h % 4294967296 * 31 + x % 4294967296; }

static u32 word(const u32 *words, u64 count, u64 i) { return i < count ? words[i] : 0; }

table table_of(const u32 *words, u64 count) {
    u32 n = word(words, count, 0);
    table t = {
        .n = n < MOST_TASKS ? n : MOST_TASKS, .cores = word(words, count, 1), .partitions = word(words, count, 2)};
    for (u64 i = 0; i < t.n; i++)
        t.rows[i] = (task){word(words, count, 4 * i + 3), word(words, count, 4 * i + 4), word(words, count, 4 * i + 5),
                           word(words, count, 4 * i + 6)};
    return t;
}

static u64 without_sign(i64 x) { return x < 0 ? ~x : x; }

static const gorsetumble_task *lent(const table *t) { return (const gorsetumble_task *)t->rows; }

u64 proved_full(const u32 *words, u64 count, u32 p, u32 q, u64 n) {
    table t = table_of(words, count);
    u64 h = 0;
    for (u64 i = 0; i < n; i++) {
        gorsetumble_full_answer a =
            gorsetumble_full((gorsetumble_platform){t.cores, i % 2 == 0 ? p : q}, lent(&t), t.n);
        h = fold(fold(h, a.refused.number), a.first);
        h = fold(fold(h, without_sign(a.margins[0])), without_sign(a.margins[31]));
    }
    return h;
}

u64 plain_full(const u32 *words, u64 count, u32 p, u32 q, u64 n) {
    table t = table_of(words, count);
    u64 h = 0;
    for (u64 i = 0; i < n; i++) {
        full a;
        t.partitions = i % 2 == 0 ? p : q;
        full_answer(&t, &a);
        h = fold(fold(h, a.refused.number), a.first);
        h = fold(fold(h, without_sign(a.margins[0])), without_sign(a.margins[31]));
    }
    return h;
}

u64 proved_quick(const u32 *words, u64 count, u32 p, u32 q, u64 n) {
    table t = table_of(words, count);
    u64 h = 0;
    for (u64 i = 0; i < n; i++) {
        gorsetumble_quick_answer a =
            gorsetumble_quick((gorsetumble_platform){t.cores, i % 2 == 0 ? p : q}, lent(&t), t.n);
        h = fold(fold(h, a.refused.number), a.first);
    }
    return h;
}

u64 plain_quick(const u32 *words, u64 count, u32 p, u32 q, u64 n) {
    table t = table_of(words, count);
    u64 h = 0;
    for (u64 i = 0; i < n; i++) {
        quick a;
        t.partitions = i % 2 == 0 ? p : q;
        quick_answer(&t, &a);
        h = fold(fold(h, a.refused.number), a.first);
    }
    return h;
}

// Of the jobs started, those of one task are folded in, of another in each round.
static u64 fold_rehearsal(u64 h, u32 number, u32 tick, u64 task, u32 started) {
    return fold(fold(fold(fold(h, number), tick), task), started);
}

u64 proved_rehearsal(const u32 *words, u64 count, u32 p, u32 q, u64 n) {
    table t = table_of(words, count);
    u64 h = 0;
    for (u64 i = 0; i < n; i++) {
        gorsetumble_rehearsal a =
            gorsetumble_rehearse((gorsetumble_platform){t.cores, i % 2 == 0 ? p : q}, lent(&t), t.n);
        h = fold_rehearsal(h, a.refused.number, a.tick, a.task, a.started[i % MOST_TASKS]);
    }
    return h;
}

static u64 plain_rehearsal(const u32 *words, u64 count, u32 p, u32 q, u64 n, int tick_by_tick) {
    table t = table_of(words, count);
    u64 h = 0;
    for (u64 i = 0; i < n; i++) {
        rehearsal a;
        t.partitions = i % 2 == 0 ? p : q;
        rehearse(&t, tick_by_tick, &a);
        h = fold_rehearsal(h, a.refused.number, a.tick, a.task, a.started[i % MOST_TASKS]);
    }
    return h;
}

u64 plain_rehearsal_by_events(const u32 *words, u64 count, u32 p, u32 q, u64 n) {
    return plain_rehearsal(words, count, p, q, n, 0);
}

u64 plain_rehearsal_by_ticks(const u32 *words, u64 count, u32 p, u32 q, u64 n) {
    return plain_rehearsal(words, count, p, q, n, 1);
}

u64 plain_ticks(const u32 *words, u64 count, const u32 *reports, u64 report_words) {
    table t = table_of(words, count);
    machine m;
    u64 h = 0;
    machine_fresh(&m, &t);
    for (u64 i = 0; i < report_words / 2; i++) {
        answer a;
        machine_tick(&m, reports[2 * i], reports[2 * i + 1], &a);
        h = fold(fold(fold(h, a.refused.number), a.late), a.started);
    }
    return h;
}

u64 proved_ticks(const u32 *words, u64 count, const u32 *reports, u64 report_words) {
    table t = table_of(words, count);
    gorsetumble_machine m;
    u64 h = 0;
    gorsetumble_set_up(&m, (gorsetumble_platform){t.cores, t.partitions}, lent(&t), t.n);
    for (u64 i = 0; i < report_words / 2; i++) {
        gorsetumble_answer a = gorsetumble_tick(&m, reports[2 * i], reports[2 * i + 1]);
        h = fold(fold(fold(h, a.refused.number), a.late), a.started);
    }
    return h;
}

u64 proved_set_up(const u8 *platform, u64 p, const u8 *tasks, u64 k) {
    gorsetumble_machine m;
    gorsetumble_text_refusal r = gorsetumble_set_up_texts(&m, platform, p, tasks, k);
    u64 h = fold(fold(r.refused.number, r.refused.row), r.text);
    return r.refused.number ? h : fold(fold(fold(h, m.table.n), m.table.rows[31].a), m.jobs[31].age);
}

u64 plain_set_up(const u8 *platform, u64 p, const u8 *tasks, u64 k) {
    machine m;
    u32 text;
    refusal r = set_up_texts(&m, platform, p, tasks, k, &text);
    u64 h = fold(fold(r.number, r.row), text);
    return r.number ? h : fold(fold(fold(h, m.table.n), m.table.rows[31].a), m.jobs[31].age);
}

u64 proved_verdict(const u8 *platform, u64 p, const u8 *tasks, u64 k) {
    return gorsetumble_quick_verdict(platform, p, tasks, k);
}

u64 plain_verdict(const u8 *platform, u64 p, const u8 *tasks, u64 k) { return verdict(platform, p, tasks, k); }

u64 proved_run(const u8 *platform, u64 p, const u8 *tasks, u64 k, const u8 *ticks, u64 n, u8 *out, u64 room) {
    return gorsetumble_ticks(platform, p, tasks, k, ticks, n, out, room).length;
}
