// The readers, and what the program `ticks` writes, in plain C: one pass over a text, and where it is not of its form
// the offset of the first byte that no good text has there.
#include "plain.h"

// The place up to which the bytes at `at` are those of the word.
static u64 agree(const u8 *s, u64 length, u64 at, const char *word, u64 word_length) {
    u64 i = 0;
    while (i < word_length && at + i < length && s[at + i] == (u8)word[i]) i++;
    return at + i;
}

// A number at `*at`, which moves behind it; whether there is one.
static int number(const u8 *s, u64 length, u64 *at, u32 *value) {
    u64 i = *at, v = 0;
    while (i < length && s[i] >= '0' && s[i] <= '9') {
        u64 more = 10 * v + (s[i] - '0');
        if (more > 4294967295 || (i > *at && v == 0)) break;
        v = more;
        i++;
    }
    if (i == *at) return 0;
    *at = i;
    *value = (u32)v;
    return 1;
}

// A byte at `*at`, which moves behind it; whether it is there.
static int byte(const u8 *s, u64 length, u64 *at, u8 wanted) {
    if (*at == length || s[*at] != wanted) return 0;
    ++*at;
    return 1;
}

// A row of numbers at `*at`, which moves behind what is good of it; whether it is whole.
static int row(const u8 *s, u64 length, u64 *at, u32 *numbers, u32 columns) {
    for (u32 i = 0; i < columns; i++) {
        if (!number(s, length, at, &numbers[i])) return 0;
        if (i + 1 < columns ? !byte(s, length, at, ',') : !(byte(s, length, at, '\r') && byte(s, length, at, '\n')))
            return 0;
    }
    return 1;
}

refusal read_tasks(const u8 *s, u64 length, table *t) {
    u64 at = agree(s, length, 0, "D,T,C,A\r\n", 9), n = 0;
    *t = (table){0};
    if (at < 9) return (refusal){15, at};
    while (at < length) {
        u32 x[4];
        if (!row(s, length, &at, x, 4)) {
            *t = (table){0};
            return (refusal){15, at};
        }
        if (n < MOST_TASKS) t->rows[n] = (task){x[0], x[1], x[2], x[3]};
        n++;
    }
    t->n = n;
    return (refusal){0, 0};
}

refusal read_ticks(const u8 *s, u64 length, u64 *count) {
    u64 at = agree(s, length, 0, "released,finished\r\n", 19), n = 0;
    *count = 0;
    if (at < 19) return (refusal){15, at};
    while (at < length) {
        u32 x[2];
        if (!row(s, length, &at, x, 2)) return (refusal){15, at};
        n++;
    }
    *count = n;
    return (refusal){0, 0};
}

refusal read_platform(const u8 *s, u64 length, table *t) {
    u32 x[2];
    u64 at = agree(s, length, 0, "cores,partitions\r\n", 18);
    if (at < 18 || !row(s, length, &at, x, 2) || at < length) return (refusal){15, at};
    t->cores = x[0];
    t->partitions = x[1];
    return (refusal){0, 0};
}

// The table of two texts, or the refusal of the first that is not of its form, and which that is.
static refusal read_table(const u8 *platform, u64 p, const u8 *tasks, u64 k, table *t, u32 *text) {
    table given = {0};
    *text = 1;
    refusal r = read_platform(platform, p, &given);
    if (r.number) return r;
    *text = 2;
    r = read_tasks(tasks, k, t);
    if (r.number) return r;
    *text = 0;
    t->cores = given.cores;
    t->partitions = given.partitions;
    return r;
}

// Set-up of a machine from two texts; a refusal leaves it as it was.
refusal set_up_texts(machine *m, const u8 *platform, u64 p, const u8 *tasks, u64 k, u32 *text) {
    table t;
    refusal r = read_table(platform, p, tasks, k, &t, text);
    if (!r.number) r = table_refused(&t);
    if (!r.number) machine_fresh(m, &t);
    return r;
}

u64 verdict(const u8 *platform, u64 p, const u8 *tasks, u64 k) {
    table t;
    u32 text;
    quick a;
    refusal r = read_table(platform, p, tasks, k, &t, &text);
    if (r.number) return r.number;
    quick_answer(&t, &a);
    return a.refused.number ? a.refused.number : a.first ? 100 + a.first : 0;
}

static u64 put(u8 *out, u64 at, const char *word) {
    while (*word) out[at++] = (u8)*word++;
    return at;
}

static u64 put_number(u8 *out, u64 at, u64 n) {
    u8 digits[20];
    u64 i = 20;
    do digits[--i] = '0' + n % 10;
    while (n /= 10);
    while (i < 20) out[at++] = digits[i++];
    return at;
}

static u64 put_row(u8 *out, u64 at, const u64 *numbers, u32 columns) {
    for (u32 i = 0; i < columns; i++) {
        at = put_number(out, at, numbers[i]);
        at = put(out, at, i + 1 < columns ? "," : "\r\n");
    }
    return at;
}

enum { LONGEST_LINE = 106 };

// The listing of a machine's ticks, of a text that read_ticks takes: its length, written only where `out` is given.
static u64 list(const table *t, const u8 *ticks, u64 length, u8 *out) {
    u8 line[LONGEST_LINE];
    u64 at = 19, taken = 0, end = 36;
    machine m;
    machine_fresh(&m, t);
    if (out) put(out, 0, "tick,refused,finished,late,started\r\n");
    while (at < length) {
        u32 x[2];
        answer a;
        row(ticks, length, &at, x, 2);
        machine_tick(&m, x[0], x[1], &a);
        u64 numbers[5] = {taken, a.refused.number, a.finished, a.late, a.started};
        if (out) end = put_row(out, end, numbers, 5);
        else end += put_row(line, 0, numbers, 5);
        taken += a.refused.number == 0;
    }
    return end;
}

static u64 write_refusal(refusal r, u8 *out, u64 room) {
    u8 text[64];
    u64 numbers[2] = {r.number, r.row}, length = put_row(text, put(text, 0, "refused,row\r\n"), numbers, 2);
    if (room < length) return 0;
    for (u64 i = 0; i < length; i++) out[i] = text[i];
    return length;
}

// What the program `ticks` writes of three texts: its length, or 0 where it has no room, and then nothing is changed. A
// buffer with room for the longest lines is not measured first.
u64 plain_run(const u8 *platform, u64 p, const u8 *tasks, u64 k, const u8 *ticks, u64 n, u8 *out, u64 room) {
    table t, given = {0};
    u64 count;
    refusal r = p > LONGEST_TEXT ? (refusal){15, 0} : read_platform(platform, p, &given);
    if (!r.number) r = k > LONGEST_TEXT ? (refusal){15, 0} : read_tasks(tasks, k, &t);
    if (!r.number) r = n > LONGEST_TEXT ? (refusal){15, 0} : read_ticks(ticks, n, &count);
    if (!r.number) {
        t.cores = given.cores;
        t.partitions = given.partitions;
        r = table_refused(&t);
    }
    if (r.number) return write_refusal(r, out, room);
    if (room < 36 + LONGEST_LINE * count && room < list(&t, ticks, n, 0)) return 0;
    return list(&t, ticks, n, out);
}
