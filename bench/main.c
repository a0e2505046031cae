// Times the archive's calls beside the plain C version, both called from here and in turn. Given any word, it runs a
// few rounds of each instead, between system calls that mark them, for a count of their instructions; given the number
// of a case too, those of that case only.
#include "rounds.h"
#include "texts.c"
#include "periods.c"

int printf(const char *form, ...);
int fflush(void *stream);
i64 write(int file, const void *bytes, u64 count);
struct when {
    i64 seconds, nanoseconds;
};
int clock_gettime(int clock, struct when *now);

enum { OWN_TIME = 2, REPETITIONS = 9, MOST_CASES = 64, WORDS = 3 + 4 * MOST_TASKS, LOT = 2048 };

typedef struct input input;
typedef u64 rounds(const input *x, u64 n);

struct input {
    const char *what, *how;
    u32 tasks;
    rounds *proved, *plain;
    u64 lot; // rounds that are counted, and as many again
    u32 words[WORDS], p, q;
    u32 reports[2 * LOT];
    const u8 *text;
    u64 length;
};

static input cases[MOST_CASES];
static int case_count, only; // only: the number of the one case to count, or 0

static i64 now(void) {
    struct when w;
    clock_gettime(OWN_TIME, &w);
    return w.seconds * 1000000000 + w.nanoseconds;
}

static i64 took(rounds *f, const input *x, u64 n, u64 *answer) {
    i64 began = now();
    *answer = f(x, n);
    return now() - began;
}

static int differ(const input *x, u64 proved, u64 plain) {
    if (proved == plain) return 0;
    printf("%s, %u tasks, %s: the answers differ\n", x->what, x->tasks, x->how);
    return 1;
}

// Rounds that take the plain version about a twentieth of a second.
static u64 enough(const input *x) {
    u64 n = 16, answer;
    while (took(x->plain, x, n, &answer) < 25000000) n *= 2;
    return 2 * n;
}

// The best of several repetitions of each, in nanoseconds a round.
static int timed(const input *x) {
    u64 n = enough(x), a, b;
    i64 proved = 0, plain = 0;
    for (int i = 0; i < REPETITIONS; i++) {
        i64 first = took(x->proved, x, n, &a), second = took(x->plain, x, n, &b);
        if (differ(x, a, b)) return 1;
        if (!i || first < proved) proved = first;
        if (!i || second < plain) plain = second;
    }
    printf("%s|%u|%s|%.2f|%.2f|%lu\n", x->what, x->tasks, x->how, (double)proved / n, (double)plain / n, x->lot);
    fflush(0);
    return 0;
}

// A system call that fails: what is executed between two of them is counted. Its own place is at most a few
// instructions of each count.
__attribute__((noinline)) void mark(void) { write(-1, "", 0); }

static int counted(const input *x) {
    u64 a = 0, b = 0;
    for (u64 n = x->lot; n <= 2 * x->lot; n += x->lot) {
        mark();
        a += x->proved(x, n);
        mark();
        b += x->plain(x, n);
        mark();
    }
    return differ(x, a, b);
}

static u64 full_proved(const input *x, u64 n) { return proved_full(x->words, WORDS, x->p, x->q, n); }
static u64 full_plain(const input *x, u64 n) { return plain_full(x->words, WORDS, x->p, x->q, n); }
static u64 quick_proved(const input *x, u64 n) { return proved_quick(x->words, WORDS, x->p, x->q, n); }
static u64 quick_plain(const input *x, u64 n) { return plain_quick(x->words, WORDS, x->p, x->q, n); }
static u64 rehearsal_proved(const input *x, u64 n) { return proved_rehearsal(x->words, WORDS, x->p, x->q, n); }
static u64 events_plain(const input *x, u64 n) { return plain_rehearsal_by_events(x->words, WORDS, x->p, x->q, n); }
static u64 ticks_one_by_one(const input *x, u64 n) { return plain_rehearsal_by_ticks(x->words, WORDS, x->p, x->q, n); }

// Ticks in lots, each from a fresh machine.
static u64 in_lots(u64 f(const u32 *, u64, const u32 *, u64), const input *x, u64 n) {
    u64 h = 0;
    for (; n > LOT; n -= LOT) h += f(x->words, WORDS, x->reports, 2 * LOT);
    return h + f(x->words, WORDS, x->reports, 2 * n);
}

static u64 ticks_proved(const input *x, u64 n) { return in_lots(proved_ticks, x, n); }
static u64 ticks_plain(const input *x, u64 n) { return in_lots(plain_ticks, x, n); }

static input *add(const char *what, u32 tasks, const char *how, rounds *proved, rounds *plain) {
    input *x = &cases[case_count++];
    x->what = what;
    x->tasks = tasks;
    x->how = how;
    x->proved = proved;
    x->plain = plain;
    x->lot = 10;
    return x;
}

static int left_out(int number) { return only && only != number; }

// A table of n tasks that is admitted; or, with a slack of 0 for the first task, one that fails there.
static void admission_words(input *x, u32 n, int fails) {
    u32 *w = x->words;
    w[0] = n;
    w[1] = 8;
    for (u32 i = 0; i < n; i++) {
        u32 *row = w + 3 + 4 * i, period = 20000 + 1000 * i;
        row[0] = period - 500;
        row[1] = period;
        row[2] = 3 + i % 5;
        row[3] = 1 + i % 4;
    }
    if (fails) w[5] = w[3];
    w[2] = x->p = 64;
    x->q = 63;
}

// The table has to do what its case says.
static int admission_case(int is_quick, u32 n, int fails) {
    const char *what = is_quick ? "quick answer" : "full answer", *how = fails ? "first task fails" : "admitted";
    input *x = add(what, n, how, is_quick ? quick_proved : full_proved, is_quick ? quick_plain : full_plain);
    if (left_out(case_count)) return 0;
    admission_words(x, n, fails);
    table t = table_of(x->words, WORDS);
    quick a;
    quick_answer(&t, &a);
    if (a.refused.number || a.first != (u64)fails) return printf("%s, %u tasks: not %s\n", what, n, how);
    return 0;
}

static int admission_cases(void) {
    static const u32 sizes[3] = {1, 8, 32};
    int bad = 0;
    for (int is_quick = 0; is_quick < 2; is_quick++)
        for (int fails = 0; fails < 2; fails++)
            for (int i = 0; i < 3; i++) bad += admission_case(is_quick, sizes[i], fails);
    return bad;
}

// Every task is released each T ticks, task i first at tick first(i), and every job ends as late as it may.
static int tick_case(const char *how, u32 n, u32 cores, u32 a, u32 period, u32 run, u32 apart, u32 wanted) {
    input *x = add("tick", n, how, ticks_proved, ticks_plain);
    u32 *w = x->words, refused = 0;
    x->lot = 64;
    if (left_out(case_count)) return 0;
    w[0] = n;
    w[1] = cores;
    w[2] = 64;
    for (u32 i = 0; i < n; i++) {
        u32 *row = w + 3 + 4 * i;
        row[0] = row[1] = period;
        row[2] = run;
        row[3] = a;
    }
    table t = table_of(w, WORDS);
    machine m;
    machine_fresh(&m, &t);
    for (u32 at = 0; at < LOT; at++) {
        u32 *report = x->reports + 2 * at;
        answer got;
        for (u32 i = 0; i < n; i++) {
            if (at % period == i * apart % period) report[0] |= (u32)1 << i;
            if (m.jobs[i].stage == RUNNING && m.jobs[i].ran + 1 == run) report[1] |= (u32)1 << i;
        }
        if (wanted == 12 && at % 2) report[0] = ~(u32)0 >> (32 - n);
        machine_tick(&m, report[0], report[1], &got);
        if (got.refused.number && got.refused.number != wanted)
            return printf("tick, %u tasks, %s: refused by %u\n", n, how, got.refused.number);
        refused += got.refused.number != 0;
    }
    if (!wanted != !refused) return printf("tick, %u tasks, %s: %u refused\n", n, how, refused);
    return 0;
}

static int tick_cases(void) {
    static const u32 sizes[3] = {4, 16, 32};
    int bad = 0;
    for (int i = 0; i < 3; i++) bad += tick_case("typical", sizes[i], 4, 4, 64, 4, 64 / sizes[i], 0);
    for (int i = 0; i < 3; i++) {
        u32 n = sizes[i], running = n < 16 ? n : 16;
        bad += tick_case("all change", n, 16, 64 / running, n / running, 1, 1, 0);
    }
    for (int i = 0; i < 3; i++) bad += tick_case("every other refused", sizes[i], 4, 4, 64, 4, 64 / sizes[i], 12);
    return bad;
}

// One reading, or one run of a ticks text, a round; nothing is in view of the compiler that would save it the next.
typedef u64 reading(const u8 *platform, u64 p, const u8 *tasks, u64 k);

static u64 readings(reading f, const input *x, u64 n) {
    u64 h = 0;
    while (n--) h += f((const u8 *)platform_text, sizeof platform_text - 1, x->text, x->length);
    return h;
}

static u64 set_up_proved(const input *x, u64 n) { return readings(proved_set_up, x, n); }
static u64 set_up_plain(const input *x, u64 n) { return readings(plain_set_up, x, n); }
static u64 verdict_proved(const input *x, u64 n) { return readings(proved_verdict, x, n); }
static u64 verdict_plain(const input *x, u64 n) { return readings(plain_verdict, x, n); }

typedef u64 running(const u8 *platform, u64 p, const u8 *tasks, u64 k, const u8 *ticks, u64 n, u8 *out, u64 room);

static u64 runs(running f, const input *x, u64 n, u8 *out) {
    u64 h = 0;
    while (n--)
        h += f((const u8 *)platform_text, sizeof platform_text - 1, full_tasks, full_length, x->text, x->length, out,
               LISTING);
    return h;
}

static u64 run_proved(const input *x, u64 n) { return runs(proved_run, x, n, listing[0]); }
static u64 run_plain(const input *x, u64 n) { return runs(plain_run, x, n, listing[1]); }

static input *text_case(const char *what, const char *how, rounds *proved, rounds *plain, const u8 *text, u64 length) {
    input *x = add(what, 32, how, proved, plain);
    x->lot = 1;
    x->text = text;
    x->length = length;
    return x;
}

static int text_cases(void) {
    full_length = tasks_text(full_tasks, 32);
    long_length = tasks_text(long_tasks, ROOM);
    ticks_length = ticks_text(long_ticks, full_tasks, full_length, ROOM);
    some_length = ticks_text(some_ticks, full_tasks, full_length, 5000);
    text_case("set-up from texts", "a full table", set_up_proved, set_up_plain, full_tasks, full_length);
    text_case("set-up from texts", "as long as may be", set_up_proved, set_up_plain, long_tasks, long_length);
    text_case("quick verdict", "a full table", verdict_proved, verdict_plain, full_tasks, full_length);
    text_case("whole `ticks`", "as long as may be", run_proved, run_plain, long_ticks, ticks_length);
    const input *x =
        text_case("whole `ticks`", "a text of 5,000 bytes", run_proved, run_plain, some_ticks, some_length);
    u64 length = run_proved(x, 1);
    if (length != run_plain(x, 1)) return printf("whole ticks: the lengths differ\n");
    for (u64 i = 0; i < length; i++)
        if (listing[0][i] != listing[1][i]) return printf("whole ticks: byte %lu differs\n", i);
    return 0;
}

// How dense its events are, by the periods and their common multiple.
typedef struct {
    const char *how;
    u32 l, shortest, longest, cores;
    int is_late;
} pattern;

static int rehearsal_case(const pattern *a, u32 n, int tick_by_tick) {
    const char *what = tick_by_tick ? "rehearsal, C by ticks" : "rehearsal";
    input *x = add(what, n, a->how, rehearsal_proved, tick_by_tick ? ticks_one_by_one : events_plain);
    x->lot = 1;
    if (left_out(case_count)) return 0;
    periods_words(x->words, n, a->cores, a->l, a->shortest, a->longest);
    x->p = x->words[2];
    x->q = x->p - 1;
    table t = table_of(x->words, WORDS);
    rehearsal got;
    rehearse(&t, 0, &got);
    if (got.refused.number || !got.task != !a->is_late) return printf("%s, %u tasks: not %s\n", what, n, a->how);
    return 0;
}

static int rehearsal_cases(void) {
    static const u32 sizes[3] = {4, 16, 32};
    static const pattern patterns[4] = {{"periods 4 to 10", 2520, 4, 10, 8, 0},
                                        {"periods 10 to 1,008", 5040, 10, 1008, 8, 0},
                                        {"late early", 5040, 10, 1008, 1, 1},
                                        {"periods 1,008 to 55,440", 55440, 1008, 55440, 8, 0}};
    int bad = 0;
    for (int k = 0; k < 4; k++)
        for (int i = 0; i < 3; i++) bad += rehearsal_case(&patterns[k], sizes[i], 0);
    for (int i = 0; i < 3; i++) bad += rehearsal_case(&patterns[3], sizes[i], 1);
    return bad;
}

int main(int count, char **words) {
    for (const char *digit = count > 2 ? words[2] : ""; *digit; digit++) only = 10 * only + (*digit - '0');
    if (only) printf("main %lx\n", (u64)&main);
    int bad = admission_cases() + tick_cases() + text_cases() + rehearsal_cases();
    for (int i = 0; i < case_count; i++)
        if (!left_out(i + 1)) bad += count > 1 ? counted(&cases[i]) : timed(&cases[i]);
    return bad != 0;
}
