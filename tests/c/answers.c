/* Reads cases from standard input, one after the other, and writes what the exported functions answer to them: the C
 * side of the comparison with the second program. oracle/src/records.rs states the form of both.
 *
 * What is lent ends where memory cannot be read, and what is only read must be after a call as it was before. The
 * machine has guard bytes before and behind it, and a refused call must leave it to the bit; a buffer has some before
 * it, and so has what is behind its room. Where one of these fails, the program says so and ends: the answers that are
 * then missing count as failed. */
#include "gorsetumble.h"

#include "fence.h"

/* in a case: n, M, P and 32 rows */
typedef struct {
    uint64_t n;
    gorsetumble_platform platform;
    gorsetumble_task rows[GORSETUMBLE_MOST_TASKS];
} Given;

_Static_assert(sizeof(Given) == 528, "a table in a case is 528 bytes");

enum { JOB_BYTES = 20, GUARD = 256, FILLING = 0xa5, PAST = 16, LONGEST = 60000 };

/* a count above this is lent as this many rows: both are above 32 */
#define MOST_ROWS ((size_t)4096)
#define MOST_BYTES ((size_t)1 << 20)

static fenced rows_room;
static struct {
    uint8_t before[GUARD];
    gorsetumble_machine machine;
    uint8_t behind[GUARD];
} kept;
static uint8_t guard[GUARD];
static uint64_t records;

static void hold_to(bool good, const char *what) {
    if (!good) {
        fflush(stdout);
        dprintf(2, "record %lu: %s\n", (unsigned long)records, what);
        exit(1);
    }
}

static void get(void *to, size_t size) { hold_to(fread(to, 1, size, stdin) == size, "the case is cut short"); }

static void put(const void *from, size_t size) { fwrite(from, 1, size, stdout); }

static void put32(uint32_t x) { put(&x, sizeof x); }

static void put64(uint64_t x) { put(&x, sizeof x); }

static void put_refusal(gorsetumble_refusal r) {
    put32(r.number);
    put64(r.row);
}

/* the byte that stands for a bool, whatever it is */
static void put_flag(const bool *x) { put32(*(const uint8_t *)x); }

static size_t count_of(const Given *given) { return given->n < MOST_ROWS ? given->n : MOST_ROWS; }

/* Puts as many rows as the case counts before the fence, and says how many of them the case has; the others are what an
 * earlier case left there. No rows are lent as null every other time. */
static size_t lend_rows(const Given *given, gorsetumble_task **rows) {
    size_t count = count_of(given);
    size_t some = count < GORSETUMBLE_MOST_TASKS ? count : GORSETUMBLE_MOST_TASKS;
    *rows = (gorsetumble_task *)last(rows_room, count * sizeof(gorsetumble_task));
    memcpy(*rows, given->rows, some * sizeof(gorsetumble_task));
    if (count == 0 && records % 2 == 0) {
        *rows = NULL;
    }
    return some;
}

static void rows_stay(const Given *given, const gorsetumble_task *rows, size_t some) {
    hold_to(some == 0 || memcmp(rows, given->rows, some * sizeof *rows) == 0, "the rows were written to");
}

static void admission(void) {
    Given given;
    gorsetumble_task *rows;
    get(&given, sizeof given);
    size_t some = lend_rows(&given, &rows);
    gorsetumble_full_answer full = gorsetumble_full(given.platform, rows, count_of(&given));
    gorsetumble_quick_answer quick = gorsetumble_quick(given.platform, rows, count_of(&given));
    rows_stay(&given, rows, some);
    put_refusal(full.refused);
    put_flag(&full.admitted);
    put64(full.first);
    put(full.margins, sizeof full.margins);
    put_refusal(quick.refused);
    put_flag(&quick.admitted);
    put64(quick.first);
}

static void rehearsal(void) {
    Given given;
    gorsetumble_task *rows;
    get(&given, sizeof given);
    size_t some = lend_rows(&given, &rows);
    gorsetumble_rehearsal shown = gorsetumble_rehearse(given.platform, rows, count_of(&given));
    rows_stay(&given, rows, some);
    put_refusal(shown.refused);
    put32(shown.tick);
    put64(shown.task);
    put(shown.started, sizeof shown.started);
}

static uint64_t mixed(uint64_t h, uint32_t x) { return (h * 1000003 + x) % 4294967291; }

static uint64_t mixed64(uint64_t h, uint64_t x) { return mixed(mixed(h, (uint32_t)x), (uint32_t)(x >> 32)); }

/* one number for the machine, as oracle/src/machine.rs has it */
static uint32_t digest(const gorsetumble_machine *m) {
    uint64_t h = mixed(mixed(mixed64(0, m->table.n), m->table.platform.cores), m->table.platform.partitions);
    for (size_t i = 0; i < GORSETUMBLE_MOST_TASKS; i++) {
        const gorsetumble_task *k = &m->table.rows[i];
        h = mixed(mixed(mixed(mixed(h, k->d), k->t), k->c), k->a);
    }
    for (size_t i = 0; i < GORSETUMBLE_MOST_TASKS; i++) {
        const gorsetumble_job *j = &m->jobs[i];
        h = mixed64(mixed(mixed(mixed(h, j->stage), j->age), j->ran), j->held);
    }
    return (uint32_t)h;
}

static void guards_stay(void) {
    hold_to(memcmp(kept.before, guard, GUARD) == 0, "bytes before the machine were written to");
    hold_to(memcmp(kept.behind, guard, GUARD) == 0, "bytes behind the machine were written to");
}

/* the bytes between the fields count too */
static void stays(const gorsetumble_machine *before) {
    hold_to(memcmp(before, &kept.machine, sizeof *before) == 0, "a refused call changed the machine");
}

static void set_up(void) {
    Given given;
    gorsetumble_task *rows;
    gorsetumble_machine before;
    get(&given, sizeof given);
    size_t some = lend_rows(&given, &rows);
    memcpy(&before, &kept.machine, sizeof before);
    gorsetumble_refusal refused = gorsetumble_set_up(&kept.machine, given.platform, rows, count_of(&given));
    rows_stay(&given, rows, some);
    guards_stay();
    if (refused.number != 0) {
        stays(&before);
    }
    put_refusal(refused);
    put32(digest(&kept.machine));
}

static gorsetumble_answer brought(const uint32_t report[2]) {
    gorsetumble_machine before;
    memcpy(&before, &kept.machine, sizeof before);
    gorsetumble_answer answer = gorsetumble_tick(&kept.machine, report[0], report[1]);
    guards_stay();
    if (answer.refused.number != 0) {
        stays(&before);
    }
    return answer;
}

static void tick(void) {
    uint32_t report[2];
    get(report, sizeof report);
    gorsetumble_answer answer = brought(report);
    put_refusal(answer.refused);
    put32(answer.finished);
    put32(answer.late);
    put32(answer.started);
    put32(digest(&kept.machine));
}

/* stages that are none, of which some would pass for one at less than their full width */
static const uint32_t no_stage[] = {3,     4,     255,        256,        257,        258,       65536,
                                    65537, 65538, 0x80000000, 0x80000001, 0x80000002, UINT32_MAX};

/* a job of no stage, whatever else the state is: refused under 14 */
static void without_a_stage(void) {
    const uint32_t report[2] = {0, 0};
    uint32_t *stage = &kept.machine.jobs[records % GORSETUMBLE_MOST_TASKS].stage, old = *stage;
    *stage = no_stage[records % (sizeof no_stage / sizeof no_stage[0])];
    gorsetumble_answer a = brought(report);
    *stage = old;
    hold_to(a.refused.number == 14 && a.refused.row == 0 && (a.finished | a.late | a.started) == 0,
            "a stage that is none is not refused under 14");
}

static void given(void) {
    Given table;
    uint8_t jobs[GORSETUMBLE_MOST_TASKS][JOB_BYTES];
    gorsetumble_machine *m = &kept.machine;
    get(&table, sizeof table);
    get(jobs, sizeof jobs);
    memset(m, FILLING, sizeof *m);
    m->table.platform = table.platform;
    m->table.n = table.n;
    memcpy(m->table.rows, table.rows, sizeof table.rows);
    for (size_t i = 0; i < GORSETUMBLE_MOST_TASKS; i++) {
        memcpy(&m->jobs[i].stage, jobs[i], 4);
        memcpy(&m->jobs[i].age, jobs[i] + 4, 4);
        memcpy(&m->jobs[i].ran, jobs[i] + 8, 4);
        memcpy(&m->jobs[i].held, jobs[i] + 12, 8);
    }
    without_a_stage();
    tick();
}

/* texts that are lent: the platform, the tasks, the ticks */
enum { TEXTS = 3 };
static struct {
    fenced room;
    uint8_t copy[MOST_BYTES];
    uint8_t *bytes;
    size_t length;
} texts[TEXTS];

/* an empty text is lent as null every other time */
static void lend(size_t which, size_t length) {
    texts[which].length = length;
    texts[which].bytes = length == 0 && records % 2 == 0 ? NULL : last(texts[which].room, length);
    memcpy(texts[which].copy, last(texts[which].room, length), length);
}

static void lend_text(size_t which) {
    uint32_t length;
    get(&length, sizeof length);
    get(last(texts[which].room, length), length);
    lend(which, length);
}

/* A file that is missing is lent as a text one byte longer than a program takes: both are refused with 15 and 0. */
static void lend_file(size_t which) {
    uint32_t there;
    get(&there, sizeof there);
    lend_text(which);
    if (!there) {
        lend(which, LONGEST + 1);
    }
}

static void texts_stay(size_t count) {
    for (size_t i = 0; i < count; i++) {
        hold_to(memcmp(texts[i].copy, last(texts[i].room, texts[i].length), texts[i].length) == 0,
                "a text was written to");
    }
}

#define LENT(which) texts[which].bytes, texts[which].length

static void verdict(void) {
    lend_text(0);
    lend_text(1);
    put32(gorsetumble_quick_verdict(LENT(0), LENT(1)));
    texts_stay(2);
}

static void set_up_texts(void) {
    gorsetumble_machine before;
    lend_text(0);
    lend_text(1);
    memcpy(&before, &kept.machine, sizeof before);
    gorsetumble_text_refusal r = gorsetumble_set_up_texts(&kept.machine, LENT(0), LENT(1));
    texts_stay(2);
    guards_stay();
    if (r.refused.number != 0) {
        stays(&before);
    }
    put_refusal(r.refused);
    put32(r.text);
    put32(digest(&kept.machine));
}

/* buffers to be written to, with what must stay before them and is shown behind them */
enum { BUFFERS = 2 };
static struct {
    fenced room;
    uint8_t *bytes;
    uint32_t length;
} buffers[BUFFERS];

static void buffer(size_t which, size_t past) {
    get(&buffers[which].length, sizeof buffers[which].length);
    buffers[which].bytes = last(buffers[which].room, buffers[which].length + past);
    memset(buffers[which].bytes - GUARD, FILLING, GUARD + buffers[which].length + past);
}

#define BUFFER(which) buffers[which].bytes, buffers[which].length

static void put_buffer(size_t which, size_t past) {
    hold_to(memcmp(buffers[which].bytes - GUARD, guard, GUARD) == 0, "bytes before a buffer were written to");
    put32(buffers[which].length + past);
    put(buffers[which].bytes, buffers[which].length + past);
}

static void put_written(gorsetumble_written w, size_t which, size_t past) {
    put_refusal(w.refused);
    put64(w.length);
    put_buffer(which, past);
}

static void admit(void) {
    lend_file(0);
    lend_file(1);
    buffer(0, PAST);
    gorsetumble_written w = gorsetumble_admit(LENT(0), LENT(1), BUFFER(0));
    texts_stay(2);
    put_written(w, 0, PAST);
}

static void rehearse(void) {
    lend_file(0);
    lend_file(1);
    buffer(0, PAST);
    gorsetumble_written w = gorsetumble_rehearse_texts(LENT(0), LENT(1), BUFFER(0));
    texts_stay(2);
    put_written(w, 0, PAST);
}

static void ticks(void) {
    lend_file(0);
    lend_file(1);
    lend_text(2);
    buffer(0, PAST);
    gorsetumble_written w = gorsetumble_ticks(LENT(0), LENT(1), LENT(2), BUFFER(0));
    texts_stay(3);
    put_written(w, 0, PAST);
}

static gorsetumble_table get_table(void) {
    Given given;
    gorsetumble_table table;
    get(&given, sizeof given);
    memset(&table, FILLING, sizeof table);
    table.platform = given.platform;
    table.n = given.n;
    memcpy(table.rows, given.rows, sizeof given.rows);
    return table;
}

static void write_one_by_one(void) {
    gorsetumble_table table = get_table();
    buffer(0, 0);
    buffer(1, 0);
    put_written(gorsetumble_write_platform(table.platform, BUFFER(0)), 0, 0);
    put_written(gorsetumble_write_tasks(table, BUFFER(1)), 1, 0);
}

static void write_both(void) {
    gorsetumble_table table = get_table();
    buffer(0, 0);
    buffer(1, 0);
    gorsetumble_texts_written w = gorsetumble_write_texts(table, BUFFER(0), BUFFER(1));
    put_refusal(w.refused);
    put64(w.platform);
    put64(w.tasks);
    put_buffer(0, 0);
    put_buffer(1, 0);
}

static bool answered(uint8_t kind) {
    switch (kind) {
    case 'A': admission(); break;
    case 'R': rehearsal(); break;
    case 'S': set_up(); break;
    case 'T': tick(); break;
    case 'X': given(); break;
    case 'C': verdict(); break;
    case 'U': set_up_texts(); break;
    case 'M': admit(); break;
    case 'B': rehearse(); break;
    case 'N': ticks(); break;
    case 'V': write_one_by_one(); break;
    case 'W': write_both(); break;
    default: return false;
    }
    return true;
}

int main(void) {
    uint8_t kind;
    memset(guard, FILLING, sizeof guard);
    memset(kept.before, FILLING, sizeof kept.before);
    memset(kept.behind, FILLING, sizeof kept.behind);
    rows_room = fenced_room(MOST_ROWS * sizeof(gorsetumble_task));
    for (size_t i = 0; i < TEXTS; i++) {
        texts[i].room = fenced_room(MOST_BYTES);
    }
    for (size_t i = 0; i < BUFFERS; i++) {
        buffers[i].room = fenced_room(MOST_BYTES);
    }
    for (records = 1; fread(&kind, 1, 1, stdin) == 1; records++) {
        hold_to(answered(kind), "no kind of case that is known here");
    }
    return 0;
}
