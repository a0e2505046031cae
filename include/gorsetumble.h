/* The proved admission check, machine, readers and writers, as C and C++ call them: link libgorsetumble.a, the archive
 * that `rt staticlib gorsetumble` writes, which is for x86-64 Linux. It exports what is declared here and nothing else.
 *
 * What a caller owes is what C asks of any call: a pointer with a count or a length behind it points to so many records
 * or bytes, `m` points to a machine, and nothing that is lent for writing overlaps anything else that is lent. Counts
 * and lengths may be any, 0 and 33 and a million, and no byte needs to follow the last of a text. Where one is 0 its
 * pointer ought to be one that is not null; docs/C.md says what is known of null. Nothing else is asked: a call takes
 * any numbers in any record and any bytes in any text. No call allocates, keeps a pointer or has state of its own, so
 * calls on different records may run at the same time.
 *
 * A refusal has its number (see GORSETUMBLE_REFUSED_..) and the lowest row or task concerned, counted from 1, or 0
 * where none is; for 15 it has the offset. A call that is refused leaves machines and buffers as they were lent, to the
 * byte. */
#ifndef GORSETUMBLE_H
#define GORSETUMBLE_H

#include <stdbool.h>
#include <stddef.h>
#include <stdint.h>

#ifdef __cplusplus
extern "C" {
#define GORSETUMBLE_ASSERT static_assert
#else
#define GORSETUMBLE_ASSERT _Static_assert
#endif

enum {
    GORSETUMBLE_MOST_TASKS = 32,
    GORSETUMBLE_MOST_CORES = 16,
    GORSETUMBLE_MOST_PARTITIONS = 64,
    GORSETUMBLE_LONGEST_PERIOD = 65535,
    GORSETUMBLE_LONGEST_REHEARSAL = 1000000
};

/* The numbers of refusals; docs/FITTERS.md has the cause and the cure of each. A table is tried for 1 to 3 and then row
 * by row for 4 to 8, and a rehearsal's then for 17; a tick for 14, 9, 10, 11, 12 and 13, each over all tasks. */
enum {
    GORSETUMBLE_NOT_REFUSED = 0,
    GORSETUMBLE_REFUSED_COUNT = 1,        /* no task, or more than 32 */
    GORSETUMBLE_REFUSED_CORES = 2,        /* not 1 to 16 cores */
    GORSETUMBLE_REFUSED_PARTITIONS = 3,   /* not 1 to 64 partitions */
    GORSETUMBLE_REFUSED_PERIOD = 4,       /* a period of 0 or above 65,535 */
    GORSETUMBLE_REFUSED_NO_RUN = 5,       /* a longest run of 0 */
    GORSETUMBLE_REFUSED_RUN = 6,          /* a longest run above the deadline */
    GORSETUMBLE_REFUSED_DEADLINE = 7,     /* a deadline above the period */
    GORSETUMBLE_REFUSED_NEED = 8,         /* a task needs more partitions than there are */
    GORSETUMBLE_REFUSED_TASK = 9,         /* a task above n is named */
    GORSETUMBLE_REFUSED_NOT_RUNNING = 10, /* finished names a task that is not running */
    GORSETUMBLE_REFUSED_OVERRUN = 11,     /* a job has run its C ticks and is not in finished */
    GORSETUMBLE_REFUSED_EARLY = 12,       /* released names a task whose last release is less than T ticks ago */
    GORSETUMBLE_REFUSED_UNFINISHED = 13,  /* released names a task whose job is unfinished */
    GORSETUMBLE_REFUSED_STATE = 14,       /* the machine lent is no state that a machine can be in */
    GORSETUMBLE_REFUSED_TEXT = 15,        /* a text is not of its form: up to the offset a good one could begin so */
    GORSETUMBLE_REFUSED_ROOM = 16,        /* a buffer is too short for its text */
    GORSETUMBLE_REFUSED_MULTIPLE = 17     /* the least common multiple of the periods is above 1,000,000 */
};

typedef struct {
    uint32_t cores;
    uint32_t partitions;
} gorsetumble_platform;

/* deadline D, period T, longest run C, partitions A */
typedef struct {
    uint32_t d;
    uint32_t t;
    uint32_t c;
    uint32_t a;
} gorsetumble_task;

typedef struct {
    gorsetumble_platform platform;
    size_t n;
    gorsetumble_task rows[GORSETUMBLE_MOST_TASKS];
} gorsetumble_table;

typedef struct {
    uint32_t number;
    size_t row;
} gorsetumble_refusal;

/* `first` is the first task that does not pass, or 0; margins past the last task are 0. Where the table is refused, all
 * but the refusal is 0. */
typedef struct {
    gorsetumble_refusal refused;
    bool admitted;
    size_t first;
    int64_t margins[GORSETUMBLE_MOST_TASKS];
} gorsetumble_full_answer;

typedef struct {
    gorsetumble_refusal refused;
    bool admitted;
    size_t first;
} gorsetumble_quick_answer;

/* `tick` is the first at which a job is late and `task` the lowest such task, or both are 0; `started` counts the jobs
 * that each task started before that tick, or in all, and is 0 past the last task. Where the rehearsal is refused, all
 * but the refusal is 0. */
typedef struct {
    gorsetumble_refusal refused;
    uint32_t tick;
    size_t task;
    uint32_t started[GORSETUMBLE_MOST_TASKS];
} gorsetumble_rehearsal;

/* the stages of a job; one above 2 is a spoiled state, refused under 14 */
enum { GORSETUMBLE_IDLE = 0, GORSETUMBLE_WAITING = 1, GORSETUMBLE_RUNNING = 2 };

/* `age` counts ticks since the release and stops at T, `ran` counts those run; partition p adds 2^p to `held` */
typedef struct {
    uint32_t stage;
    uint32_t age;
    uint32_t ran;
    uint64_t held;
} gorsetumble_job;

typedef struct {
    gorsetumble_table table;
    gorsetumble_job jobs[GORSETUMBLE_MOST_TASKS];
} gorsetumble_machine;

/* three sets: task k adds 2^(k-1) */
typedef struct {
    gorsetumble_refusal refused;
    uint32_t finished;
    uint32_t late;
    uint32_t started;
} gorsetumble_answer;

/* the text that a refusal is in: set only with 15 */
enum { GORSETUMBLE_IN_NO_TEXT = 0, GORSETUMBLE_IN_PLATFORM = 1, GORSETUMBLE_IN_TASKS = 2 };

typedef struct {
    gorsetumble_refusal refused;
    uint32_t text;
} gorsetumble_text_refusal;

/* how many bytes were written, or 0 and refusal 16 */
typedef struct {
    gorsetumble_refusal refused;
    size_t length;
} gorsetumble_written;

typedef struct {
    gorsetumble_refusal refused;
    size_t platform;
    size_t tasks;
} gorsetumble_texts_written;

#define GORSETUMBLE_AT(type, field, offset) GORSETUMBLE_ASSERT(offsetof(type, field) == (offset), #type "." #field)
#define GORSETUMBLE_SIZE(type, size) GORSETUMBLE_ASSERT(sizeof(type) == (size), #type)
GORSETUMBLE_SIZE(bool, 1);
GORSETUMBLE_SIZE(size_t, 8);
GORSETUMBLE_SIZE(gorsetumble_platform, 8);
GORSETUMBLE_AT(gorsetumble_platform, partitions, 4);
GORSETUMBLE_SIZE(gorsetumble_task, 16);
GORSETUMBLE_AT(gorsetumble_task, t, 4);
GORSETUMBLE_AT(gorsetumble_task, c, 8);
GORSETUMBLE_AT(gorsetumble_task, a, 12);
GORSETUMBLE_SIZE(gorsetumble_table, 528);
GORSETUMBLE_AT(gorsetumble_table, n, 8);
GORSETUMBLE_AT(gorsetumble_table, rows, 16);
GORSETUMBLE_SIZE(gorsetumble_refusal, 16);
GORSETUMBLE_AT(gorsetumble_refusal, row, 8);
GORSETUMBLE_SIZE(gorsetumble_full_answer, 288);
GORSETUMBLE_AT(gorsetumble_full_answer, admitted, 16);
GORSETUMBLE_AT(gorsetumble_full_answer, first, 24);
GORSETUMBLE_AT(gorsetumble_full_answer, margins, 32);
GORSETUMBLE_SIZE(gorsetumble_quick_answer, 32);
GORSETUMBLE_AT(gorsetumble_quick_answer, admitted, 16);
GORSETUMBLE_AT(gorsetumble_quick_answer, first, 24);
GORSETUMBLE_SIZE(gorsetumble_rehearsal, 160);
GORSETUMBLE_AT(gorsetumble_rehearsal, tick, 16);
GORSETUMBLE_AT(gorsetumble_rehearsal, task, 24);
GORSETUMBLE_AT(gorsetumble_rehearsal, started, 32);
GORSETUMBLE_SIZE(gorsetumble_job, 24);
GORSETUMBLE_AT(gorsetumble_job, age, 4);
GORSETUMBLE_AT(gorsetumble_job, ran, 8);
GORSETUMBLE_AT(gorsetumble_job, held, 16);
GORSETUMBLE_SIZE(gorsetumble_machine, 1296);
GORSETUMBLE_AT(gorsetumble_machine, jobs, 528);
GORSETUMBLE_SIZE(gorsetumble_answer, 32);
GORSETUMBLE_AT(gorsetumble_answer, finished, 16);
GORSETUMBLE_AT(gorsetumble_answer, late, 20);
GORSETUMBLE_AT(gorsetumble_answer, started, 24);
GORSETUMBLE_SIZE(gorsetumble_text_refusal, 24);
GORSETUMBLE_AT(gorsetumble_text_refusal, text, 16);
GORSETUMBLE_SIZE(gorsetumble_written, 24);
GORSETUMBLE_AT(gorsetumble_written, length, 16);
GORSETUMBLE_SIZE(gorsetumble_texts_written, 32);
GORSETUMBLE_AT(gorsetumble_texts_written, platform, 16);
GORSETUMBLE_AT(gorsetumble_texts_written, tasks, 24);
#undef GORSETUMBLE_AT
#undef GORSETUMBLE_SIZE
#undef GORSETUMBLE_ASSERT

/* The quick verdict on the bytes of platform.csv and tasks.csv, just as the files have them, for the board's start-up
 * code. It answers
 *
 *   0            admitted: the unit may start
 *   101 to 132   not admitted: 100 plus the number of the first task that does not pass
 *   1 to 8       the table is refused, by that number
 *   15           a text is not of its form
 *
 * and no other number. Start the scheduler on 0 and on nothing else, and set it up from the same texts. */
enum { GORSETUMBLE_ADMITTED = 0, GORSETUMBLE_FIRST_TASK_FAILS = 100 };

uint32_t gorsetumble_quick_verdict(const uint8_t *platform, size_t platform_length, const uint8_t *tasks,
                                   size_t tasks_length);

/* Verdict, first task that does not pass, and the margin of each task; the quick answer is the same without the
 * margins. */
gorsetumble_full_answer gorsetumble_full(gorsetumble_platform platform, const gorsetumble_task *rows, size_t count);
gorsetumble_quick_answer gorsetumble_quick(gorsetumble_platform platform, const gorsetumble_task *rows, size_t count);

/* The rows rehearsed: all tasks released at tick 0 and then each period, every job running its full C, for the least
 * common multiple of the periods. It tries this one pattern of releases and promises nothing of others; the verdict
 * does. It goes from event to event: docs/C.md says how long that can take. */
gorsetumble_rehearsal gorsetumble_rehearse(gorsetumble_platform platform, const gorsetumble_task *rows, size_t count);

/* A fresh machine in the place of the old one, of which nothing stays: of these rows, or of the table that two texts
 * give. Where it is refused the old one stays. Set-up does not ask for the verdict. */
gorsetumble_refusal gorsetumble_set_up(gorsetumble_machine *m, gorsetumble_platform platform,
                                       const gorsetumble_task *rows, size_t count);
gorsetumble_text_refusal gorsetumble_set_up_texts(gorsetumble_machine *m, const uint8_t *platform,
                                                  size_t platform_length, const uint8_t *tasks, size_t tasks_length);

/* One tick: which tasks were released and which jobs finished since the last; the answer says which are late and which
 * start now. */
gorsetumble_answer gorsetumble_tick(gorsetumble_machine *m, uint32_t released, uint32_t finished);

/* What the programs `admit`, `rehearse` and `ticks` write of their texts. As they do, these take no text over 60,000
 * bytes: it is written as 15 and 0. */
gorsetumble_written gorsetumble_admit(const uint8_t *platform, size_t platform_length, const uint8_t *tasks,
                                      size_t tasks_length, uint8_t *out, size_t room);
gorsetumble_written gorsetumble_rehearse_texts(const uint8_t *platform, size_t platform_length, const uint8_t *tasks,
                                               size_t tasks_length, uint8_t *out, size_t room);
gorsetumble_written gorsetumble_ticks(const uint8_t *platform, size_t platform_length, const uint8_t *tasks,
                                      size_t tasks_length, const uint8_t *ticks, size_t ticks_length, uint8_t *out,
                                      size_t room);

/* The text of a platform, the text of a table's rows, and both or neither. A table is written as it is, good or not; of
 * one that counts more than 32 rows the 32 that are there. */
gorsetumble_written gorsetumble_write_platform(gorsetumble_platform platform, uint8_t *out, size_t room);
gorsetumble_written gorsetumble_write_tasks(gorsetumble_table table, uint8_t *out, size_t room);
gorsetumble_texts_written gorsetumble_write_texts(gorsetumble_table table, uint8_t *platform, size_t platform_room,
                                                  uint8_t *tasks, size_t tasks_room);

#ifdef __cplusplus
}
#endif

#endif
