// The plain C version of the work that bench/ times: document 01 again, without a proof.
// The kit's clang brings no header files, so that the sizes are named here.
#ifndef PLAIN_H
#define PLAIN_H

typedef unsigned char u8;
typedef unsigned int u32;
typedef unsigned long u64;
typedef long i64;

enum { MOST_TASKS = 32, MOST_CORES = 16, MOST_PARTITIONS = 64 };
enum { LONGEST_PERIOD = 65535, LONGEST_TEXT = 60000, LONGEST_REHEARSAL = 1000000 };

typedef struct {
    u32 d, t, c, a;
} task;

typedef struct {
    u32 cores, partitions;
    u64 n;
    task rows[MOST_TASKS];
} table;

// Number 0 is no refusal.
typedef struct {
    u32 number;
    u64 row;
} refusal;

typedef struct {
    refusal refused;
    u64 admitted, first;
    i64 margins[MOST_TASKS];
} full;

typedef struct {
    refusal refused;
    u64 admitted, first;
} quick;

typedef enum { IDLE, WAITING, RUNNING } stage;

// Of a task's job: age counts ticks since its release, ran those that it has run; held is its set of partitions.
typedef struct {
    stage stage;
    u32 age, ran;
    u64 held;
} job;

typedef struct {
    table table;
    job jobs[MOST_TASKS];
} machine;

// What a tick answers: three sets of tasks, or the refusal.
typedef struct {
    refusal refused;
    u32 finished, late, started;
} answer;

// The first tick at which a job is late and the lowest such task, or 0 and 0; the jobs that each task started before.
typedef struct {
    refusal refused;
    u32 tick;
    u64 task;
    u32 started[MOST_TASKS];
} rehearsal;

u32 row_refused(const task *r, u32 partitions);
refusal table_refused(const table *t);
void full_answer(const table *t, full *answer);
void quick_answer(const table *t, quick *answer);
void machine_fresh(machine *m, const table *t);
void machine_tick(machine *m, u32 released, u32 finished, answer *answer);
void rehearse(const table *t, int tick_by_tick, rehearsal *answer);
refusal read_platform(const u8 *s, u64 length, table *t);
refusal read_tasks(const u8 *s, u64 length, table *t);
refusal read_ticks(const u8 *s, u64 length, u64 *count);
refusal set_up_texts(machine *m, const u8 *platform, u64 p, const u8 *tasks, u64 k, u32 *text);
u64 verdict(const u8 *platform, u64 p, const u8 *tasks, u64 k);

#endif
