/* How much stack each exported call takes: it is called on a stack of its own that was painted before, and what is
 * painted still was not written. Counted from where the caller's stack stood before the call: its arguments in memory,
 * as the x86-64 ABI places them, the return address, and all below. Of many inputs the most. memcpy and memset are
 * those below, which take no stack but their return address. */
#include "gorsetumble.h"

#include "libc.h"

enum { STACK = 16384, ROOM = 60001, LISTING = 200000, REGISTERS = 6, MOST_WORDS = 66, MANY = 1000 };

typedef gorsetumble_task Task;
typedef gorsetumble_platform Platform;

/* at_top(top, function, registers, words, count): calls the function with its stack at `top`, these six registers of
 * arguments and so many words of arguments in memory. */
extern uint64_t at_top(uint8_t *top, const void *function, const uint64_t *registers, const uint64_t *words,
                       size_t count);
__asm__(".text\n"
        "at_top: pushq %rbp\n movq %rsp, %rbp\n movq %rdi, %rsp\n"
        "leaq 1(%r8), %rax\n andq $-2, %rax\n shlq $3, %rax\n subq %rax, %rsp\n"
        "movq %rsi, %rax\n movq %rdx, %r10\n"
        "movq %rsp, %rdi\n movq %rcx, %rsi\n movq %r8, %rcx\n rep movsq\n"
        "movq (%r10), %rdi\n movq 8(%r10), %rsi\n movq 16(%r10), %rdx\n"
        "movq 24(%r10), %rcx\n movq 32(%r10), %r8\n movq 40(%r10), %r9\n"
        "callq *%rax\n movq %rbp, %rsp\n popq %rbp\n retq\n"
        ".globl memcpy\n memcpy: movq %rdi, %rax\n movq %rdx, %rcx\n rep movsb\n retq\n"
        ".globl memset\n memset: movq %rdi, %r8\n movl %esi, %eax\n movq %rdx, %rcx\n rep stosb\n"
        "movq %r8, %rax\n retq\n");

typedef struct {
    const char *name;
    const void *function;
    bool answers_in_memory; /* through a pointer, its first argument; else in a register */
    size_t most, arguments; /* of the most, arguments in memory */
} Call;

enum {
    VERDICT,
    FULL,
    QUICK,
    REHEARSE,
    SET_UP,
    SET_UP_TEXTS,
    TICK,
    ADMIT,
    REHEARSE_TEXTS,
    TICKS,
    WRITE_PLATFORM,
    WRITE_TASKS,
    WRITE_TEXTS,
    CALLS
};

#define CALL(name, in_memory) {#name, (const void *)name, in_memory, 0, 0}
static Call calls[CALLS] = {
    CALL(gorsetumble_quick_verdict, false), CALL(gorsetumble_full, true),
    CALL(gorsetumble_quick, true),          CALL(gorsetumble_rehearse, true),
    CALL(gorsetumble_set_up, false),        CALL(gorsetumble_set_up_texts, true),
    CALL(gorsetumble_tick, true),           CALL(gorsetumble_admit, true),
    CALL(gorsetumble_rehearse_texts, true), CALL(gorsetumble_ticks, true),
    CALL(gorsetumble_write_platform, true), CALL(gorsetumble_write_tasks, true),
    CALL(gorsetumble_write_texts, true),
};

typedef struct {
    uint64_t registers[REGISTERS];
    uint64_t words[MOST_WORDS];
    size_t count;
} Arguments;

static _Alignas(16) uint8_t stack[STACK];

static size_t written(uint8_t paint) {
    size_t at = 0;
    while (at < STACK && stack[at] == paint) at++;
    return STACK - at;
}

/* The first number of every answer is that of its refusal, or the verdict: a call that answers another than is
 * expected did not get the arguments that were meant. Two paints, for a call may write the one. */
static void takes(int which, uint32_t number, Arguments a, gorsetumble_machine *machine) {
    static gorsetumble_full_answer largest_answer;
    static gorsetumble_machine before;
    Call *call = &calls[which];
    if (machine != NULL) before = *machine;
    if (call->answers_in_memory) a.registers[0] = (uint64_t)&largest_answer;
    for (int paint = 0x5a; paint <= 0xa5; paint += 0xa5 - 0x5a) {
        if (machine != NULL) *machine = before;
        memset(stack, paint, STACK);
        uint64_t answer = at_top(stack + STACK, call->function, a.registers, a.words, a.count);
        size_t took = written((uint8_t)paint);
        if (call->answers_in_memory) answer = largest_answer.refused.number;
        if ((uint32_t)answer != number || took == STACK) {
            printf("%s: %u, not %u, on %zu bytes\n", call->name, (unsigned)answer, (unsigned)number, took);
            exit(1);
        }
        if (took > call->most) call->most = took;
        call->arguments = (a.count + 1) / 2 * 16;
    }
}

static uint64_t in_register(Platform p) { return p.cores | (uint64_t)p.partitions << 32; }

/* Calls with records. */

static Task rows[MANY];
static gorsetumble_machine machine;

static void on_rows(Platform p, Task row, size_t count, uint32_t number) {
    for (size_t i = 0; i < MANY; i++) rows[i] = row;
    Arguments answers = {{0, in_register(p), (uint64_t)rows, count}, {0}, 0};
    Arguments set_up = {{(uint64_t)&machine, in_register(p), (uint64_t)rows, count}, {0}, 0};
    takes(FULL, number, answers, NULL);
    takes(QUICK, number, answers, NULL);
    takes(REHEARSE, number, answers, NULL);
    takes(SET_UP, number, set_up, NULL);
}

static void records(void) {
    const Platform most = {16, 64}, one = {1, 1}, none = {0, 0};
    const Task light = {60000, 65535, 1, 1}, heavy = {65535, 65535, 65535, 64}, all = {65535, 65535, 1, 64};
    const size_t refused_counts[] = {0, 33, MANY};
    for (size_t n = 1; n <= GORSETUMBLE_MOST_TASKS; n++) {
        on_rows(most, light, n, 0);
        on_rows(most, heavy, n, 0);
        on_rows(most, all, n, 0);
        on_rows(one, light, n, 0);
        on_rows(one, all, n, 8);
        on_rows(none, light, n, 2);
    }
    for (size_t i = 0; i < 3; i++) on_rows(most, light, refused_counts[i], 1);
}

/* Rows of different periods, with a small multiple, with a late job, and with a multiple that is refused. */
static void rehearsals(void) {
    const Platform most = {16, 64}, one = {1, 1};
    for (uint32_t step = 1; step <= 3; step++) {
        for (uint32_t i = 0; i < GORSETUMBLE_MOST_TASKS; i++) {
            uint32_t period = step == 3 ? 65535 - i : 4 + step * (i % 4);
            rows[i] = (Task){period, period, 1, 1};
        }
        Arguments on_most = {{0, in_register(most), (uint64_t)rows, GORSETUMBLE_MOST_TASKS}, {0}, 0};
        Arguments on_one = {{0, in_register(one), (uint64_t)rows, GORSETUMBLE_MOST_TASKS}, {0}, 0};
        takes(REHEARSE, step == 3 ? GORSETUMBLE_REFUSED_MULTIPLE : 0, on_most, NULL);
        takes(REHEARSE, step == 3 ? GORSETUMBLE_REFUSED_MULTIPLE : 0, on_one, NULL);
    }
}

static void tick(gorsetumble_machine *m, uint32_t released, uint32_t finished, uint32_t number) {
    Arguments a = {{0, (uint64_t)m, released, finished}, {0}, 0};
    takes(TICK, number, a, m);
}

/* All change: every task is released as soon as it may be and every job ends as soon as it may. */
static void ticking(void) {
    const Task row = {4, 4, 1, 4};
    for (size_t i = 0; i < MANY; i++) rows[i] = row;
    for (size_t n = 1; n <= GORSETUMBLE_MOST_TASKS; n++) {
        uint32_t every = UINT32_MAX >> (GORSETUMBLE_MOST_TASKS - n);
        gorsetumble_set_up(&machine, (Platform){16, 64}, rows, n);
        tick(&machine, 0, 1, 10);
        tick(&machine, every, 0, 0);
        tick(&machine, every, 0, 11);
        for (int at = 0; at < 12; at++) {
            uint32_t running = 0;
            for (size_t i = 0; i < n; i++)
                if (machine.jobs[i].stage == GORSETUMBLE_RUNNING) running |= (uint32_t)1 << i;
            if (running != 0) tick(&machine, every, running, 12);
            tick(&machine, at % 4 == 3 ? every : 0, running, 0);
        }
        machine.jobs[n - 1].stage = 3;
        tick(&machine, 0, 0, 14);
    }
}

/* Calls with texts. */

typedef struct {
    uint8_t bytes[ROOM];
    size_t length;
} Text;

static Text platform, tasks, ticks;
static uint8_t out[LISTING], other[LISTING];

static void add(Text *to, const char *words) {
    while (*words != 0 && to->length < ROOM) to->bytes[to->length++] = (uint8_t)*words++;
}

static void fill(Text *to, const char *head, const char *row, size_t count) {
    to->length = 0;
    add(to, head);
    for (size_t i = 0; i < count; i++) add(to, row);
}

/* What the programs write, with room and without. */
static void listings(void) {
    const size_t rooms[] = {0, 1, LISTING};
    for (size_t i = 0; i < 3; i++) {
        uint32_t number = rooms[i] < LISTING ? GORSETUMBLE_REFUSED_ROOM : 0;
        uint64_t p = (uint64_t)platform.bytes, t = (uint64_t)tasks.bytes, k = (uint64_t)ticks.bytes;
        Arguments admit = {{0, p, platform.length, t, tasks.length, (uint64_t)out}, {rooms[i]}, 1};
        Arguments list = {{0, p, platform.length, t, tasks.length, k}, {ticks.length, (uint64_t)out, rooms[i]}, 3};
        takes(ADMIT, number, admit, NULL);
        takes(REHEARSE_TEXTS, number, admit, NULL);
        takes(TICKS, number, list, NULL);
    }
}

static void on_texts(uint32_t verdict) {
    uint64_t p = (uint64_t)platform.bytes, t = (uint64_t)tasks.bytes;
    Arguments judged = {{p, platform.length, t, tasks.length}, {0}, 0};
    Arguments set_up = {{0, (uint64_t)&machine, p, platform.length, t, tasks.length}, {0}, 0};
    takes(VERDICT, verdict, judged, NULL);
    takes(SET_UP_TEXTS, verdict > GORSETUMBLE_FIRST_TASK_FAILS ? 0 : verdict, set_up, NULL);
    fill(&ticks, "released,finished\r\n", "", 0);
    listings();
    fill(&ticks, "released,finished\r\n", "4294967295,4294967295\r\n", 100);
    listings();
    fill(&ticks, "released,finished\r\n1,0\r\n", "0,1\r\n1,0\r\n0,0\r\n", 300);
    listings();
    fill(&ticks, "released;finished\r\n", "", 0);
    listings();
}

static void texts(void) {
    static const struct {
        const char *platform, *row;
        size_t count;
        uint32_t verdict;
    } cases[] = {
        {"16,64", "60000,65535,1,1\r\n", 1, 0},   {"16,64", "60000,65535,1,1\r\n", 32, 0},
        {"16,64", "60000,65535,1,1\r\n", 33, 1},  {"16,64", "60000,65535,1,1\r\n", 3000, 1},
        {"16,64", "", 0, 1},                      {"1,1", "3,3,1,1\r\n", 2, 101},
        {"2,4", "6,6,2,1\r\n", 32, 101},          {"2,4", "6,6,2,1\r\n", 1, 0},
        {"17,64", "6,6,2,1\r\n", 32, 2},          {"16,65", "6,6,2,1\r\n", 32, 3},
        {"2,4", "1,4294967295,1,1\r\n", 32, 4},   {"2,4", "6,6,0,1\r\n", 32, 5},
        {"2,4", "6,6,7,1\r\n", 32, 6},            {"2,4", "7,6,2,1\r\n", 32, 7},
        {"2,4", "6,6,2,5\r\n", 32, 8},            {"2,4", "6,6,2,1,\r\n", 1, 15},
        {"2,4", "6,6,2,1\n", 3000, 15},           {"2,4", "6,6,2,4294967296\r\n", 1, 15},
        {"02,4", "6,6,2,1\r\n", 32, 15},          {"", "6,6,2,1\r\n", 32, 15},
    };
    for (size_t i = 0; i < sizeof cases / sizeof cases[0]; i++) {
        fill(&platform, "cores,partitions\r\n", cases[i].platform, 1);
        add(&platform, "\r\n");
        fill(&tasks, "D,T,C,A\r\n", cases[i].row, cases[i].count);
        on_texts(cases[i].verdict);
    }
}

/* The writers write any table, good or not. */
static void writes(gorsetumble_table table, size_t room) {
    uint32_t number = room < LISTING ? GORSETUMBLE_REFUSED_ROOM : 0;
    Arguments of_platform = {{0, in_register(table.platform), (uint64_t)out, room}, {0}, 0};
    Arguments of_tasks = {{0, (uint64_t)out, room}, {0}, MOST_WORDS};
    Arguments of_both = {{0, (uint64_t)out, room, (uint64_t)other, room}, {0}, MOST_WORDS};
    Arguments second_short = {{0, (uint64_t)out, LISTING, (uint64_t)other, room}, {0}, MOST_WORDS};
    memcpy(of_tasks.words, &table, sizeof table);
    memcpy(of_both.words, &table, sizeof table);
    memcpy(second_short.words, &table, sizeof table);
    takes(WRITE_PLATFORM, number, of_platform, NULL);
    takes(WRITE_TASKS, number, of_tasks, NULL);
    takes(WRITE_TEXTS, number, of_both, NULL);
    takes(WRITE_TEXTS, number, second_short, NULL);
}

static void writers(void) {
    const uint32_t numbers[] = {0, 7, 65535, UINT32_MAX};
    const size_t counts[] = {0, 1, 32, 33, MANY};
    for (size_t i = 0; i < 4; i++) {
        for (size_t j = 0; j < 5; j++) {
            uint32_t x = numbers[i];
            gorsetumble_table table = {{x, x}, counts[j], {{0, 0, 0, 0}}};
            for (size_t row = 0; row < GORSETUMBLE_MOST_TASKS; row++) table.rows[row] = (Task){x, x, x, x};
            writes(table, LISTING);
            writes(table, 0);
        }
    }
}

int main(void) {
    records();
    rehearsals();
    ticking();
    texts();
    writers();
    for (int i = 0; i < CALLS; i++) printf("%s %zu %zu\n", calls[i].name, calls[i].most, calls[i].arguments);
    return 0;
}
