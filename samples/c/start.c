/* A board's start-up: the unit's two texts in, the verdict, set-up from the same texts, then tick after tick.
 * It judges the unit in whose folder it stands. docs/C.md has the commands that build and run it.
 *
 * Exit status: 0 admitted and every tick taken; 1 not admitted, or a tick refused or with a late job; 2 the unit is
 * refused; 3 a text or a report could not be read, or what happened could not be written. */
#include <stdbool.h>
#include <stdint.h>
#include <stdio.h>
#include <stdlib.h>

#include "gorsetumble.h"

enum { NOT_ADMITTED = 1, REFUSED = 2, CANNOT = 3 };

/* The calls take texts of any length; this board keeps room for as much as the programs take. */
enum { LONGEST = 60000 };

typedef struct {
    const char *name;
    uint8_t bytes[LONGEST + 1];
    size_t length;
} text;

static text platform = {.name = "platform.csv"}, tasks = {.name = "tasks.csv"};
static gorsetumble_machine machine;

/* A missing file is a text of length 0, which the verdict refuses. A text cut short would be judged as another unit's:
 * so one that is too long, or that a fault ends early, stops the board. */
static void load(text *it) {
    FILE *file = fopen(it->name, "rb");
    if (file == NULL) return;
    it->length = fread(it->bytes, 1, sizeof it->bytes, file);
    if (ferror(file) || it->length > LONGEST) {
        fprintf(stderr, "stopped: %s cannot be read whole\n", it->name);
        exit(CANNOT);
    }
    fclose(file);
}

/* The verdict is a number alone. Set-up from the same texts is refused by the same number, and says where. */
static _Noreturn void stop_refused(uint32_t number) {
    gorsetumble_text_refusal r =
        gorsetumble_set_up_texts(&machine, platform.bytes, platform.length, tasks.bytes, tasks.length);
    fprintf(stderr, "stopped: refused by number %u (see docs/FITTERS.md)", (unsigned)number);
    if (r.text != GORSETUMBLE_IN_NO_TEXT) {
        const text *it = r.text == GORSETUMBLE_IN_PLATFORM ? &platform : &tasks;
        fprintf(stderr, ", at byte %zu of %s", r.refused.row, it->name);
    } else if (r.refused.row != 0) {
        fprintf(stderr, ", task %zu", r.refused.row);
    }
    fprintf(stderr, "\n");
    exit(REFUSED);
}

static void start_up(void) {
    uint32_t verdict = gorsetumble_quick_verdict(platform.bytes, platform.length, tasks.bytes, tasks.length);
    if (verdict > GORSETUMBLE_FIRST_TASK_FAILS) {
        unsigned task = verdict - GORSETUMBLE_FIRST_TASK_FAILS;
        fprintf(stderr, "stopped: not admitted, task %u does not pass\n", task);
        exit(NOT_ADMITTED);
    }
    if (verdict != GORSETUMBLE_ADMITTED) stop_refused(verdict);
    gorsetumble_text_refusal r =
        gorsetumble_set_up_texts(&machine, platform.bytes, platform.length, tasks.bytes, tasks.length);
    if (r.refused.number != GORSETUMBLE_NOT_REFUSED) stop_refused(r.refused.number);
}

/* Which tasks were released since the last tick and which jobs finished: task k adds 2^(k-1). A board asks its timers
 * and cores; here each is a line `released,finished` of standard input, and its end ends the run. */
static bool next_report(uint32_t *released, uint32_t *finished) {
    unsigned long long r, f;
    int read = scanf("%10llu,%10llu", &r, &f);
    if (read == EOF && !ferror(stdin)) return false;
    if (read != 2 || r > UINT32_MAX || f > UINT32_MAX) {
        fprintf(stderr, "stopped: a report is not two numbers\n");
        exit(CANNOT);
    }
    *released = (uint32_t)r;
    *finished = (uint32_t)f;
    return true;
}

static void say(const char *what, uint32_t set) {
    if (set != 0) printf(", %s", what);
    for (unsigned task = 1; task <= GORSETUMBLE_MOST_TASKS; task++)
        if (set >> (task - 1) & 1) printf(" %u", task);
}

/* A board starts the jobs of `started` here. */
static void show(unsigned long tick, gorsetumble_answer a) {
    printf("tick %lu", tick);
    say("finished", a.finished);
    say("late", a.late);
    say("started", a.started);
    printf("\n");
}

int main(void) {
    uint32_t released, finished;
    load(&platform);
    load(&tasks);
    start_up();
    printf("admitted: %zu tasks\n", machine.table.n);
    for (unsigned long tick = 0; next_report(&released, &finished); tick++) {
        gorsetumble_answer a = gorsetumble_tick(&machine, released, finished);
        if (a.refused.number != GORSETUMBLE_NOT_REFUSED) {
            fprintf(stderr, "stopped: tick %lu refused by number %u (see docs/FITTERS.md), task %zu\n", tick,
                    (unsigned)a.refused.number, a.refused.row);
            return NOT_ADMITTED;
        }
        show(tick, a);
        if (a.late != 0) {
            fprintf(stderr, "stopped: a job is late\n");
            return NOT_ADMITTED;
        }
    }
    return fflush(stdout) == 0 ? 0 : CANNOT;
}
