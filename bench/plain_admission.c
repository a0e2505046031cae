// Admission in plain C: refusals 1 to 8 of a table, the full and the quick answer.
#include "plain.h"

u32 row_refused(const task *r, u32 partitions) {
    if (r->t < 1 || r->t > LONGEST_PERIOD) return 4;
    if (r->c == 0) return 5;
    if (r->c > r->d) return 6;
    if (r->d > r->t) return 7;
    if (r->a > partitions) return 8;
    return 0;
}

refusal table_refused(const table *t) {
    if (t->n < 1 || t->n > MOST_TASKS) return (refusal){1, 0};
    if (t->cores < 1 || t->cores > MOST_CORES) return (refusal){2, 0};
    if (t->partitions < 1 || t->partitions > MOST_PARTITIONS) return (refusal){3, 0};
    for (u64 i = 0; i < t->n; i++) {
        u32 number = row_refused(&t->rows[i], t->partitions);
        if (number) return (refusal){number, i + 1};
    }
    return (refusal){0, 0};
}

static u32 larger(u32 x, u32 y) { return x < y ? y : x; }

// What a task adds to the load of one with slack s and blocking b.
static u64 term(const task *r, u32 cores, u32 b, u32 s) {
    return (u64)larger(b, cores * r->a) * ((u64)(s / r->t + 2) * r->c);
}

void full_answer(const table *t, full *answer) {
    *answer = (full){.refused = table_refused(t)};
    if (answer->refused.number) return;
    u32 most = 0;
    for (u64 k = 0; k < t->n; k++) {
        most = larger(most, t->rows[k].a);
        u32 b = t->partitions - most + 1, s = t->rows[k].d - t->rows[k].c;
        u64 load = 0;
        for (u64 i = 0; i < t->n; i++) load += term(&t->rows[i], t->cores, b, s);
        i64 margin = (i64)((u64)t->cores * b * s) - (i64)load;
        answer->margins[k] = margin;
        if (margin <= 0 && !answer->first) answer->first = k + 1;
    }
    answer->admitted = !answer->first;
}

// Both loops are left where a load reaches its limit.
static u64 first_failing(const table *t) {
    u32 most = 0;
    for (u64 k = 0; k < t->n; k++) {
        most = larger(most, t->rows[k].a);
        u32 b = t->partitions - most + 1, s = t->rows[k].d - t->rows[k].c;
        u64 limit = (u64)t->cores * b * s, load = 0;
        for (u64 i = 0; i < t->n; i++) {
            load += term(&t->rows[i], t->cores, b, s);
            if (load >= limit) return k + 1;
        }
    }
    return 0;
}

void quick_answer(const table *t, quick *answer) {
    *answer = (quick){.refused = table_refused(t)};
    if (answer->refused.number) return;
    answer->first = first_failing(t);
    answer->admitted = !answer->first;
}
