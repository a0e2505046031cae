// Rounds of the archive's calls, and the plain C version of each. A slice comes as a pointer and a length.
#ifndef ROUNDS_H
#define ROUNDS_H
#include "plain.h"

// A table from words: n, M, P, then D, T, C, A of each task.
table table_of(const u32 *words, u64 count);

// Rounds of the full and of the quick answer, on p and q partitions in turn. The proved ones get the rows as any C
// program lends them.
u64 proved_full(const u32 *words, u64 count, u32 p, u32 q, u64 n);
u64 plain_full(const u32 *words, u64 count, u32 p, u32 q, u64 n);
u64 proved_quick(const u32 *words, u64 count, u32 p, u32 q, u64 n);
u64 plain_quick(const u32 *words, u64 count, u32 p, u32 q, u64 n);

// Rounds of a rehearsal, likewise on p and q partitions in turn.
u64 proved_rehearsal(const u32 *words, u64 count, u32 p, u32 q, u64 n);
u64 plain_rehearsal_by_events(const u32 *words, u64 count, u32 p, u32 q, u64 n);
u64 plain_rehearsal_by_ticks(const u32 *words, u64 count, u32 p, u32 q, u64 n);

// Ticks of a fresh machine, one for each report: their words stand two by two, released and finished. Both tick a
// machine in its place.
u64 proved_ticks(const u32 *words, u64 count, const u32 *reports, u64 report_words);
u64 plain_ticks(const u32 *words, u64 count, const u32 *reports, u64 report_words);

// One reading of two texts, folded: set-up of a machine, and the quick verdict.
u64 proved_set_up(const u8 *platform, u64 p, const u8 *tasks, u64 k);
u64 plain_set_up(const u8 *platform, u64 p, const u8 *tasks, u64 k);
u64 proved_verdict(const u8 *platform, u64 p, const u8 *tasks, u64 k);
u64 plain_verdict(const u8 *platform, u64 p, const u8 *tasks, u64 k);

// What the program `ticks` writes of three texts, its length.
u64 proved_run(const u8 *platform, u64 p, const u8 *tasks, u64 k, const u8 *ticks, u64 n, u8 *out, u64 room);
u64 plain_run(const u8 *platform, u64 p, const u8 *tasks, u64 k, const u8 *ticks, u64 n, u8 *out, u64 room);

#endif
