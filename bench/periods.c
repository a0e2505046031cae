// Tables for rehearsals, in the words of rounds.h. Included by each program that needs them.

// Periods from `shortest` to `longest`, all divisors of l, no two alike while there are as many. The shorter the period
// the lower the number of its task, and a job runs a tick and a twentieth of the period. On 8 cores none is late, on 1
// some job soon is.
static void periods_words(u32 *w, u32 n, u32 cores, u32 l, u32 shortest, u32 longest) {
    u32 divisors[256], found = 0;
    for (u32 d = shortest; d <= longest && found < 256; d++)
        if (l % d == 0) divisors[found++] = d;
    w[0] = n;
    w[1] = cores;
    w[2] = MOST_PARTITIONS;
    for (u32 i = 0; i < n; i++) {
        u32 *row = w + 3 + 4 * i, period = divisors[i * found / n];
        row[0] = row[1] = period;
        row[2] = 1 + period / 20;
        row[3] = 1 + i % 4;
    }
}
