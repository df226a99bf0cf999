/*
 * Hashing alone: the four places of each row of a list, by the seed rule and by
 * the table of the house seeds, both of the library's own code, and in plain C.
 * Under other seeds the library has no table, and both of its columns are the
 * seed rule.
 */
#include "harness.h"
#include "parts.h"
#include "seeds.h"

#include <stdio.h>

/*
 * Of the archive libhash_rows.a, which bench/run links where this part is run:
 * the exclusive or over all rows of the row's four places in one word. With a
 * table other than 0 a row is hashed as in the library's calls, else by the
 * seed rule.
 */
uint64_t hash_rows(const uint16_t *seeds, size_t seeds_length, const uint16_t *rows,
                   size_t rows_length, uint32_t table);
#pragma weak hash_rows

BASE_DECLARE_HASH(o3);
BASE_DECLARE_HASH(native);

enum { RULE, TABLE, O3, NATIVE, HASHES };
enum { ROWS = 65536, LISTS = 2, ROUNDS = 200 };

/* The long list is read from the second cache level, the short one from the first. */
static const size_t lengths[LISTS] = {ROWS, 1024};

typedef uint64_t hash_list(const uint16_t *seeds, const uint16_t *rows, size_t n);

static uint64_t by_rule(const uint16_t *seeds, const uint16_t *rows, size_t n)
{
    return hash_rows(seeds, THROTTLE_SEEDS, rows, n, 0);
}

static uint64_t by_table(const uint16_t *seeds, const uint16_t *rows, size_t n)
{
    return hash_rows(seeds, THROTTLE_SEEDS, rows, n, 1);
}

static hash_list *const hashes[HASHES] = {
    [RULE] = by_rule,
    [TABLE] = by_table,
    [O3] = o3_hash,
    [NATIVE] = native_hash,
};

static uint16_t seeds[THROTTLE_SEEDS];
static uint16_t rows[ROWS];

/*
 * All must hash each row alike. The word of a whole list would not show it: it
 * is the word of the rows' exclusive or.
 */
static void compare_rows(void)
{
    for (size_t i = 0; i < ROWS; i++) {
        uint16_t row = (uint16_t)i;
        uint64_t word = hashes[RULE](seeds, &row, 1);
        for (size_t k = 1; k < HASHES; k++)
            if (hashes[k](seeds, &row, 1) != word)
                fail("hashes differ");
    }
}

static void fill_rows(void)
{
    uint64_t x = 88172645463325252u;
    for (size_t i = 0; i < ROWS; i++)
        rows[i] = (uint16_t)(next_random(&x) >> 24);
}

/* The shortest time of each, in nanoseconds a row, for the first n rows again and again. */
static void measure_hashes(size_t n, double best[HASHES])
{
    for (size_t round = 0; round < ROUNDS; round++) {
        uint64_t sums[HASHES] = {0};
        for (size_t i = 0; i < HASHES; i++) {
            size_t k = (i + round) % HASHES;
            double begin = nanoseconds();
            for (size_t done = 0; done < ROWS; done += n)
                sums[k] = sums[k] * 31 + hashes[k](seeds, rows, n);
            double t = (nanoseconds() - begin) / ROWS;
            if (round == 0 || t < best[k])
                best[k] = t;
        }
        for (size_t k = 1; k < HASHES; k++)
            if (sums[k] != sums[0])
                fail("hashes differ");
    }
}

void run_hashing(void)
{
    if (hash_rows == NULL)
        fail("libhash_rows.a is not linked");
    fill_rows();
    printf("Hashing alone: random rows; nanoseconds a row, best of %d\n\n", ROUNDS);
    printf("%-18s %6s %10s %9s %13s %9s %18s\n", "seeds", "rows", "seed rule", "table",
           "rule / table", "gcc -O3", "-O3 -march=native");
    for (size_t s = 0; s < SEEDINGS; s++) {
        make_seeds(s, seeds);
        compare_rows();
        for (size_t i = 0; i < LISTS; i++) {
            double best[HASHES];
            measure_hashes(lengths[i], best);
            printf("%-18s %6zu %10.2f %9.2f %13.2f %9.2f %18.2f\n", seeds_names[s], lengths[i],
                   best[RULE], best[TABLE], best[RULE] / best[TABLE], best[O3], best[NATIVE]);
        }
    }
    printf("\n");
}
