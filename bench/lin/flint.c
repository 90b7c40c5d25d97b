/* Times row reduction, null space and solution of the matrices of program.rt.txt by FLINT's
   nmod_mat, in nanoseconds. */
#include <flint/flint.h>
#include <flint/nmod_mat.h>
#include <inttypes.h>
#include <stdio.h>
#include <time.h>

static uint64_t state;

static ulong next_entry(ulong p)
{
    state = state * UINT64_C(6364136223846793005) + UINT64_C(1442695040888963407);
    return (state >> 33) % p;
}

static uint64_t now(void)
{
    struct timespec t;
    clock_gettime(CLOCK_MONOTONIC, &t);
    return (uint64_t)t.tv_sec * UINT64_C(1000000000) + (uint64_t)t.tv_nsec;
}

static void measure(ulong p, slong n)
{
    nmod_mat_t rows, columns, copy, null, rhs, found;
    uint64_t start, nanos;
    slong rank;
    int solved;

    state = 1;
    nmod_mat_init(rows, n, n, p);
    nmod_mat_init(columns, n, n, p);
    nmod_mat_init(copy, n, n, p);
    nmod_mat_init(null, n, n, p);
    nmod_mat_init(rhs, n, 1, p);
    nmod_mat_init(found, n, 1, p);
    for (slong i = 0; i < n; i++)
        for (slong j = 0; j < n; j++)
            nmod_mat_entry(rows, i, j) = next_entry(p);
    for (slong i = 0; i < n; i++)
        nmod_mat_entry(rhs, i, 0) = next_entry(p);

    nmod_mat_set(copy, rows);
    start = now();
    rank = nmod_mat_rref(copy);
    nanos = now() - start;
    printf("%" PRIu64 " %" PRId64 " span %" PRIu64 " %" PRId64 "\n", (uint64_t)p, (int64_t)n,
           nanos, (int64_t)rank);

    start = now();
    rank = nmod_mat_nullspace(null, rows);
    nanos = now() - start;
    printf("%" PRIu64 " %" PRId64 " kernel %" PRIu64 " %" PRId64 "\n", (uint64_t)p, (int64_t)n,
           nanos, (int64_t)rank);

    nmod_mat_transpose(columns, rows);
    start = now();
    solved = nmod_mat_can_solve(found, columns, rhs);
    nanos = now() - start;
    printf("%" PRIu64 " %" PRId64 " solve %" PRIu64 " %s\n", (uint64_t)p, (int64_t)n, nanos,
           solved ? "true" : "false");

    nmod_mat_clear(rows);
    nmod_mat_clear(columns);
    nmod_mat_clear(copy);
    nmod_mat_clear(null);
    nmod_mat_clear(rhs);
    nmod_mat_clear(found);
}

int main(void)
{
    ulong primes[2] = {2, 97};
    slong sizes[3] = {50, 200, 500};

    for (int i = 0; i < 2; i++)
        for (int j = 0; j < 3; j++)
            measure(primes[i], sizes[j]);
    flint_cleanup();
    return 0;
}
