/* The products and quotients of program.rt.txt by FLINT's nmod_poly. */
#include <flint/flint.h>
#include <flint/nmod_poly.h>
#include <stdint.h>
#include <stdio.h>
#include <time.h>

static double now(void) {
    struct timespec t;
    clock_gettime(CLOCK_MONOTONIC, &t);
    return t.tv_sec * 1e9 + t.tv_nsec;
}

static void dense(nmod_poly_t p, uint64_t state, long n) {
    for (long i = 0; i < n; i++) {
        state = state * 6364136223846793005u + 1442695040888963407u;
        nmod_poly_set_coeff_ui(p, i, (state >> 33) % 97);
    }
}

static void measure(long n, long times) {
    nmod_poly_t a, b, c, q, r;
    nmod_poly_init(a, 97);
    nmod_poly_init(b, 97);
    nmod_poly_init(c, 97);
    nmod_poly_init(q, 97);
    nmod_poly_init(r, 97);
    dense(a, 1, n);
    dense(b, 2, n);
    double start = now();
    for (long i = 0; i < times; i++) nmod_poly_mul(c, a, b);
    printf("product %ld %ld %.0f\n", n, times, now() - start);
    start = now();
    for (long i = 0; i < times; i++) nmod_poly_divrem(q, r, c, b);
    printf("quotient %ld %ld %.0f\n", n, times, now() - start);
    nmod_poly_clear(a);
    nmod_poly_clear(b);
    nmod_poly_clear(c);
    nmod_poly_clear(q);
    nmod_poly_clear(r);
}

int main(void) {
    measure(51, 20000);
    measure(501, 300);
    measure(2001, 30);
    return 0;
}
