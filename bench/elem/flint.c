/* The products and inverses of program.rt.txt by FLINT: products of numerators by nmod_poly,
   reduced by the monic equation, and inverses by nmod_poly_mat_solve with the matrix of
   multiplication; both in lowest terms. */
#include <flint/flint.h>
#include <flint/nmod_poly.h>
#include <flint/nmod_poly_mat.h>
#include <stdint.h>
#include <stdio.h>
#include <time.h>

#define MOST 16

typedef struct {
    nmod_poly_t den;
    nmod_poly_t num[MOST];
} element;

static long degree;
static nmod_poly_t equation[MOST];

static double now(void) {
    struct timespec t;
    clock_gettime(CLOCK_MONOTONIC, &t);
    return t.tv_sec * 1e9 + t.tv_nsec;
}

static void dense(nmod_poly_t p, uint64_t state, long n) {
    nmod_poly_zero(p);
    for (long i = 0; i < n; i++) {
        state = state * 6364136223846793005u + 1442695040888963407u;
        nmod_poly_set_coeff_ui(p, i, (state >> 33) % 97);
    }
}

static void init(element *a) {
    nmod_poly_init(a->den, 97);
    for (long i = 0; i < MOST; i++) nmod_poly_init(a->num[i], 97);
}

static void clear(element *a) {
    nmod_poly_clear(a->den);
    for (long i = 0; i < MOST; i++) nmod_poly_clear(a->num[i]);
}

static void lowest(element *a) {
    nmod_poly_t g;
    nmod_poly_init(g, 97);
    nmod_poly_make_monic(g, a->den);
    for (long i = 0; i < degree && nmod_poly_length(g) > 1; i++) nmod_poly_gcd(g, g, a->num[i]);
    mp_limb_t lead = nmod_poly_get_coeff_ui(a->den, nmod_poly_degree(a->den));
    nmod_poly_scalar_mul_nmod(g, g, lead);
    nmod_poly_div(a->den, a->den, g);
    for (long i = 0; i < degree; i++) nmod_poly_div(a->num[i], a->num[i], g);
    nmod_poly_clear(g);
}

static void reduce(element *a, long rows) {
    nmod_poly_t t;
    nmod_poly_init(t, 97);
    for (long i = rows - 1; i >= degree; i--) {
        for (long j = 0; j < degree; j++) {
            nmod_poly_mul(t, a->num[i], equation[j]);
            nmod_poly_sub(a->num[i - degree + j], a->num[i - degree + j], t);
        }
        nmod_poly_zero(a->num[i]);
    }
    nmod_poly_clear(t);
}

static void product(element *c, const element *a, const element *b) {
    nmod_poly_t t;
    nmod_poly_init(t, 97);
    for (long i = 0; i < 2 * degree - 1; i++) nmod_poly_zero(c->num[i]);
    for (long i = 0; i < degree; i++)
        for (long j = 0; j < degree; j++) {
            nmod_poly_mul(t, a->num[i], b->num[j]);
            nmod_poly_add(c->num[i + j], c->num[i + j], t);
        }
    reduce(c, 2 * degree - 1);
    nmod_poly_mul(c->den, a->den, b->den);
    lowest(c);
    nmod_poly_clear(t);
}

static void inverse(element *c, const element *a) {
    nmod_poly_mat_t m, x, one;
    nmod_poly_mat_init(m, degree, degree, 97);
    nmod_poly_mat_init(x, degree, 1, 97);
    nmod_poly_mat_init(one, degree, 1, 97);
    nmod_poly_one(nmod_poly_mat_entry(one, 0, 0));
    element power;
    init(&power);
    for (long i = 0; i < degree; i++) nmod_poly_set(power.num[i], a->num[i]);
    for (long j = 0; j < degree; j++) {
        for (long i = 0; i < degree; i++) nmod_poly_set(nmod_poly_mat_entry(m, i, j), power.num[i]);
        for (long i = degree; i > 0; i--) nmod_poly_swap(power.num[i], power.num[i - 1]);
        reduce(&power, degree + 1);
    }
    nmod_poly_mat_solve(x, c->den, m, one);
    for (long i = 0; i < degree; i++)
        nmod_poly_mul(c->num[i], nmod_poly_mat_entry(x, i, 0), a->den);
    lowest(c);
    clear(&power);
    nmod_poly_mat_clear(m);
    nmod_poly_mat_clear(x);
    nmod_poly_mat_clear(one);
}

static void fill(element *a, uint64_t seed, long n) {
    for (long i = 0; i < degree; i++) dense(a->num[i], seed + i, n);
    dense(a->den, seed + 50, n);
    lowest(a);
}

static void measure(long n_y, long n, long times) {
    degree = n_y;
    for (long i = 0; i < degree; i++) {
        nmod_poly_init(equation[i], 97);
        dense(equation[i], 100 + i, 13);
    }
    element a, b, c;
    init(&a);
    init(&b);
    init(&c);
    fill(&a, 1, n);
    fill(&b, 1000, n);
    double start = now();
    for (long i = 0; i < times; i++) product(&c, &a, &b);
    printf("product %ld %ld %ld %.0f %ld\n", degree, n, times, now() - start,
           nmod_poly_length(c.den));
    start = now();
    for (long i = 0; i < times; i++) inverse(&c, &a);
    printf("inverse %ld %ld %ld %.0f %ld\n", degree, n, times, now() - start,
           nmod_poly_length(c.den));
    clear(&a);
    clear(&b);
    clear(&c);
    for (long i = 0; i < degree; i++) nmod_poly_clear(equation[i]);
}

int main(void) {
    measure(2, 11, 2000);
    measure(2, 51, 200);
    measure(4, 11, 200);
    measure(4, 51, 20);
    measure(6, 11, 50);
    measure(6, 51, 5);
    return 0;
}
