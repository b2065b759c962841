/* FLINT: nmod_poly_roots_factored lists the roots one by one, modulo any factored number below 2^64. At many points
   nmod_poly_evaluate_nmod_vec uses a tree of products; nmod_poly_evaluate_nmod_vec_iter is Horner's rule, which may be
   the faster. */
#include "bench.h"

#include <flint/nmod_poly.h>
#include <flint/nmod_poly_factor.h>

static nmod_poly_t f;

static void set_polynomial(const problem *q)
{
    nmod_poly_init(f, q->modulus);
    for (size_t i = 0; i < q->count; i++)
        nmod_poly_set_coeff_ui(f, (slong)i, (mp_limb_t)(q->f[i] < 0 ? q->f[i] + (int64_t)q->modulus : q->f[i]));
}

/* Roots **************************************************************************************************************/

static nmod_poly_factor_t found;
static n_factor_t prime_power;

static int prepare(const problem *q)
{
    set_polynomial(q);
    nmod_poly_factor_init(found);
    n_factor_init(&prime_power);
    n_factor_insert(&prime_power, q->p, q->n);
    return 1;
}

static int run(void)
{
    return nmod_poly_roots_factored(found, f, 0, &prime_power);
}

static uint64_t root_count(void)
{
    return (uint64_t)found->num;
}

static uint64_t root(uint64_t i)
{
    return nmod_neg(nmod_poly_get_coeff_ui(found->p + i, 0), f->mod);
}

const solver flint = {"FLINT", FLINT_VERSION, prepare, run, root_count, root};

/* Points *************************************************************************************************************/

static mp_ptr points, values;
static slong count;

static void prepare_points(const problem *q, const wimpleclay_query *queries, size_t length)
{
    set_polynomial(q);
    count = (slong)length;
    points = _nmod_vec_init(count);
    values = _nmod_vec_init(count);
    for (slong i = 0; i < count; i++)
        points[i] = queries[i].point;
}

static int run_points(void)
{
    nmod_poly_evaluate_nmod_vec(values, f, points, count);
    return 1;
}

static int run_horner(void)
{
    nmod_poly_evaluate_nmod_vec_iter(values, f, points, count);
    return 1;
}

static int is_root(size_t i)
{
    return values[i] == 0;
}

const tester flint_points = {"FLINT " FLINT_VERSION, prepare_points, run_points, is_root};
const tester flint_horner = {"FLINT, Horner’s rule", prepare_points, run_horner, is_root};
