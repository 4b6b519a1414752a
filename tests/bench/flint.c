/* Composition, reversion and cut products by FLINT, where its header is installed. Each returns whether it gave an answer. */

#include <stddef.h>
#include <stdint.h>

#if __has_include(<flint/nmod_poly.h>)

#include <flint/nmod_poly.h>

static void begin(nmod_poly_t series, uint32_t p, const uint32_t *list, size_t count)
{
    nmod_poly_init2(series, p, count);
    for (size_t i = 0; i < count; i++)
        nmod_poly_set_coeff_ui(series, i, list[i]);
}

static void copy(uint32_t *out, size_t n, const nmod_poly_t series)
{
    for (size_t i = 0; i < n; i++)
        out[i] = nmod_poly_get_coeff_ui(series, i);
}

int flint_compose(uint32_t p, size_t n, const uint32_t *f, size_t f_count, const uint32_t *g, size_t g_count, uint32_t *out)
{
    nmod_poly_t outer, inner;
    begin(outer, p, f, f_count);
    begin(inner, p, g, g_count);
    nmod_poly_compose_series(outer, outer, inner, n);
    copy(out, n, outer);
    nmod_poly_clear(outer);
    nmod_poly_clear(inner);
    return 1;
}

int flint_reverse(uint32_t p, size_t n, const uint32_t *g, size_t g_count, uint32_t *out)
{
    nmod_poly_t series;
    begin(series, p, g, g_count);
    nmod_poly_revert_series(series, series, n);
    copy(out, n, series);
    nmod_poly_clear(series);
    return 1;
}

/* Horner's rule with cut products, for f that is not empty; the lists are put into FLINT's form once. */
int flint_horner(uint32_t p, size_t n, const uint32_t *f, size_t f_count, const uint32_t *g, size_t g_count, uint32_t *out)
{
    nmod_poly_t value, next, inner;
    begin(value, p, f + f_count - 1, 1);
    begin(inner, p, g, g_count);
    nmod_poly_init2(next, p, n);
    for (size_t i = f_count - 1; i-- > 0;) {
        nmod_poly_mullow(next, value, inner, n);
        nmod_poly_set_coeff_ui(next, 0, nmod_add(nmod_poly_get_coeff_ui(next, 0), f[i], next->mod));
        nmod_poly_swap(value, next);
    }
    copy(out, n, value);
    nmod_poly_clear(value);
    nmod_poly_clear(next);
    nmod_poly_clear(inner);
    return 1;
}

#else

int flint_compose(uint32_t p, size_t n, const uint32_t *f, size_t f_count, const uint32_t *g, size_t g_count, uint32_t *out)
{
    return 0;
}

int flint_reverse(uint32_t p, size_t n, const uint32_t *g, size_t g_count, uint32_t *out)
{
    return 0;
}

int flint_horner(uint32_t p, size_t n, const uint32_t *f, size_t f_count, const uint32_t *g, size_t g_count, uint32_t *out)
{
    return 0;
}

#endif
