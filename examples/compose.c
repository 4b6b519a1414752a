/* (1 + 2x + 3x^2) at x + x^2, below x^4, modulo 7; prints the answer and the first prime of the table. */
#include "ruhitapo.h"

#include <inttypes.h>
#include <stdio.h>

enum { ORDER = 4, OUTER = 3, INNER = 3 };

int main(void)
{
    const uint32_t f[OUTER] = {1, 2, 3}, g[INNER] = {0, 1, 1};
    uint32_t out[ORDER] = {0}, work[RUHITAPO_WORK_PLACES(ORDER, OUTER)] = {0};
    uint8_t text[RUHITAPO_TEXT_BYTES(ORDER)] = {0};
    ruhitapo_answer answer = ruhitapo_compose(RUHITAPO_HORNER, 7, ORDER, f, OUTER, g, INNER, out, ORDER,
                                              work, RUHITAPO_WORK_PLACES(ORDER, OUTER));
    ruhitapo_text_answer printed = ruhitapo_render(answer.number, ORDER, answer.weight, out, ORDER, text, sizeof text);
    fwrite(text, 1, printed.count, stdout);
    printf("%" PRIu32 "\n", ruhitapo_prime(0).prime);
    return 0;
}
