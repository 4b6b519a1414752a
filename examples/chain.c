/* Two cycles that differ, x + x^2 and then x + 2 x^2, below x^5, modulo 7: the first is outermost. Prints the answer of the last. */
#include "ruhitapo.h"

#include <stdio.h>

enum { ORDER = 5, COUNT = 3, CYCLES = 2, WORK = RUHITAPO_CYCLE_WORK_PLACES(ORDER, COUNT) };

int main(void)
{
    const uint32_t lists[CYCLES][COUNT] = {{0, 1, 1}, {0, 1, 2}};
    uint32_t running[ORDER] = {0}, work[WORK] = {0};
    uint8_t text[RUHITAPO_TEXT_BYTES(ORDER)] = {0};
    /* were the opening refused, the chain would be zeros, which every cycle refuses */
    ruhitapo_chain chain = ruhitapo_open(7, ORDER, running, ORDER).chain;
    ruhitapo_cycle_answer answer;
    int i;
    for (i = 0; i < CYCLES; i++) {
        answer = ruhitapo_cycle(chain, RUHITAPO_HORNER, lists[i], COUNT, running, ORDER, work, WORK);
        chain = answer.chain;
    }
    fwrite(text, 1, ruhitapo_render(answer.number, ORDER, answer.weight, running, ORDER, text, sizeof text).count, stdout);
    return 0;
}
