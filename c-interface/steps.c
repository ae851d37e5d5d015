/* A loader that steps all choices in one call: reads prog.txt and steps it through the choices on
 * the command line, in hexadecimal, at most 64 at a time. Prints the check's number and frame, then
 * for each choice the choice, the answer, the acting thread and the accesses, as `load`.
 *
 *   steps FOLDER 02 03 03
 */
#include "prog.h"
#include "purkvaldi.h"
#include <stdio.h>
#include <stdlib.h>

enum { MANY = 64 };

static uint8_t text[PROG_ROOM];
static uint64_t state[PURKVALDI_STATE_WORDS];

int main(int count, char **words)
{
    uint8_t choices[MANY];
    uint64_t answers[MANY];
    size_t length;
    int at = 2;
    if (count < 2) {
        fprintf(stderr, "usage: steps FOLDER CHOICE..\n");
        return 2;
    }
    length = read_checked_prog(words[1], text);
    if (PURKVALDI_NUMBER(purkvaldi_fresh(text, length, state, PURKVALDI_STATE_WORDS)) != 0)
        return 0;
    while (at < count) {
        int n = 0, i;
        for (; n < MANY && at < count; n++, at++)
            choices[n] = (uint8_t)strtoul(words[at], NULL, 16);
        /* The state is this program's own, so 14 would be its fault. */
        if (purkvaldi_steps(text, length, state, PURKVALDI_STATE_WORDS, choices, (size_t)n, answers,
                            (size_t)n) != 0)
            return 1;
        for (i = 0; i < n; i++) {
            uint32_t code = PURKVALDI_STEP_CODE(answers[i]);
            printf("%02X %02X %02X %04X\n", choices[i], (unsigned)PURKVALDI_NUMBER(code),
                   (unsigned)PURKVALDI_DETAIL(code), (unsigned)PURKVALDI_ACCESSES(answers[i]));
        }
    }
    return 0;
}
