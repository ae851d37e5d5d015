/* A loader: reads prog.txt and steps it through the choices on the command line, in hexadecimal.
 * Prints the check's number and frame, then for each choice the choice, the answer, the acting
 * thread and how many cells the step read, stored in and made.
 *
 *   load FOLDER 02 03 03
 */
#include "prog.h"
#include "purkvaldi.h"
#include <stdio.h>
#include <stdlib.h>

static uint8_t text[PROG_ROOM];
static uint64_t state[PURKVALDI_STATE_WORDS];

int main(int count, char **words)
{
    size_t length;
    uint32_t code;
    int i;
    if (count < 2) {
        fprintf(stderr, "usage: load FOLDER CHOICE..\n");
        return 2;
    }
    length = read_checked_prog(words[1], text);
    if (purkvaldi_state_length() != PURKVALDI_STATE_WORDS)
        return 1;
    code = purkvaldi_fresh(text, length, state, PURKVALDI_STATE_WORDS);
    if (PURKVALDI_NUMBER(code) != 0)
        return 0;
    for (i = 2; i < count; i++) {
        uint64_t choice = strtoull(words[i], NULL, 16);
        uint64_t answer = purkvaldi_step(text, length, state, PURKVALDI_STATE_WORDS, choice);
        code = PURKVALDI_STEP_CODE(answer);
        printf("%02X %02X %02X %04X\n", (unsigned)choice, (unsigned)PURKVALDI_NUMBER(code),
               (unsigned)PURKVALDI_DETAIL(code), (unsigned)PURKVALDI_ACCESSES(answer));
    }
    return 0;
}
