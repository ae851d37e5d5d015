/* The interface tried from C: wrong lengths, null with length 0, garbage states. Prints nothing and
 * ends with 0 where all is well. */
#include "purkvaldi.h"
#include <stdio.h>
#include <string.h>

enum { WORDS = PURKVALDI_STATE_WORDS, OUT = PURKVALDI_LISTING_BYTES };

/* 01's three-line file: one module, which does nothing. */
static const char three[] = "0001000000010000\n1000000000000000\n0200000100000000\n";
/* The same, the module first; and with a frame that is its own child. */
static const char drawn[] = "0001000000010000\n0200000200000000\n1000000000000000\n";
static const char circle[] = "0001000000010000\n0200000200000000\n1202000200000000\n";
/* main stores in a shared cell its content twice: two reads and a store */
static const char twice[] = "0001000000010000\n0102000100000000\n2300000000000000\n"
                            "2300000000000000\n2500000300000000\n2300000000000000\n"
                            "2500000500000000\n2600000400060000\n1700000200070000\n"
                            "0200000800000000\n";
/* main awaits home's one event, which nobody generates */
static const char awaits[] = "0001000000010001\n0302000000000000\n1B00000000000000\n"
                             "0200000200000000\n";
/* The events' flags begin here (docs/STATE.md), and thread 1 awaits event 0 as such an entry. */
enum { EVENTS = 4562, AWAITING = 16385 };
static uint64_t state[WORDS + 1];
static uint64_t before[WORDS + 1];
static uint8_t out[OUT + 1];
static uint8_t out_before[OUT + 1];
static int failures;

static void expect(const char *what, uint64_t code, uint64_t wanted)
{
    if (code != wanted) {
        printf("%s: %09llX, not %09llX\n", what, (unsigned long long)code,
               (unsigned long long)wanted);
        failures++;
    }
}

/* A refused call leaves every word. */
static void refused(const char *what, size_t words, uint64_t choice, uint32_t wanted)
{
    memcpy(before, state, sizeof state);
    expect(what, purkvaldi_step((const uint8_t *)three, sizeof three - 1, state, words, choice),
           wanted);
    if (memcmp(before, state, sizeof state) != 0) {
        printf("%s: a refused step wrote\n", what);
        failures++;
    }
}

/* A listing that a buffer cannot take leaves both buffers. */
static void unprinted(const char *what, const uint8_t *text, size_t length, size_t words,
                      size_t bytes, uint32_t wanted)
{
    uint64_t result;
    memcpy(before, state, sizeof state);
    memcpy(out_before, out, sizeof out);
    result = purkvaldi_run(text, length, (const uint8_t *)"02\n", 3, state, words, out, bytes);
    expect(what, PURKVALDI_CODE(result), wanted);
    if (PURKVALDI_SIZE(result) != 0 || memcmp(before, state, sizeof state) != 0 ||
        memcmp(out_before, out, sizeof out) != 0) {
        printf("%s: a listing without its buffers wrote\n", what);
        failures++;
    }
}

/* A listing that is written, with that code, and no byte after it. */
static void printed(const char *what, const uint8_t *text, size_t length, const char *choices,
                    size_t words, uint32_t code, const char *wanted)
{
    uint64_t result;
    size_t size = strlen(wanted);
    memset(out, 7, sizeof out);
    memset(out_before, 7, sizeof out);
    memcpy(out_before, wanted, size);
    result = purkvaldi_run(text, length, (const uint8_t *)choices, strlen(choices), state, words,
                           out, OUT);
    expect(what, PURKVALDI_CODE(result), code);
    if (PURKVALDI_SIZE(result) != size || memcmp(out, out_before, sizeof out) != 0) {
        printf("%s: another listing\n", what);
        failures++;
    }
}

/* Choices that cannot be stepped leave the state and the answers. */
static void unstepped(const char *what, const uint8_t *text, size_t length, size_t words,
                      size_t count, uint32_t wanted)
{
    static const uint8_t choices[3] = {2, 2, 2};
    uint64_t answers[4] = {7, 7, 7, 7};
    int i;
    memcpy(before, state, sizeof state);
    expect(what,
           purkvaldi_steps(text, length, state, words, choices, sizeof choices, answers, count),
           wanted);
    for (i = 0; i < 4; i++)
        expect(what, answers[i], 7);
    if (memcmp(before, state, sizeof state) != 0) {
        printf("%s: refused choices wrote\n", what);
        failures++;
    }
}

/* A text that cannot be laid out leaves the buffer. */
static void unwritten(const char *what, const char *text, size_t length, size_t bytes,
                      uint32_t wanted)
{
    memset(out, 7, sizeof out);
    memset(out_before, 7, sizeof out);
    expect(what, purkvaldi_arrange((const uint8_t *)text, length, out, bytes), wanted);
    if (memcmp(out, out_before, sizeof out) != 0) {
        printf("%s: a refused text wrote\n", what);
        failures++;
    }
}

int main(void)
{
    static const uint8_t many[6] = {2, 3, 2, 255, 2, 0};
    static const uint64_t codes[6] = {0x000001, 0x0F0000, 0x000001, 0x0F0000, 0x100000, 0x0F0000};
    uint64_t answers[7];
    const uint8_t *text = (const uint8_t *)three;
    size_t length = sizeof three - 1;
    size_t i;
    expect("check", purkvaldi_check(text, length), 0);
    expect("check of nothing", purkvaldi_check(NULL, 0), 0x010000);
    expect("check without the last line feed", purkvaldi_check(text, length - 1), 0x030002);
    expect("length", (uint32_t)purkvaldi_state_length(), WORDS);

    /* the three lines, the module first; then with a child that there is not, with a circle */
    memset(out, 7, sizeof out);
    expect("a drawn file", purkvaldi_arrange((const uint8_t *)drawn, length, out, length), 0);
    if (memcmp(out, three, length) != 0 || out[length] != 7) {
        printf("a drawn file: other lines\n");
        failures++;
    }
    expect("nothing to arrange", purkvaldi_arrange(NULL, 0, NULL, 0), 0x010000);
    unwritten("a shorter buffer", drawn, length, length - 1, 0x0E0000);
    unwritten("a longer buffer", drawn, length, length + 1, 0x0E0000);
    unwritten("without the last line", drawn, 34, 34, 0x150001);
    unwritten("without a module, too short a buffer", drawn, 17, 1, 0x060000);
    unwritten("a circle", circle, length, length, 0x150002);

    expect("fresh of no text", purkvaldi_fresh(NULL, 0, state, WORDS), 0x010000);
    expect("fresh in no state", purkvaldi_fresh(text, length, NULL, 0), 0x0E0000);
    expect("fresh in a shorter state", purkvaldi_fresh(text, length, state, WORDS - 1), 0x0E0000);
    expect("fresh in a longer state", purkvaldi_fresh(text, length, state, WORDS + 1), 0x0E0000);
    for (i = 0; i <= WORDS; i++)
        if (state[i] != 0)
            failures++;
    expect("fresh", purkvaldi_fresh(text, length, state, WORDS), 0);

    /* 'choices 02, 02, 02 answer 0, 0, 16' */
    expect("first choice", purkvaldi_step(text, length, state, WORDS, 2), 0x000001);
    expect("second choice", purkvaldi_step(text, length, state, WORDS, 2), 0x000001);
    refused("third choice", WORDS, 2, 0x100000);
    refused("no such party", WORDS, 3, 0x0F0000);
    refused("a party beyond all", WORDS, UINT64_MAX, 0x0F0000);
    refused("a shorter state", WORDS - 1, 2, 0x0E0000);
    refused("a longer state", WORDS + 1, 2, 0x0E0000);
    expect("a step on no state", purkvaldi_step(text, length, NULL, 0, 2), 0x0E0000);
    expect("a step of no text", purkvaldi_step(NULL, 0, state, WORDS, 2), 0x010000);

    memset(state, 0xFF, sizeof state);
    refused("all ones", WORDS, 2, 0x0E0000);
    memset(state, 0, sizeof state);
    refused("all zeros", WORDS, 2, 0x100000);
    expect("fresh again", purkvaldi_fresh(text, length, state, WORDS), 0);
    for (i = 0; i < WORDS; i++) {
        uint64_t kept = state[i];
        state[i] = UINT64_MAX;
        refused("one word changed", WORDS, 2, 0x0E0000);
        state[i] = kept;
    }

    /* a step says how many cells it read, stored in and made, alone and among many */
    expect("fresh of a store",
           purkvaldi_fresh((const uint8_t *)twice, sizeof twice - 1, state, WORDS), 0);
    memcpy(before, state, sizeof state);
    expect("a store of a sum",
           purkvaldi_step((const uint8_t *)twice, sizeof twice - 1, state, WORDS, 2),
           UINT64_C(0x300000001));
    expect("choices of a store",
           purkvaldi_steps((const uint8_t *)twice, sizeof twice - 1, before, WORDS, many, 3,
                           answers, 3),
           0);
    expect("a store among many", answers[0], UINT64_C(0x300000001));
    expect("no party among many", answers[1], 0x0F0000);
    expect("an end among many", answers[2], 0x000001);
    expect("fresh of three lines", purkvaldi_fresh(text, length, state, WORDS), 0);

    /* an await: of an absent event, ready at the instant's end; then of a present one */
    text = (const uint8_t *)awaits;
    length = sizeof awaits - 1;
    expect("check of an await", purkvaldi_check(text, length), 0);
    expect("fresh of an await", purkvaldi_fresh(text, length, state, WORDS), 0);
    expect("an await", purkvaldi_step(text, length, state, WORDS, 2), 0x000001);
    expect("its entry, alone in the next list", state[67] == 1 ? state[68] : 0, AWAITING);
    expect("an instant's end", purkvaldi_step(text, length, state, WORDS, 2), 0x000000);
    state[EVENTS] = 2;
    expect("a flag over 1", purkvaldi_step(text, length, state, WORDS, 2), 0x0E0000);
    state[EVENTS] = 1;
    state[EVENTS + 1] = 1;
    expect("the flag of no event", purkvaldi_step(text, length, state, WORDS, 2), 0x0E0000);
    state[EVENTS + 1] = 0;
    expect("an await that passes", purkvaldi_step(text, length, state, WORDS, 2), 0x000001);
    expect("its event stays present", state[EVENTS], 1);
    expect("the end after an await", purkvaldi_step(text, length, state, WORDS, 2), 0x000001);
    text = (const uint8_t *)three;
    length = sizeof three - 1;
    expect("fresh of three lines again", purkvaldi_fresh(text, length, state, WORDS), 0);

    /* many choices in one call: what a call for each gives, whether it is done or refused */
    unstepped("choices with too few answers", text, length, WORDS, 2, 0x0E0000);
    unstepped("choices with too many answers", text, length, WORDS, 4, 0x0E0000);
    unstepped("choices on a shorter state", text, length, WORDS - 1, 3, 0x0E0000);
    unstepped("choices of no text with too few answers", NULL, 0, WORDS, 2, 0x010000);
    expect("no choices", purkvaldi_steps(text, length, state, WORDS, NULL, 0, NULL, 0), 0);
    answers[6] = 7;
    expect("choices", purkvaldi_steps(text, length, state, WORDS, many, 6, answers, 6), 0);
    for (i = 0; i < 6; i++)
        expect("a choice among many", answers[i], codes[i]);
    expect("after the answers", answers[6], 7);
    refused("after the choices", WORDS, 2, 0x100000);
    state[0] = UINT64_MAX;
    unstepped("choices on a changed state", text, length, WORDS, 3, 0x0E0000);
    expect("no choices on a changed state",
           purkvaldi_steps(text, length, state, WORDS, NULL, 0, NULL, 0), 0x0E0000);

    /* the listing of a run: the code is the text's refusal 1 to 7, else 14, else 0; the line of a
     * refused text is in a buffer of the right length */
    expect("listing length", (uint32_t)purkvaldi_listing_length(), OUT);
    unprinted("a run in a shorter buffer", text, length, WORDS, OUT - 1, 0x0E0000);
    unprinted("a run in a longer buffer", text, length, WORDS, OUT + 1, 0x0E0000);
    unprinted("a run on a shorter state", text, length, WORDS - 1, OUT, 0x0E0000);
    unprinted("a run of no text in a shorter buffer", NULL, 0, WORDS, OUT - 1, 0x010000);
    unprinted("a run of half a text on a shorter state in a longer buffer", text, length - 8,
              WORDS - 1, OUT + 1, 0x030002);
    expect("a run in no buffer",
           PURKVALDI_CODE(purkvaldi_run(text, length, NULL, 0, NULL, 0, NULL, 0)), 0x0E0000);
    printed("a run", text, length, "02\n02\n02\n", WORDS, 0,
            "00 0000\n02 00 01 0000 0000\n02 00 01 0000 0000\n02 10 00 0000 0000\n0003\n");
    printed("a run of no text", NULL, 0, "", WORDS, 0x010000, "01 0000\n");
    printed("a run of no text on a shorter state", NULL, 0, "02\n", WORDS - 1, 0x010000,
            "01 0000\n");
    printed("a run of half a text", text, length - 8, "02\n", WORDS, 0x030002, "03 0002\n");
    return failures != 0;
}
