/* The loaders' reading of prog.txt, and the check's line. */
#ifndef PROG_H
#define PROG_H
#include "purkvaldi.h"
#include <stdint.h>
#include <stdio.h>

/* Reads at most one byte more than the longest text, so that a longer one is seen to be longer. An
 * absent file reads as empty. */
enum { PROG_ROOM = 17409 };

static size_t read_prog(const char *folder, uint8_t text[PROG_ROOM])
{
    char path[4096];
    FILE *file;
    size_t length;
    snprintf(path, sizeof path, "%s/prog.txt", folder);
    file = fopen(path, "rb");
    if (file == NULL)
        return 0;
    length = fread(text, 1, PROG_ROOM, file);
    fclose(file);
    return length;
}

/* Reads prog.txt and prints what the check says of it, its number and frame. */
static size_t read_checked_prog(const char *folder, uint8_t text[PROG_ROOM])
{
    size_t length = read_prog(folder, text);
    uint32_t code = purkvaldi_check(text, length);
    printf("%02X %04X\n", (unsigned)PURKVALDI_NUMBER(code), (unsigned)PURKVALDI_DETAIL(code));
    return length;
}
#endif
