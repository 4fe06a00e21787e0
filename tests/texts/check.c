/* Reads the stored texts through the C library and prints a line for each, as they are stored. Usage: check < TEXTS.
   The header call has to accept and refuse as the read call does. */
#include "compassnail.h"

#include <stdio.h>
#include <stdlib.h>
#include <string.h>

static uint64_t table[COMPASSNAIL_TABLE_WORDS];
static uint8_t out[COMPASSNAIL_OUT_BYTES];

static void fail(const char *why)
{
    fprintf(stderr, "%s\n", why);
    exit(2);
}

/* Adds a piece of the file to a text that grows. */
static uint8_t *add_piece(uint8_t *text, size_t *length)
{
    unsigned times, n;
    uint8_t *piece;
    if (scanf("%5u %5u", &times, &n) != 2 || getchar() != '\n')
        fail("a piece does not begin as it should");
    piece = malloc(n + 1);
    text = realloc(text, *length + (size_t)times * n + 1);
    if (!piece || !text || fread(piece, 1, n, stdin) != n || getchar() != '\n')
        fail("a piece is cut");
    for (; times > 0; times--, *length += n)
        memcpy(text + *length, piece, n);
    free(piece);
    return text;
}

static void answer(const uint8_t *text, size_t length)
{
    uint64_t read = compassnail_read(text, length, table, COMPASSNAIL_TABLE_WORDS);
    uint64_t header = compassnail_header(text, length, out, sizeof out);
    if (compassnail_is_refusal(read) ? read != header : compassnail_kind(header) != COMPASSNAIL_DONE)
        fail("read and header do not agree");
    if (compassnail_has_place(read))
        printf("refused %u %llu\n", compassnail_kind(read), (unsigned long long)compassnail_detail(read));
    else if (compassnail_is_refusal(read))
        printf("refused %u\n", compassnail_kind(read));
    else
        printf("accepted %llu %llu %llu\n", (unsigned long long)table[0], (unsigned long long)table[1], (unsigned long long)table[2]);
}

int main(void)
{
    unsigned pieces;
    while (scanf("text %4u", &pieces) == 1) {
        size_t length = 0;
        uint8_t *text = malloc(1);
        if (getchar() != '\n')
            fail("a text does not begin as it should");
        for (; pieces > 0; pieces--)
            text = add_piece(text, &length);
        answer(text, length);
        free(text);
    }
    if (!feof(stdin))
        fail("there is more than texts");
    return 0;
}
