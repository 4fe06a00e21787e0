/* Writes each of the stored texts to a file of its own, 0001.vhd and so on, and prints how the command's line about it has to begin.
   Usage: unpack ANSWERS < TEXTS, with the stored answers. */
#include <stdio.h>
#include <stdlib.h>
#include <string.h>

static char text[70000];
static size_t length;

static void fail(const char *why)
{
    fprintf(stderr, "%s\n", why);
    exit(2);
}

/* Adds a piece of the file, so many times, to the text. */
static void add_piece(void)
{
    unsigned times, n, k;
    if (scanf("%5u %5u", &times, &n) != 2 || getchar() != '\n' || length + (times > 0 ? times : 1) * n > sizeof text)
        fail("a piece does not begin as it should");
    if (fread(text + length, 1, n, stdin) != n || getchar() != '\n')
        fail("a piece is cut");
    for (k = 1; k < times; k++)
        memcpy(text + length + k * n, text + length, n);
    length += times * n;
}

/* Prints the line and the column of a place, by looking back from it: a line ends with LF, CR LF or a CR alone. */
static void print_place(size_t place)
{
    size_t column = 1, line = 1, k;
    int is_first = 1;
    for (k = place; k > 0; k--) {
        int ends = text[k - 1] == '\n' || (text[k - 1] == '\r' && (k == length || text[k] != '\n'));
        line += (size_t)ends;
        is_first = is_first && !ends;
        column += (size_t)is_first;
    }
    printf(":%lu:%lu", (unsigned long)line, (unsigned long)column);
}

/* Prints what is due of the text with a number, by its stored answer. */
static void print_due(unsigned number, const char *answer)
{
    unsigned long first, second, third;
    if (sscanf(answer, "accepted %lu %lu %lu", &first, &second, &third) == 3)
        printf("%04u.vhd: accepted, with %lu signals, %lu processes and %lu instructions\n", number, first, second, third);
    else {
        printf("%04u.vhd", number);
        if (sscanf(answer, "refused %lu %lu", &first, &second) == 2)
            print_place(second);
        printf(": refused %lu:\n", first);
    }
}

int main(int count, char **words)
{
    unsigned pieces, number;
    char name[32], answer[100];
    FILE *answers = count == 2 ? fopen(words[1], "r") : NULL, *file;
    for (number = 1; answers && scanf("text %4u", &pieces) == 1 && getchar() == '\n' && fgets(answer, sizeof answer, answers); number++) {
        for (length = 0; pieces > 0; pieces--)
            add_piece();
        snprintf(name, sizeof name, "%04u.vhd", number);
        file = fopen(name, "wb");
        if (!file || fwrite(text, 1, length, file) != length || fclose(file) != 0)
            fail("a text cannot be written");
        print_due(number, answer);
    }
    return !answers || !feof(stdin);
}
