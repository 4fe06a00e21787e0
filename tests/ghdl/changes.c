/* Compares a dump on standard input with the changes that were recorded of another simulator, change by change.
   Usage: changes FILE.changes < dump. The exit status is 0 where they are the same. tests/ghdl/record says what such a file holds. */
#include <stdio.h>
#include <stdlib.h>
#include <string.h>

enum { LINE = 8192, SIGNALS = 64 };

static char names[SIGNALS][64];
static unsigned signals;
static char values[SIGNALS]; /* 0 while it has none */
static unsigned long lines;  /* compared */

/* The next line of the recorded file has to be this one. */
static void compare(FILE *recorded, const char *due)
{
    char line[LINE];
    lines++;
    if (!fgets(line, sizeof line, recorded))
        strcpy(line, "");
    line[strcspn(line, "\n")] = 0;
    if (strcmp(line, due) == 0)
        return;
    printf("line %lu differs\n  recorded: %s\n  dumped:   %s\n", lines, line, due);
    exit(1);
}

static void take_name(const char *line)
{
    char identifier;
    if (signals == SIGNALS || sscanf(line, "$var wire 1 %c %63s $end", &identifier, names[signals]) != 2 || identifier != 33 + (int)signals) {
        printf("a bad line: %s\n", line);
        exit(1);
    }
    signals++;
}

static void compare_names(FILE *recorded)
{
    char due[LINE] = "signals";
    for (unsigned k = 0; k < signals; k++) {
        strcat(due, " ");
        strcat(due, names[k]);
    }
    compare(recorded, due);
}

/* A value and its identifier: a line of the dump has to change it. */
static void take_value(const char *line, char *due)
{
    int k = line[1] - 33;
    if (k < 0 || k >= (int)signals || line[2] != 0 || values[k] == line[0]) {
        printf("a bad line: %s\n", line);
        exit(1);
    }
    values[k] = line[0];
    strcat(due, line[0] == '1' ? " +" : " -");
    strcat(due, names[k]);
}

int main(int count, char **arguments)
{
    char line[LINE], due[LINE] = "";
    FILE *recorded = count == 2 ? fopen(arguments[1], "r") : NULL;
    if (!recorded || !fgets(line, sizeof line, recorded) || strncmp(line, "stop ", 5) != 0) {
        printf("no recorded changes\n");
        return 2;
    }
    lines = 1;
    while (fgets(line, sizeof line, stdin)) {
        line[strcspn(line, "\n")] = 0;
        if (strncmp(line, "$var ", 5) == 0) {
            take_name(line);
        } else if (line[0] == '#') {
            if (due[0])
                compare(recorded, due);
            else
                compare_names(recorded);
            snprintf(due, sizeof due, "%s", line + 1);
        } else if (line[0] == '0' || line[0] == '1') {
            take_value(line, due);
        } else if (line[0] != '$') {
            printf("a bad line: %s\n", line);
            return 1;
        }
    }
    compare(recorded, due);
    compare(recorded, "");
    return 0;
}
