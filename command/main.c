/* `compassnail`: a command for people over the library. This file takes the words of the command line apart. */
#include "commands.h"

#include <stdio.h>
#include <string.h>

/* Takes the option of a word, and of the next one where it has an argument. Answers how many words it took, or 0 where the command
   has no such option. */
static int take_option(struct given *given, const char *word, const char *next)
{
    if (!strchr(given->command->takes, word[1]) || word[1] == '-' || (word[1] == 'q' && word[2]))
        return 0;
    if (word[1] == 'q') {
        given->is_quiet = 1;
        return 1;
    }
    given->out = word[2] ? word + 2 : next;
    return word[2] ? 1 : next ? 2 : 0;
}

/* Takes all words behind the command's name: options wherever they stand, up to `--`. Answers 0 where they are wrong. */
static int take_words(struct given *given, char **words)
{
    int only_words = 0;
    given->words = words;
    while (*words) {
        int taken = 1;
        if (!only_words && strcmp(*words, "--") == 0)
            only_words = 1;
        else if (!only_words && words[0][0] == '-' && words[0][1])
            taken = take_option(given, words[0], words[1]);
        else
            given->words[given->count++] = *words;
        if (taken == 0)
            return bad_usage(given->command, "`%s` is no option here, or lacks its argument", *words) == DONE;
        words += taken;
    }
    return 1;
}

/* Whether one of the words asks for help. */
static int asks_help(char **words)
{
    while (*words && strcmp(*words, "--") != 0) {
        if (strcmp(*words, "--help") == 0 || strcmp(*words, "-h") == 0)
            return 1;
        words++;
    }
    return 0;
}

/* Whether a word is an integer and a unit in one. */
static int is_joined(const char *word)
{
    size_t digits = strspn(word, "0123456789");
    return digits > 0 && word[digits];
}

static enum status run_command(struct given *given, char **words)
{
    if (asks_help(words))
        return say_help(given->command);
    if (!take_words(given, words))
        return BAD_USAGE;
    if (given->count == 2 && given->command->least == 3 && is_joined(given->words[1]))
        return bad_usage(given->command, "`%s` has to be two words, an integer and a unit, as in `10 ns`", given->words[1]);
    if (given->count < given->command->least || given->count > given->command->most)
        return bad_usage(given->command, "%d word%s given", given->count, given->count == 1 ? " is" : "s are");
    return given->command->run(given);
}

int main(int count, char **words)
{
    struct given given = {NULL, NULL, 0, NULL, 0};
    const char *name = count < 2 ? "" : words[1];
    enum status status;
    if (strcmp(name, "--help") == 0 || strcmp(name, "-h") == 0)
        name = "help";
    if (strcmp(name, "--version") == 0)
        name = "version";
    given.command = command_of(name);
    if (given.command)
        status = run_command(&given, words + 2);
    else
        status = count < 2 ? bad_usage(NULL, "a command is missing") : bad_usage(NULL, "`%s` is no command", name);
    if (fflush(stdout) != 0 || ferror(stdout)) {
        perror("compassnail: standard output cannot be written");
        return BAD_USAGE;
    }
    return (int)status;
}
