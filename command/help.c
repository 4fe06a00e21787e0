/* The commands with their help, and what is said where words are wrong. */
#include "commands.h"

#include "compassnail.h"

#include <stdarg.h>
#include <stdio.h>
#include <string.h>

#define FILE_HELP "FILE is a design's text, `-` for standard input.\n"
#define STOP_HELP \
    "INTEGER and UNIT are the stop, as in `10 ns`. A unit is fs, ps, ns, us, ms, sec, min or hr; a stop is at most 1000 sec.\n"
#define QUIET_HELP "  -q      shows no progress\n"

const struct command commands[] = {
    {"dump", 3, 3, "oq", run_dump, "dump FILE INTEGER UNIT [-o OUT] [-q]",
     "Writes the value change dump of a design up to a stop.\n\n" FILE_HELP STOP_HELP
     "  -o OUT  writes the file OUT, which appears only when the dump is whole; else the dump goes to standard output\n" QUIET_HELP},
    {"trace", 3, 3, "q", run_trace, "trace FILE INTEGER UNIT [-q]",
     "Prints a line for each call of a design's run up to a stop, with its bytes, time, cycles and steps.\n\n" FILE_HELP STOP_HELP
     QUIET_HELP},
    {"check", 1, 1 << 30, "q", run_check, "check FILE... [-q]",
     "Reads designs without running them, and says how large each is, or why it is refused.\n\n" FILE_HELP
     "  -q      says nothing of a design that is accepted\n"},
    {"help", 0, 1, "", run_help, "help [COMMAND]", "Says how `compassnail` or one of its commands is used.\n"},
    {"version", 0, 0, "", run_version, "version", "Prints the version.\n"},
};
const int command_count = sizeof commands / sizeof *commands;

const struct command *command_of(const char *name)
{
    int k;
    for (k = 0; k < command_count; k++)
        if (strcmp(commands[k].name, name) == 0)
            return &commands[k];
    return NULL;
}

static void say_usages(FILE *stream)
{
    int k;
    for (k = 0; k < command_count; k++)
        fprintf(stream, "%s compassnail %s\n", k == 0 ? "usage:" : "      ", commands[k].usage);
}

enum status bad_usage(const struct command *command, const char *format, ...)
{
    va_list arguments;
    fprintf(stderr, "compassnail%s%s: ", command ? " " : "", command ? command->name : "");
    va_start(arguments, format);
    vfprintf(stderr, format, arguments);
    va_end(arguments);
    fputc('\n', stderr);
    if (command)
        fprintf(stderr, "usage: compassnail %s\n", command->usage);
    else
        say_usages(stderr);
    return BAD_USAGE;
}

enum status say_help(const struct command *command)
{
    printf("usage: compassnail %s\n\n%s", command->usage, command->help);
    return DONE;
}

enum status run_help(const struct given *given)
{
    const struct command *command = given->count > 0 ? command_of(given->words[0]) : NULL;
    if (command)
        return say_help(command);
    if (given->count > 0)
        return bad_usage(given->command, "`%s` is no command", given->words[0]);
    puts("Runs a design of a small VHDL subset and writes its value change dump.\n");
    say_usages(stdout);
    puts("\nThe status is 0 where all is done, 1 where something is refused, and 2 for bad usage or a file that cannot be read or\n"
         "written. `compassnail help COMMAND` says more of a command.");
    return DONE;
}

enum status run_version(const struct given *given)
{
    (void)given;
    puts("compassnail " COMPASSNAIL_VERSION);
    return DONE;
}
