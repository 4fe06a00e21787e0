/* The commands of `compassnail`, and what they are given. */
#ifndef COMMANDS_H
#define COMMANDS_H

enum status { DONE, REFUSED, BAD_USAGE /* or a file that cannot be read or written */ };

struct given {
    const struct command *command;
    char **words; /* those that are no options */
    int count;
    const char *out; /* null where no -o is given */
    int is_quiet;
};

struct command {
    const char *name;
    int least, most;   /* how many words it takes */
    const char *takes; /* its options, by their letters */
    enum status (*run)(const struct given *given);
    const char *usage, *help;
};

extern const struct command commands[];
extern const int command_count;

enum status run_dump(const struct given *given);
enum status run_trace(const struct given *given);
enum status run_check(const struct given *given);
enum status run_help(const struct given *given);
enum status run_version(const struct given *given);

/* The command of a name; null where there is none. */
const struct command *command_of(const char *name);

/* Says how a command is used, on standard output. */
enum status say_help(const struct command *command);

/* Says what is wrong with the words of a command, a format with its arguments, and how it is used. */
enum status bad_usage(const struct command *command, const char *format, ...);

#endif
