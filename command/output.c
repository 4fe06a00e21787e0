/* Where a dump goes: standard output, or a file that appears only when all of it is written. Such a file is written beside its place and
   renamed; an interrupt removes it. */
#define _XOPEN_SOURCE 700
#include "output.h"

#include <errno.h>
#include <fcntl.h>
#include <signal.h>
#include <stdlib.h>
#include <string.h>
#include <sys/stat.h>
#include <unistd.h>

static const char *unfinished; /* the file that an interrupt removes */

static void interrupt(int number)
{
    if (unfinished)
        unlink(unfinished);
    signal(number, SIG_DFL);
    raise(number);
}

/* Says that the output cannot be written, and why. */
static int complain(struct output *output)
{
    fprintf(stderr, "compassnail: %s cannot be written: %s\n", output->name, strerror(errno));
    free(output->beside);
    free(output->file);
    return 0;
}

/* The file that a name leads to, and the name of one beside it. */
static int name_files(struct output *output, const char *name)
{
    size_t room;
    output->file = realpath(name, NULL);
    if (!output->file)
        output->file = strdup(name);
    room = output->file ? strlen(output->file) + 32 : 0;
    output->beside = malloc(room + 1);
    if (!output->file || !output->beside)
        return 0;
    snprintf(output->beside, room, "%s.%ld.part", output->file, (long)getpid());
    return 1;
}

int open_output(struct output *output, const char *name)
{
    static const struct output standard = {NULL, "standard output", NULL, NULL};
    struct stat found;
    int file;
    *output = standard;
    output->stream = stdout;
    if (!name || strcmp(name, "-") == 0)
        return 1;
    output->name = name;
    if (stat(name, &found) == 0 && !S_ISREG(found.st_mode)) {
        output->stream = fopen(name, "wb"); /* a device or a pipe: nothing is left behind in it */
        return output->stream ? 1 : complain(output);
    }
    if (!name_files(output, name) || (access(name, F_OK) == 0 && access(name, W_OK) != 0))
        return complain(output);
    file = open(output->beside, O_WRONLY | O_CREAT | O_EXCL, 0666);
    output->stream = file < 0 ? NULL : fdopen(file, "wb");
    if (!output->stream)
        return complain(output);
    unfinished = output->beside;
    signal(SIGINT, interrupt);
    signal(SIGTERM, interrupt);
    signal(SIGHUP, interrupt);
    return 1;
}

int close_output(struct output *output, int whole)
{
    int written = !ferror(output->stream) && fflush(output->stream) == 0, renamed = 1;
    if (output->stream != stdout)
        written = fclose(output->stream) == 0 && written;
    if (output->beside) {
        renamed = !(written && whole) || rename(output->beside, output->file) == 0;
        if (!(written && whole && renamed))
            unlink(output->beside);
        unfinished = NULL;
    }
    if (!written || !renamed)
        return complain(output);
    free(output->beside);
    free(output->file);
    return 1;
}
