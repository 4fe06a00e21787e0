/* Runs a command with a pseudo-terminal for its standard error, and prints what arrives there. Usage: terminal COMMAND WORDS.. */
#define _XOPEN_SOURCE 700
#include <fcntl.h>
#include <stdio.h>
#include <stdlib.h>
#include <sys/wait.h>
#include <unistd.h>

int main(int count, char **words)
{
    char bytes[4096];
    ssize_t length;
    int status, own = posix_openpt(O_RDWR | O_NOCTTY), other;
    pid_t child;
    if (count < 2 || own < 0 || grantpt(own) != 0 || unlockpt(own) != 0)
        return 2;
    other = open(ptsname(own), O_RDWR | O_NOCTTY);
    child = other < 0 ? -1 : fork();
    if (child < 0)
        return 2;
    if (child == 0) {
        dup2(other, STDERR_FILENO);
        execvp(words[1], words + 1);
        _exit(127);
    }
    close(other);
    while ((length = read(own, bytes, sizeof bytes)) > 0)
        fwrite(bytes, 1, (size_t)length, stdout);
    return waitpid(child, &status, 0) == child && WIFEXITED(status) ? WEXITSTATUS(status) : 2;
}
