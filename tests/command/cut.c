/* cut TEXT PROGRAM [ARGUMENT..]: runs the program with a standard input that gives the text and then fails to be read: the one end of a
   terminal whose other end is closed. */
#define _GNU_SOURCE
#include <fcntl.h>
#include <stdio.h>
#include <stdlib.h>
#include <string.h>
#include <termios.h>
#include <unistd.h>

static int failed(const char *what)
{
    perror(what);
    return 1;
}

int main(int count, char **given)
{
    if (count < 3) return failed("cut TEXT PROGRAM");
    int read_end = posix_openpt(O_RDWR | O_NOCTTY);
    if (read_end < 0 || grantpt(read_end) != 0 || unlockpt(read_end) != 0) return failed("no terminal");
    int write_end = open(ptsname(read_end), O_RDWR | O_NOCTTY);
    if (write_end < 0) return failed("no terminal");
    struct termios plain;
    if (tcgetattr(write_end, &plain) != 0) return failed("no terminal");
    cfmakeraw(&plain);
    if (tcsetattr(write_end, TCSANOW, &plain) != 0) return failed("no terminal");
    size_t size = strlen(given[1]);
    if (write(write_end, given[1], size) != (ssize_t)size) return failed("write");
    close(write_end);
    if (dup2(read_end, 0) != 0) return failed("dup2");
    close(read_end);
    execv(given[2], given + 2);
    return failed(given[2]);
}
