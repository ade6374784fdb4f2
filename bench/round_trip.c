/* Round trips over two pipes: a line to a program, a line back from it.
 *
 *     round_trip EDGES PROGRAM WORD..    drives the program with edges of one board's tenures, so many, and prints the
 *                                        nanoseconds of a round trip
 *     round_trip constant                is such a program itself: it answers each line, but the first, with the same one
 */
#include <stdio.h>
#include <stdlib.h>
#include <string.h>
#include <time.h>
#include <unistd.h>

static const char *const tenure[] = {"1 br-\n", "c bg3-\n", "1 bbsy-\n", "1 br+\n", "c bg3+\n", "1 bbsy+\n"};

static void fail(const char *what)
{
    perror(what);
    exit(1);
}

static void write_all(int out, const char *text, size_t size)
{
    if (write(out, text, size) != (ssize_t)size)
        fail("write");
}

/* Reads up to a line feed, which ends what comes. */
static int read_line(int in)
{
    char line[4096];
    ssize_t got;
    do {
        got = read(in, line, sizeof line);
        if (got < 0)
            fail("read");
    } while (got > 0 && line[got - 1] != '\n');
    return got > 0;
}

static int answer_all(void)
{
    static const char answer[] = "1000 ok\n";
    if (!read_line(0))
        return 1;
    while (read_line(0))
        write_all(1, answer, sizeof answer - 1);
    return 0;
}

static void start(char **words, int *to, int *from)
{
    int ask[2], tell[2];
    if (pipe(ask) || pipe(tell))
        fail("pipe");
    switch (fork()) {
    case -1:
        fail("fork");
    case 0:
        if (dup2(ask[0], 0) < 0 || dup2(tell[1], 1) < 0)
            fail("dup2");
        close(ask[0]), close(ask[1]), close(tell[0]), close(tell[1]);
        execv(words[0], words);
        fail(words[0]);
    }
    close(ask[0]), close(tell[1]);
    *to = ask[1], *from = tell[0];
}

static void trip(int to, int from, long edge)
{
    const char *line = tenure[edge % 6];
    write_all(to, line, strlen(line));
    if (!read_line(from)) {
        fprintf(stderr, "no answer to edge %ld\n", edge + 1);
        exit(1);
    }
}

int main(int count, char **words)
{
    if (count == 2 && !strcmp(words[1], "constant"))
        return answer_all();
    if (count < 3)
        return 2;
    long edges = atol(words[1]);
    int to, from;
    struct timespec begun, ended;
    start(words + 2, &to, &from);
    write_all(to, "vme 1\n", 6);
    usleep(100000);
    trip(to, from, 0);
    clock_gettime(CLOCK_MONOTONIC, &begun);
    for (long edge = 1; edge < edges; edge++)
        trip(to, from, edge);
    clock_gettime(CLOCK_MONOTONIC, &ended);
    printf("%.0f\n", ((ended.tv_sec - begun.tv_sec) * 1e9 + (ended.tv_nsec - begun.tv_nsec)) / (edges - 1));
    return 0;
}
