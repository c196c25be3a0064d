/* turns REPETITIONS LIST PROGRAM..: runs the programs on LIST as their standard input, in turns, and prints the least user and system time of each
 * in milliseconds, the others' with the ratio to the first one's, as columns of a table. */
#define _DEFAULT_SOURCE
#include <fcntl.h>
#include <stdio.h>
#include <stdlib.h>
#include <sys/resource.h>
#include <sys/wait.h>
#include <unistd.h>

#include "written.h"

#define MOST 16

static double milliseconds(struct timeval t)
{
    return (double)t.tv_sec * 1e3 + (double)t.tv_usec / 1e3;
}

static void become(char *program, const char *list)
{
    int in = open(list, O_RDONLY), out = open("/dev/null", O_WRONLY);
    if (in >= 0 && out >= 0 && dup2(in, 0) == 0 && dup2(out, 1) == 1)
        execl(program, program, (char *)0);
    perror(program);
    _exit(127);
}

static double once(char *program, const char *list)
{
    int status;
    struct rusage use;
    pid_t child = fork();
    if (child == 0)
        become(program, list);
    if (child < 0 || wait4(child, &status, 0, &use) != child || status != 0) {
        fprintf(stderr, "turns: %s does not end well on %s\n", program, list);
        exit(2);
    }
    return milliseconds(use.ru_utime) + milliseconds(use.ru_stime);
}

int main(int count, char **words)
{
    int repetitions = count > 1 ? atoi(words[1]) : 0, programs = count - 3;
    double least[MOST];
    if (repetitions < 1 || programs < 1 || programs > MOST) {
        fputs("usage: turns REPETITIONS LIST PROGRAM..\n", stderr);
        return 2;
    }
    for (int r = 0; r < repetitions; r++)
        for (int turn = 0; turn < programs; turn++) {
            int i = (turn + r) % programs;
            double t = once(words[3 + i], words[2]);
            if (r == 0 || t < least[i])
                least[i] = t;
        }
    printf(" %8.2f |", least[0]);
    for (int i = 1; i < programs; i++)
        printf(" %8.2f | %5.2f |", least[i], least[i] / least[0]);
    puts("");
    return written("turns");
}
