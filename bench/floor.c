/* floor CHILDREN SECONDS: a bare loop of wait4 over so many children, which asks each once in 100 ms, as the launcher does at rest. It prints the
   processor's milliseconds a minute. It is a yardstick, and no part of the product. */
#define _GNU_SOURCE
#include <signal.h>
#include <stdio.h>
#include <stdlib.h>
#include <sys/resource.h>
#include <sys/wait.h>
#include <time.h>
#include <unistd.h>

static double now(void)
{
    struct timespec t;
    clock_gettime(CLOCK_MONOTONIC, &t);
    return t.tv_sec * 1e3 + t.tv_nsec / 1e6;
}

static double spent(void)
{
    struct rusage r;
    getrusage(RUSAGE_SELF, &r);
    return (r.ru_utime.tv_sec + r.ru_stime.tv_sec) * 1e3 + (r.ru_utime.tv_usec + r.ru_stime.tv_usec) / 1e3;
}

int main(int argc, char **argv)
{
    int count = argc > 2 ? atoi(argv[1]) : 0, seconds = argc > 2 ? atoi(argv[2]) : 0;
    pid_t *child = malloc((count + 1) * sizeof *child);
    double begun, before;
    if (count < 1 || seconds < 1)
        return 64;
    for (int i = 0; i < count; i++)
        if (!(child[i] = fork()))
            for (;;)
                pause();
    sleep(1);
    before = spent();
    for (begun = now(); now() < begun + seconds * 1e3; usleep(100000))
        for (int i = 0; i < count; i++)
            waitpid(child[i], 0, WNOHANG);
    printf("%.1f\n", (spent() - before) * 60e3 / (now() - begun));
    for (int i = 0; i < count; i++)
        kill(child[i], SIGKILL);
    while (wait(0) > 0)
        ;
    return 0;
}
