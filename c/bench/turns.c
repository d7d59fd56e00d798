/* See turns.h. */
#define _POSIX_C_SOURCE 200809L

#include "turns.h"

#include <stdio.h>
#include <stdlib.h>
#include <time.h>
#include <unistd.h>

#define TURN_SECONDS 0.01

void must(int ok, const char *what)
{
    if (!ok) {
        fprintf(stderr, "bench: %s failed\n", what);
        exit(1);
    }
}

static double seconds(void)
{
    struct timespec t;

    clock_gettime(CLOCK_PROCESS_CPUTIME_ID, &t);
    return (double)t.tv_sec + 1e-9 * (double)t.tv_nsec;
}

double seconds_per_call(void (*run)(struct request), struct request r, int batch)
{
    double begin = seconds(), spent, calls = 0;

    do {
        for (int i = 0; i < batch; i++)
            run(r);
        calls += batch;
        spent = seconds() - begin;
    } while (spent < TURN_SECONDS);
    return spent / calls;
}

struct process start(const char *variable, const char *value)
{
    int in[2], out[2];
    pid_t child;

    must(pipe(in) == 0 && pipe(out) == 0, "pipe");
    child = fork();
    must(child >= 0, "fork");
    if (child == 0) {
        setenv(variable, value, 1);
        dup2(in[0], STDIN_FILENO);
        dup2(out[1], STDOUT_FILENO);
        close(in[1]), close(out[0]);
        execl("/proc/self/exe", "bench", "serve", (char *)NULL);
        must(0, "exec");
    }
    close(in[0]), close(out[1]);
    return (struct process){in[1], out[0]};
}

void serve(double (*measure)(struct request))
{
    struct request r;

    while (read(STDIN_FILENO, &r, sizeof r) == sizeof r) {
        double result = measure(r);

        must(write(STDOUT_FILENO, &result, sizeof result) == sizeof result, "write");
    }
}

double ask(struct process p, struct request r)
{
    double result;

    must(write(p.ask, &r, sizeof r) == sizeof r, "write");
    must(read(p.answer, &result, sizeof result) == sizeof result, "a process of the benchmark");
    return result;
}
