/* Timing for the benchmarks.
 *
 * Everything is measured in short turns, one implementation after the other, and the best turn counts: other
 * work on the machine then hits all of them alike. A library looks at the processor once, when it is loaded,
 * so each way of keeping instructions from it is a process of its own: the program again, with a variable of
 * its environment set, which measures what it is asked for on its standard input.
 */
#ifndef TURNS_H
#define TURNS_H

#include <stddef.h>

#define TURNS 60

/* What is measured: the numbers are the program's own. */
struct request {
    int who;
    int job;
    size_t key_len;
};

struct process {
    int ask, answer; /* the pipes' ends */
};

/* Ends the program unless ok. */
void must(int ok, const char *what);

/* Calls run again and again, for one turn, and gives the seconds that a call took. The clock is read once in
 * so many calls as `batch` says. */
double seconds_per_call(void (*run)(struct request), struct request r, int batch);

/* Starts the program again, with the argument "serve" and the variable set. */
struct process start(const char *variable, const char *value);

/* The started process answers with what `measure` gives, until the asking one closes its pipe. */
void serve(double (*measure)(struct request));

double ask(struct process p, struct request r);

#endif
