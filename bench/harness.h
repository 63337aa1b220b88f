/* The part that all of the benchmark's programs have: the command line, the
 * clock and the random numbers. A program gives the rest: its workloads, the
 * subjects that carry them out (C baselines and the engine, each with its own
 * memories), and what one pass of a subject is.
 *
 *     PROGRAM list                     workloads and subjects, for the script
 *     PROGRAM check WORKLOAD           every subject must agree with the first
 *     PROGRAM count WORKLOAD SUBJECT   one pass; run under callgrind, which
 *                                      collects inside measured() alone
 *     PROGRAM time WORKLOAD REPEATS    nanoseconds per pass for each subject,
 *                                      one line per subject, subjects in turn
 *
 * The random numbers start from BENCH_SEED in the environment, or from 1. */
#ifndef HARNESS_H
#define HARNESS_H

#include <inttypes.h>
#include <stddef.h>
#include <stdint.h>
#include <stdio.h>
#include <stdlib.h>
#include <string.h>

/* A name for the command line, and words for the table. */
struct named {
    const char *name, *words;
};

extern const struct named workloads[], subjects[];
extern const int workload_count, subject_count;

/* Sets a workload up; called once. */
void prepare(const char *workload);
/* Puts a subject's memories into their first state. */
void first_state(int subject);
/* One pass of a subject: everything that is counted happens in here. */
void measured(int subject);
/* Ends the program if a subject's outcome is not the first one's. */
void must_agree(const char *workload);
/* One line: what a pass did. */
void print_counts(void);

/* Random numbers, from the seed above. */
uint64_t next(void);
int32_t between(int32_t low, int32_t high);

/* Memory, or the end of the program. */
void *room(size_t bytes);

#endif
