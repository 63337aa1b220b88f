#include "harness.h"

#include <time.h>

static uint64_t seed = 1;

uint64_t next(void)
{
    uint64_t z = (seed += 0x9e3779b97f4a7c15u);
    z = (z ^ z >> 30) * 0xbf58476d1ce4e5b9u;
    z = (z ^ z >> 27) * 0x94d049bb133111ebu;
    return z ^ z >> 31;
}

int32_t between(int32_t low, int32_t high)
{
    return low + (int32_t)(next() % (uint64_t)(high - low + 1));
}

void *room(size_t bytes)
{
    void *at = malloc(bytes + 1);
    if (!at)
        exit(3);
    return at;
}

static int64_t now(void)
{
    struct timespec t;
    clock_gettime(CLOCK_PROCESS_CPUTIME_ID, &t);
    return (int64_t)t.tv_sec * 1000000000 + t.tv_nsec;
}

static int64_t pass(int subject)
{
    first_state(subject);
    int64_t start = now();
    measured(subject);
    return now() - start;
}

static void all_subjects_in_turn(const char *workload, int repeats)
{
    /* Enough passes in one measurement to make it a few milliseconds. */
    int passes = (int)(5000000 / (pass(0) + 1)) + 1;
    int64_t *times = room(sizeof *times * (size_t)(repeats * subject_count));
    for (int r = 0; r < repeats; r++) {
        for (int j = 0; j < subject_count; j++) {
            int k = (j + r) % subject_count;
            int64_t sum = 0;
            for (int p = 0; p < passes; p++)
                sum += pass(k);
            times[k * repeats + r] = sum / passes;
        }
        must_agree(workload);
    }
    for (int k = 0; k < subject_count; k++) {
        printf("%s", subjects[k].name);
        for (int r = 0; r < repeats; r++)
            printf(" %" PRId64, times[k * repeats + r]);
        printf("\n");
    }
}

int main(int argc, char **argv)
{
    if (argc == 2 && !strcmp(argv[1], "list")) {
        for (int k = 0; k < workload_count; k++)
            printf("workload %s %s\n", workloads[k].name, workloads[k].words);
        for (int k = 0; k < subject_count; k++)
            printf("subject %s %s\n", subjects[k].name, subjects[k].words);
        return 0;
    }
    if (argc < 3)
        return 2;
    const char *given = getenv("BENCH_SEED");
    if (given)
        seed = strtoull(given, NULL, 10);
    prepare(argv[2]);
    if (!strcmp(argv[1], "check") && argc == 3) {
        for (int k = 0; k < subject_count; k++)
            pass(k);
        must_agree(argv[2]);
        print_counts();
        return 0;
    }
    if (!strcmp(argv[1], "count") && argc == 4) {
        for (int k = 0; k < subject_count; k++)
            if (!strcmp(subjects[k].name, argv[3])) {
                pass(k);
                return 0;
            }
    }
    if (!strcmp(argv[1], "time") && argc == 4) {
        all_subjects_in_turn(argv[2], atoi(argv[3]));
        return 0;
    }
    return 2;
}
