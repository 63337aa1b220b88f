/* The benchmark of planes: the same requests, from a fixed seed, answered by the
 * engine and by the C baselines, whose numbers and planes must be equal. */
#include "harness.h"
#include "merikohin.h"

typedef merikohin_through through_call(merikohin_vertices, merikohin_values);

through_call gcc_plane_through, clang_plane_through;

const struct named subjects[] = {
    {"engine", "engine"},
    {"gcc", "C, gcc"},
#ifdef WITH_CLANG
    {"clang", "C, clang"},
#endif
};
static through_call *const throughs[] = {
    merikohin_plane_through,
    gcc_plane_through,
#ifdef WITH_CLANG
    clang_plane_through,
#endif
};
enum { THROUGHS = sizeof throughs / sizeof throughs[0], ACCEPTED = 4000, REFUSED = 4000, ALL = ACCEPTED + REFUSED };
const int subject_count = THROUGHS;

const struct named workloads[] = {
    {"planes", "planes through three values"},
};
const int workload_count = sizeof workloads / sizeof workloads[0];

/* The accepted ones first. */
static struct request {
    merikohin_vertices vertices;
    merikohin_values values;
} requests[ALL];
static merikohin_through outcomes[THROUGHS][ALL];

/* Where vertices may be: on the screen, anywhere, close together, which makes
 * steep planes, or beyond the range too. */
static const struct place {
    int32_t least, right, bottom;
} places[] = {
    {0, 8 * MERIKOHIN_WIDTH_MOST, 8 * MERIKOHIN_HEIGHT_MOST},
    {MERIKOHIN_VERTEX_LEAST, MERIKOHIN_VERTEX_MOST, MERIKOHIN_VERTEX_MOST},
    {0, 24, 24},
    {MERIKOHIN_VERTEX_LEAST - 999, MERIKOHIN_VERTEX_MOST + 999, MERIKOHIN_VERTEX_MOST + 999},
};

static struct request any(void)
{
    const struct place *p = &places[next() % (sizeof places / sizeof places[0])];
    int32_t beyond = next() % 4 ? 0 : 9999;
    struct request r;
    merikohin_vertices *v = &r.vertices;
    v->x1 = between(p->least, p->right), v->y1 = between(p->least, p->bottom);
    v->x2 = between(p->least, p->right), v->y2 = between(p->least, p->bottom);
    v->x3 = between(p->least, p->right), v->y3 = between(p->least, p->bottom);
    r.values.r1 = between(-beyond, MERIKOHIN_VALUE_MOST + beyond);
    r.values.r2 = between(-beyond, MERIKOHIN_VALUE_MOST + beyond);
    r.values.r3 = between(-beyond, MERIKOHIN_VALUE_MOST + beyond);
    return r;
}

void prepare(const char *name)
{
    if (strcmp(name, workloads[0].name)) {
        fprintf(stderr, "no such workload: %s\n", name);
        exit(2);
    }
    int accepted = 0, refused = ACCEPTED;
    while (accepted < ACCEPTED || refused < ALL) {
        struct request r = any();
        int is_accepted = gcc_plane_through(r.vertices, r.values).number == 0;
        if (is_accepted && accepted < ACCEPTED)
            requests[accepted++] = r;
        else if (!is_accepted && refused < ALL)
            requests[refused++] = r;
    }
}

void first_state(int subject)
{
    memset(outcomes[subject], 0, sizeof outcomes[subject]);
}

static void ask(int subject, int from, int to)
{
    through_call *through = throughs[subject];
    merikohin_through *answers = outcomes[subject];
    for (int k = from; k < to; k++)
        answers[k] = through(requests[k].vertices, requests[k].values);
}

void measured(int subject)
{
    ask(subject, 0, ACCEPTED);
}

/* The refused requests are not measured, so they are asked here. */
void must_agree(const char *workload)
{
    for (int k = 0; k < THROUGHS; k++) {
        ask(k, ACCEPTED, ALL);
        if (memcmp(outcomes[0], outcomes[k], sizeof outcomes[k]) != 0) {
            fprintf(stderr, "%s: %s and %s disagree\n", workload, subjects[0].words, subjects[k].words);
            exit(1);
        }
    }
}

void print_counts(void)
{
    printf("%d %d\n", ACCEPTED, ACCEPTED);
}
