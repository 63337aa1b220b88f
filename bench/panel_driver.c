/* The benchmark of panels: the same recordings, from a fixed seed, drawn by the
 * engine and by the C baselines, whose RAMs, numbers and counts must end equal. */
#include "harness.h"
#include "merikohin.h"

typedef merikohin_panelled panel_call(uint8_t *, size_t, merikohin_screen, const int16_t *, size_t, int32_t, int32_t, uint16_t);

panel_call gcc_panel_stepped, gcc_panel_filled, clang_panel_stepped, clang_panel_filled;

const struct named subjects[] = {
    {"engine", "engine"},
    {"gcc-triangles", "C triangles, gcc"},
#ifdef WITH_CLANG
    {"clang-triangles", "C triangles, clang"},
#endif
    {"gcc-fill", "C fill, gcc"},
#ifdef WITH_CLANG
    {"clang-fill", "C fill, clang"},
#endif
};
static panel_call *const panels[] = {
    merikohin_panel,
    gcc_panel_stepped,
#ifdef WITH_CLANG
    clang_panel_stepped,
#endif
    gcc_panel_filled,
#ifdef WITH_CLANG
    clang_panel_filled,
#endif
};
enum { PANELS = sizeof panels / sizeof panels[0], ODD = 48, LONGEST_RAM = MERIKOHIN_RAM_MOST + 1 };
const int subject_count = PANELS;

const struct named workloads[] = {
    {"recording", "a recording"},
    {"noise", "noise of the full range"},
    {"silence", "silence"},
    {"low", "the recording, 120 rows high"},
    {"few", "the recording's first 640 samples, 1 a column"},
};
const int workload_count = sizeof workloads / sizeof workloads[0];

/* All arguments but the RAM and the samples themselves. */
struct request {
    size_t ram_len;
    merikohin_screen screen;
    size_t samples_len;
    int32_t per_column, offset;
    uint16_t colour;
};

/* The request that is measured, and others that are not: refused ones, and
 * accepted ones of any screen, offset and number of samples. One sample is for
 * them alone: with it there are too many. */
static struct request asked, odd[ODD];
static int16_t samples[MERIKOHIN_SAMPLES_MOST + 1];

static struct outcome {
    uint8_t *ram, *odd_ram;
    merikohin_panelled answer, odd_answers[ODD];
} outcomes[PANELS];

/* A field with a crowd, and in it a click that rings and is gone after some
 * thousands of samples. */
static void record(void)
{
    enum { CLICK = 12000 };
    const double crowd = 2500, click = 24000, keeps = 0.999, turn_cos = 0.9238795325112867, turn_sin = 0.3826834323650898;
    double soft = 0, x = 0, y = 0;
    for (int k = 0; k <= MERIKOHIN_SAMPLES_MOST; k++) {
        double rough = between(-1000, 1000) / 1000.0;
        double turned = keeps * (x * turn_cos - y * turn_sin);
        soft = 0.8 * soft + 0.2 * rough;
        y = keeps * (x * turn_sin + y * turn_cos);
        x = turned;
        if (k == CLICK)
            x = click, y = 0;
        samples[k] = (int16_t)(crowd * soft + x * (1 + 0.3 * rough));
    }
}

static merikohin_screen screen_of(uint32_t width, uint32_t height)
{
    return (merikohin_screen){0, width * height * 2, MERIKOHIN_SIZE(width, height)};
}

static void any(struct request *r)
{
    uint32_t groups = (uint32_t)between(0, 41), height = (uint32_t)between(0, 484);
    r->ram_len = next() % 8 ? MERIKOHIN_RAM_MOST : (size_t)between(0, LONGEST_RAM);
    r->screen.colour_start = (uint32_t)between(0, MERIKOHIN_RAM_MOST / 4) * 2 + (next() % 16 == 0);
    r->screen.depth_start = (uint32_t)between(0, MERIKOHIN_RAM_MOST / 4) * 2 + (next() % 16 == 0);
    r->screen.size_number = groups * 512 + height;
    r->samples_len = (size_t)between(0, MERIKOHIN_SAMPLES_MOST + 1);
    r->per_column = between(0, MERIKOHIN_PER_COLUMN_MOST + 1);
    r->offset = between(MERIKOHIN_OFFSET_LEAST - 99, MERIKOHIN_OFFSET_MOST + 99);
    r->colour = (uint16_t)next();
}

/* One for each number, and one with no samples. */
static void set_odd(void)
{
    for (int k = 0; k < ODD; k++)
        any(&odd[k]);
    for (int k = 0; k < 6; k++)
        odd[k] = asked;
    odd[0].ram_len = LONGEST_RAM;
    odd[1].screen.depth_start++;
    odd[2].samples_len = MERIKOHIN_SAMPLES_MOST + 1;
    odd[3].per_column = MERIKOHIN_PER_COLUMN_MOST + 1;
    odd[4].offset = MERIKOHIN_OFFSET_LEAST - 1;
    odd[5].samples_len = 0;
}

void prepare(const char *name)
{
    uint32_t height = strcmp(name, "low") ? 480 : 120;
    asked = (struct request){(size_t)640 * height * 4, screen_of(640, height), MERIKOHIN_SAMPLES_MOST, 64, 0, 0xfd20};
    if (!strcmp(name, "few"))
        asked.samples_len = 640, asked.per_column = 1;
    if (!strcmp(name, "recording") || !strcmp(name, "low") || !strcmp(name, "few")) {
        record();
    } else if (!strcmp(name, "noise")) {
        for (int k = 0; k <= MERIKOHIN_SAMPLES_MOST; k++)
            samples[k] = (int16_t)between(INT16_MIN, INT16_MAX);
    } else if (strcmp(name, "silence")) {
        fprintf(stderr, "no such workload: %s\n", name);
        exit(2);
    }
    set_odd();
    for (int k = 0; k < PANELS; k++) {
        outcomes[k].ram = room(asked.ram_len);
        outcomes[k].odd_ram = room(LONGEST_RAM);
    }
}

void first_state(int subject)
{
    size_t half = asked.ram_len / 2;
    memset(outcomes[subject].ram, 0, half);
    memset(outcomes[subject].ram + half, 255, half);
}

static merikohin_panelled ask(int subject, uint8_t *ram, const struct request *r)
{
    return panels[subject](ram, r->ram_len, r->screen, samples, r->samples_len, r->per_column, r->offset, r->colour);
}

void measured(int subject)
{
    outcomes[subject].answer = ask(subject, outcomes[subject].ram, &asked);
}

/* The odd requests are not measured, so they are asked here. */
void must_agree(const char *workload)
{
    const struct outcome *a = &outcomes[0];
    for (int k = 0; k < PANELS; k++) {
        struct outcome *b = &outcomes[k];
        memset(b->odd_ram, 255, LONGEST_RAM);
        for (int n = 0; n < ODD; n++)
            b->odd_answers[n] = ask(k, b->odd_ram, &odd[n]);
        if (memcmp(a->ram, b->ram, asked.ram_len) != 0 || memcmp(a->odd_ram, b->odd_ram, LONGEST_RAM) != 0 ||
            memcmp(&a->answer, &b->answer, sizeof b->answer) != 0 ||
            memcmp(a->odd_answers, b->odd_answers, sizeof b->odd_answers) != 0) {
            fprintf(stderr, "%s: %s and %s disagree\n", workload, subjects[0].words, subjects[k].words);
            exit(1);
        }
    }
}

void print_counts(void)
{
    printf("1 %" PRIu32 "\n", outcomes[0].answer.pixels);
}
