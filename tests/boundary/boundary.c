/*
 * Calls each function of include/register.h as a program in C would.
 *
 * Inputs lie in allocations of their own length, so that a tool for memory
 * faults sees a read past their end. Outputs lie between guard bytes. Every
 * byte that must stay untouched is compared, each call is made on two buffers
 * that differ in every byte, and due texts are made here by other means.
 * Prints a line for each check that fails, and last how many there were.
 */
#include <inttypes.h>
#include <stdio.h>
#include <stdlib.h>
#include <string.h>

#include "register.h"

#define GUARD 64
#define OFFSETS 16
#define POISON SIZE_MAX
#define EXAMPLE_TEXT 80

#define FRESH "clock=0\ntotal=0\nheld=0\n"
#define TOO_LONG "refused=19\n" FRESH
#define CLOCK "act=clock\ntick=0\n"
#define SUBMIT "act=submit\n"
#define EXAMPLE \
    "job=7\nsched=0\ntasks=1\ndeadline=10\ndispatch=1\n" \
    "run=4\nrun=5\nrun=0\nrun=2\nmessages=0\n"
#define EXAMPLE_OUT \
    "answer=0\ntask=0\ncost=20\nrows=1\nclock=0\ntotal=20\nheld=1\n" \
    "machine=2\njob=7\ntask=1\nstart=1\nfinish=6\n"

static const uint64_t example[] = {7, 0, 1, 10, 1, 4, 5, 0, 2, 0};
static const size_t example_count = sizeof example / sizeof example[0];

/* Example H of document 01: two tasks and a message. */
static const uint64_t pair[] = {8, 0, 2, 20, 1, 4, 0, 0, 0, 16, 1, 0, 5, 0, 0, 1, 1, 2, 3};
static const size_t pair_count = sizeof pair / sizeof pair[0];

static unsigned checks, failed;

static void check(int holds, const char *name, size_t number, const char *what)
{
    checks += 1;
    if (!holds) {
        failed += 1;
        printf("failed: %s (%zu): %s\n", name, number, what);
    }
}

static void *room(size_t size)
{
    void *area = malloc(size);

    if (area == NULL && size != 0) {
        printf("failed: no memory\n");
        exit(1);
    }
    return area;
}

/* A copy in an allocation of its own length. */
static void *copied(const void *from, size_t size)
{
    void *copy = room(size);

    if (size != 0) {
        memcpy(copy, from, size);
    }
    return copy;
}

static int same(const void *one, const void *other, size_t size)
{
    return size == 0 || memcmp(one, other, size) == 0;
}

/* An area between guards. Its bytes and theirs are no bytes of a text. */
typedef struct {
    uint8_t *base;
    uint8_t *area;
    size_t whole;
    size_t seed;
} fenced;

static uint8_t pattern(const fenced *f, size_t place)
{
    return (uint8_t)(128 + (f->seed + place) % 127);
}

static void fence(fenced *f, size_t size, size_t offset, size_t seed)
{
    size_t place;

    f->whole = GUARD + offset + size + GUARD;
    f->base = (uint8_t *)room(f->whole);
    f->area = f->base + GUARD + offset;
    f->seed = seed;
    for (place = 0; place < f->whole; place++) {
        f->base[place] = pattern(f, place);
    }
}

/* Whether all is untouched but the first bytes of the area. */
static int untouched(const fenced *f, size_t written)
{
    const size_t from = (size_t)(f->area - f->base);
    size_t place;

    for (place = 0; place < f->whole; place++) {
        if ((place < from || from + written <= place) && f->base[place] != pattern(f, place)) {
            return 0;
        }
    }
    return 1;
}

/* Calls of register_run. */

typedef struct {
    const char *name;
    size_t number;
    const uint8_t *input;
    size_t length;
    const char *due;
    size_t due_length;
    size_t offset;
} run_case;

static void run_once(const run_case *given, size_t seed)
{
    uint8_t *before = (uint8_t *)copied(given->input, given->length);
    fenced output;
    size_t count;

    fence(&output, REGISTER_OUTPUT_SIZE, given->offset, seed);
    count = register_run(given->input, given->length, output.area);
    check(count == given->due_length, given->name, given->number, "the count is wrong");
    if (count <= REGISTER_OUTPUT_SIZE) {
        check(count == given->due_length && same(output.area, given->due, count), given->name, given->number,
              "the output is wrong");
        check(untouched(&output, count), given->name, given->number, "a byte past the output is touched");
    }
    check(same(before, given->input, given->length), given->name, given->number, "the input is touched");
    free(output.base);
    free(before);
}

static void run_twice(const run_case *given)
{
    run_once(given, 0);
    run_once(given, 1);
}

/* A script in an allocation of its own length, with the output that is due. */
static void run_text(const char *name, size_t number, const char *script, size_t length, const char *due)
{
    uint8_t *input = (uint8_t *)copied(script, length);
    run_case given = {name, number, input, length, due, strlen(due), 0};

    run_twice(&given);
    free(input);
}

static void run_empty(void)
{
    static const uint8_t byte = 0;
    run_case none = {"no input, NULL", 0, NULL, 0, FRESH, sizeof FRESH - 1, 0};
    run_case empty = {"no input, an address", 0, &byte, 0, FRESH, sizeof FRESH - 1, 0};

    run_twice(&none);
    run_twice(&empty);
}

static void run_scripts(void)
{
    static const char script[] = SUBMIT EXAMPLE;
    static const char zero[] = SUBMIT "job=07\n";
    static const char tasks[] = SUBMIT "job=7\nsched=0\ntasks=17\n";
    static const char digits[] = "act=clock\ntick=99999999999\n";
    static const char ended[] = SUBMIT EXAMPLE CLOCK "act";

    run_text("example A", 0, script, sizeof script - 1, EXAMPLE_OUT);
    run_text("no act", 0, "\0", 1, "refused=17\n" FRESH);
    run_text("bytes above 127", 0, "\xff\xfe", 2, "refused=17\n" FRESH);
    run_text("no job", 0, SUBMIT, sizeof SUBMIT - 1, "refused=14\n" FRESH);
    run_text("a leading zero", 0, zero, sizeof zero - 1, "refused=15\n" FRESH);
    run_text("too many tasks", 0, tasks, sizeof tasks - 1, "refused=16\n" FRESH);
    run_text("too many digits", 0, digits, sizeof digits - 1, "refused=15\n" FRESH);
    run_text("a call, then a damaged line", 0, ended, sizeof ended - 1,
             "answer=0\ntask=0\ncost=20\nrows=1\nanswer=0\nrefused=17\nclock=0\ntotal=20\nheld=1\n"
             "machine=2\njob=7\ntask=1\nstart=1\nfinish=6\n");
}

/* What is refused where example A is cut after so many bytes. */
static const char *cut_due(const char *script, size_t length)
{
    const char *line = script + length;
    size_t key;

    if (length < sizeof SUBMIT - 1) {
        return "refused=17\n" FRESH;
    }
    while (line != script && line[-1] != '\n') {
        line -= 1;
    }
    key = strcspn(line, "=") + 1;
    return length < (size_t)(line - script) + key ? "refused=14\n" FRESH : "refused=15\n" FRESH;
}

static void run_cuts(void)
{
    static const char script[] = SUBMIT EXAMPLE;
    size_t length;

    for (length = 1; length < sizeof script - 1; length++) {
        run_text("example A, cut", length, script, length, cut_due(script, length));
    }
}

static void run_offsets(void)
{
    static const char script[] = SUBMIT EXAMPLE;
    const size_t length = sizeof script - 1;
    size_t offset;

    for (offset = 0; offset < OFFSETS; offset++) {
        uint8_t *area = (uint8_t *)room(offset + length);
        run_case given = {"example A at an offset", offset, NULL, length, EXAMPLE_OUT, sizeof EXAMPLE_OUT - 1, 0};

        memcpy(area + offset, script, length);
        given.input = area + offset;
        given.offset = OFFSETS - 1 - offset;
        run_twice(&given);
        free(area);
    }
}

/* So many answers of 0, and the listing. */
static char *answers(size_t count, const char *listing)
{
    static const char answer[] = "answer=0\n";
    const size_t width = sizeof answer - 1;
    char *due = (char *)room(count * width + strlen(listing) + 1);
    size_t place;

    for (place = 0; place < count; place++) {
        memcpy(due + place * width, answer, width);
    }
    memcpy(due + count * width, listing, strlen(listing) + 1);
    return due;
}

/* Clock moves up to the limit of the input exactly, and one byte past it. */
static void run_limit(void)
{
    static const char last[] = "act=clock\ntick=10\n";
    const size_t width = sizeof CLOCK - 1;
    const size_t moves = (REGISTER_INPUT_MOST - (sizeof last - 1)) / width;
    char *script = (char *)room(REGISTER_INPUT_MOST + 1);
    char *due = answers(moves + 1, "clock=10\ntotal=0\nheld=0\n");
    size_t place;

    for (place = 0; place < moves; place++) {
        memcpy(script + place * width, CLOCK, width);
    }
    check(moves * width + sizeof last - 1 == REGISTER_INPUT_MOST, "the longest input", moves, "is not full");
    memcpy(script + moves * width, last, sizeof last - 1);
    script[REGISTER_INPUT_MOST] = '\n';
    run_text("the longest input", REGISTER_INPUT_MOST, script, REGISTER_INPUT_MOST, due);
    run_text("a byte past the limit", REGISTER_INPUT_MOST + 1, script, REGISTER_INPUT_MOST + 1, TOO_LONG);
    free(due);
    free(script);
}

/* An output without guards and without values, for a tool that sees their use. */
static void run_bare(void)
{
    static const char script[] = SUBMIT EXAMPLE;
    uint8_t *input = (uint8_t *)copied(script, sizeof script - 1);
    uint8_t *output = (uint8_t *)room(REGISTER_OUTPUT_SIZE);
    size_t count = register_run(input, sizeof script - 1, output);

    check(count == sizeof EXAMPLE_OUT - 1 && same(output, EXAMPLE_OUT, count), "example A, a bare output", 0,
          "the output is wrong");
    free(output);
    free(input);
}

/* Calls of register_write_job. */

/* The lines of a job by printf; answers the bytes they have. */
static size_t due_text(const uint64_t *figures, char *text)
{
    static const char *const head[] = {"job", "sched", "tasks"};
    static const char *const task[] = {"deadline", "dispatch", "run", "run", "run", "run"};
    static const char *const message[] = {"from", "to", "volume"};
    const uint64_t tasks = figures[2];
    const uint64_t messages = figures[3 + 6 * tasks];
    char *end = text;
    uint64_t place;

    for (place = 0; place < 3; place++) {
        end += sprintf(end, "%s=%" PRIu64 "\n", head[place], *figures++);
    }
    for (place = 0; place < 6 * tasks; place++) {
        end += sprintf(end, "%s=%" PRIu64 "\n", task[place % 6], *figures++);
    }
    end += sprintf(end, "messages=%" PRIu64 "\n", *figures++);
    for (place = 0; place < 3 * messages; place++) {
        end += sprintf(end, "%s=%" PRIu64 "\n", message[place % 3], *figures++);
    }
    return (size_t)(end - text);
}

typedef struct {
    const char *name;
    const uint64_t *figures;
    size_t count;
    size_t size;
    size_t offset;
    uint64_t number;
    const char *due;
    size_t due_length;
} write_case;

static void write_once(const write_case *given, size_t seed)
{
    size_t lengths[3] = {POISON, POISON, POISON};
    uint64_t *figures = (uint64_t *)copied(given->figures, given->count * sizeof *figures);
    fenced output;
    uint64_t number;

    fence(&output, given->size, given->offset, seed);
    number = register_write_job(figures, given->count, output.area, given->size, &lengths[1]);
    check(number == given->number, given->name, given->size, "the number is wrong");
    check(lengths[1] == given->due_length, given->name, given->size, "the length is wrong");
    check(lengths[0] == POISON && lengths[2] == POISON, given->name, given->size,
          "a byte beside the length is touched");
    check(given->size < given->due_length || same(output.area, given->due, given->due_length), given->name,
          given->size, "the text is wrong");
    check(untouched(&output, given->due_length), given->name, given->size, "a byte past the text is touched");
    check(same(figures, given->figures, given->count * sizeof *figures), given->name, given->size,
          "a figure is touched");
    free(output.base);
    free(figures);
}

static void write_twice(const write_case *given)
{
    write_once(given, 0);
    write_once(given, 1);
}

/* A job that is written: its text is due in a buffer of each size given. */
static void write_good(const char *name, const uint64_t *figures, size_t count, const size_t *sizes, size_t size_count)
{
    char *text = (char *)room(REGISTER_JOB_TEXT_MOST + 1);
    const size_t length = due_text(figures, text);
    size_t place;

    for (place = 0; place < size_count; place++) {
        const int fits = length <= sizes[place];
        write_case given = {name, figures, count, sizes[place], 0, REGISTER_WRITTEN, text, length};

        if (!fits) {
            given.number = REGISTER_TOO_SHORT;
            given.due_length = 0;
        }
        write_twice(&given);
    }
    free(text);
}

/* Figures that are no job: refused so in every buffer, a short one too. */
static void write_bad(const char *name, const uint64_t *figures, size_t count)
{
    static const size_t sizes[] = {0, 1, EXAMPLE_TEXT - 1, EXAMPLE_TEXT, REGISTER_JOB_TEXT_MOST + 100};
    size_t place;

    for (place = 0; place < sizeof sizes / sizeof sizes[0]; place++) {
        write_case given = {name, figures, count, sizes[place], 0, REGISTER_NOT_A_JOB, "", 0};

        write_twice(&given);
    }
}

/* Example A, in a buffer of every size up to two bytes more than its text has. */
static void write_example(void)
{
    size_t sizes[EXAMPLE_TEXT + 3];
    char text[REGISTER_JOB_TEXT_MOST + 1];
    size_t place;

    for (place = 0; place < EXAMPLE_TEXT + 3; place++) {
        sizes[place] = place;
    }
    check(due_text(example, text) == EXAMPLE_TEXT, "example A", 0, "does not have 80 bytes");
    check(same(text, EXAMPLE, EXAMPLE_TEXT), "example A", 0, "is another text");
    write_good("example A", example, example_count, sizes, EXAMPLE_TEXT + 3);
    for (place = 0; place < OFFSETS; place++) {
        write_case given = {"example A at an offset", example,          example_count, EXAMPLE_TEXT,
                            place,                    REGISTER_WRITTEN, EXAMPLE,       EXAMPLE_TEXT};

        write_twice(&given);
    }
}

/* A job and sizes around its text's length, and up to the longest text. */
static void write_around(const char *name, const uint64_t *figures, size_t count)
{
    char *text = (char *)room(REGISTER_JOB_TEXT_MOST + 1);
    const size_t length = due_text(figures, text);
    size_t sizes[6] = {0, 1, 0, 0, 0, REGISTER_JOB_TEXT_MOST};

    sizes[2] = length - 1;
    sizes[3] = length;
    sizes[4] = length + 1;
    write_good(name, figures, count, sizes, 6);
    free(text);
}

/* The longest job: every count and every figure at its most. */
static void longest(uint64_t *figures)
{
    size_t place;

    for (place = 0; place <= REGISTER_JOB_FIGURES_MOST; place++) {
        figures[place] = REGISTER_FIGURE_MOST;
    }
    figures[2] = 16;
    figures[3 + 6 * 16] = 32;
}

static void write_ends(void)
{
    static const uint64_t least[] = {0, 0, 1, 0, 0, 0, 0, 0, 0, 0};
    uint64_t most[REGISTER_JOB_FIGURES_MOST + 1];
    char *text = (char *)room(REGISTER_JOB_TEXT_MOST + 1);

    longest(most);
    check(due_text(most, text) == REGISTER_JOB_TEXT_MOST, "the longest text", 0, "has another length");
    write_around("the shortest text", least, sizeof least / sizeof least[0]);
    write_around("the longest text", most, REGISTER_JOB_FIGURES_MOST);
    write_around("example H", pair, pair_count);
    write_bad("the most figures, and one more", most, REGISTER_JOB_FIGURES_MOST + 1);
    write_bad("the most figures but one", most, REGISTER_JOB_FIGURES_MOST - 1);
    free(text);
}

/* Too few figures, of every count, and too many. */
static void write_counts(void)
{
    uint64_t longer[sizeof example / sizeof example[0] + 2];
    size_t count;

    memcpy(longer, example, sizeof example);
    longer[example_count] = 0;
    longer[example_count + 1] = 0;
    for (count = 0; count < example_count; count++) {
        write_bad("example A, too few figures", example, count);
    }
    for (count = 0; count < pair_count; count++) {
        write_bad("example H, too few figures", pair, count);
    }
    write_bad("example A, a figure too many", longer, example_count + 1);
    write_bad("example A, two figures too many", longer, example_count + 2);
}

/* Example A with one figure changed. */
static void write_changed(const char *name, size_t place, uint64_t figure)
{
    uint64_t changed[sizeof example / sizeof example[0]];

    memcpy(changed, example, sizeof example);
    changed[place] = figure;
    write_bad(name, changed, example_count);
}

static void write_figures(void)
{
    uint64_t changed[sizeof example / sizeof example[0]];
    size_t place;

    for (place = 0; place < example_count; place++) {
        write_changed("a figure of eleven digits", place, REGISTER_FIGURE_MOST + 1);
        write_changed("the largest number", place, UINT64_MAX);
        if (place != 2 && place + 1 != example_count) {
            memcpy(changed, example, sizeof example);
            changed[place] = REGISTER_FIGURE_MOST;
            write_around("a figure of ten digits", changed, example_count);
        }
    }
    write_changed("no task", 2, 0);
    write_changed("17 tasks", 2, 17);
    write_changed("a task that is not there", 2, 2);
    write_changed("33 messages", example_count - 1, 33);
    write_changed("a message that is not there", example_count - 1, 1);
}

/* NULL where the header allows it: nothing to read, or nothing to write. */
static void write_nulls(void)
{
    size_t length = POISON;
    uint8_t output[1] = {1};
    uint64_t number = register_write_job(NULL, 0, NULL, 0, &length);

    check(number == REGISTER_NOT_A_JOB && length == 0, "no figures and no output, NULL", 0, "the answer is wrong");
    length = POISON;
    number = register_write_job(NULL, 0, output, 1, &length);
    check(number == REGISTER_NOT_A_JOB && length == 0, "no figures, NULL", 0, "the answer is wrong");
    check(output[0] == 1, "no figures, NULL", 0, "the output is touched");
    length = POISON;
    number = register_write_job(example, example_count, NULL, 0, &length);
    check(number == REGISTER_TOO_SHORT && length == 0, "no output, NULL", 0, "the answer is wrong");
    length = POISON;
    number = register_write_job(example, example_count - 1, NULL, 0, &length);
    check(number == REGISTER_NOT_A_JOB && length == 0, "too few figures, no output, NULL", 0, "the answer is wrong");
}

/* An output of so many bytes and a length, without guards and without values. */
static void write_bare(size_t size)
{
    uint64_t *figures = (uint64_t *)copied(example, sizeof example);
    uint8_t *output = (uint8_t *)room(size);
    size_t *length = (size_t *)room(sizeof *length);
    uint64_t number = register_write_job(figures, example_count, output, size, length);

    check(number == REGISTER_WRITTEN && *length == EXAMPLE_TEXT && same(output, EXAMPLE, EXAMPLE_TEXT),
          "example A, a bare output", size, "the answer is wrong");
    free(length);
    free(output);
    free(figures);
}

/* Both functions: the text that one writes is a job that the other admits. */
static void write_and_run(void)
{
    char script[sizeof SUBMIT - 1 + EXAMPLE_TEXT] = {0};
    const size_t start = sizeof SUBMIT - 1;
    size_t length = POISON;

    memcpy(script, SUBMIT, start);
    register_write_job(example, example_count, (uint8_t *)script + start, EXAMPLE_TEXT, &length);
    check(length == EXAMPLE_TEXT, "example A, written and run", 0, "the length is wrong");
    run_text("example A, written and run", 0, script, sizeof script, EXAMPLE_OUT);
}

int main(void)
{
    run_empty();
    run_scripts();
    run_cuts();
    run_offsets();
    run_limit();
    run_bare();
    write_example();
    write_ends();
    write_counts();
    write_figures();
    write_nulls();
    write_bare(EXAMPLE_TEXT);
    write_bare(EXAMPLE_TEXT + 1);
    write_and_run();
    printf("%u checks, %u failed\n", checks, failed);
    return failed != 0;
}
