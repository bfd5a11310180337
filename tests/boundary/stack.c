/*
 * How much stack the calls of include/register.h take.
 *
 *     stack [FILE...]
 *
 * Each call runs in a thread whose stack is painted before, over a guard page.
 * The deepest byte that is not of the paint any more says how far the call went.
 * Where memcpy is bound late, that of the dynamic linker's work counts too.
 * The inputs: an empty one, the files given, calls up to the limit and past it.
 * Job texts: the shortest, the longest and a refused one.
 * Prints the most that each function took, a line for each check that fails,
 * and last how many checks there were.
 */
#define _XOPEN_SOURCE 700
#define _DEFAULT_SOURCE

#include <limits.h>
#include <pthread.h>
#include <stdio.h>
#include <stdlib.h>
#include <string.h>
#include <sys/mman.h>

#include "register.h"

#define PAGE 4096
#define STACK (REGISTER_RUN_STACK + PTHREAD_STACK_MIN)
#define CLOCK "act=clock\ntick=0\n"

typedef struct {
    const uint8_t *input;
    size_t length;
    const uint64_t *figures;
    size_t count;
    uint8_t *output;
    const uint8_t *top;
} call;

static unsigned checks, failed;

static void check(int holds, const char *name)
{
    checks += 1;
    if (!holds) {
        failed += 1;
        printf("failed: %s\n", name);
    }
}

static void need(int holds, const char *what)
{
    if (!holds) {
        printf("failed: %s\n", what);
        exit(1);
    }
}

/* The body of a thread: one call, and an address in the frame of its caller. */
static void *make_call(void *given)
{
    call *made = (call *)given;
    size_t length = 0;

    made->top = (const uint8_t *)&length + sizeof length;
    if (made->figures != NULL) {
        register_write_job(made->figures, made->count, made->output, REGISTER_JOB_TEXT_MOST, &length);
    } else {
        register_run(made->input, made->length, made->output);
    }
    return NULL;
}

/* The bytes of stack that a call takes, counted from its caller's frame on. */
static size_t taken(call *made, int paint)
{
    uint8_t *area = (uint8_t *)mmap(NULL, PAGE + STACK, PROT_READ | PROT_WRITE, MAP_PRIVATE | MAP_ANONYMOUS, -1, 0);
    const uint8_t *deepest;
    pthread_attr_t attributes;
    pthread_t thread;
    size_t bytes;

    need(area != MAP_FAILED, "no memory for a stack");
    need(mprotect(area, PAGE, PROT_NONE) == 0, "no guard page");
    memset(area + PAGE, paint, STACK);
    need(pthread_attr_init(&attributes) == 0, "no attributes");
    need(pthread_attr_setstack(&attributes, area + PAGE, STACK) == 0, "no stack of its own");
    need(pthread_create(&thread, &attributes, make_call, made) == 0, "no thread");
    need(pthread_join(thread, NULL) == 0, "the thread is lost");
    pthread_attr_destroy(&attributes);
    deepest = area + PAGE;
    while (*deepest == (uint8_t)paint) {
        deepest += 1;
    }
    bytes = (size_t)(made->top - deepest);
    munmap(area, PAGE + STACK);
    return bytes;
}

/* The same with two paints, so that no byte of a call passes for paint. */
static size_t most_taken(call *made)
{
    size_t first = taken(made, 0xa5);
    size_t second = taken(made, 0x5a);

    return first < second ? second : first;
}

static void run_on(const char *name, const uint8_t *input, size_t length, size_t *most)
{
    uint8_t *output = (uint8_t *)malloc(REGISTER_OUTPUT_SIZE);
    call made = {input, length, NULL, 0, output, NULL};
    size_t bytes;

    need(output != NULL, "no memory for an output");
    bytes = most_taken(&made);
    check(bytes <= REGISTER_RUN_STACK, name);
    *most = *most < bytes ? bytes : *most;
    free(output);
}

static void run_file(const char *name, size_t *most)
{
    uint8_t *input = (uint8_t *)malloc(REGISTER_INPUT_MOST + 1);
    FILE *file = fopen(name, "rb");
    size_t length;

    need(input != NULL && file != NULL, name);
    length = fread(input, 1, REGISTER_INPUT_MOST + 1, file);
    need(ferror(file) == 0, name);
    fclose(file);
    run_on(name, input, length, most);
    free(input);
}

/* Clock moves up to the limit of the input, and one byte past it. */
static void run_long(size_t *most)
{
    uint8_t *input = (uint8_t *)malloc(REGISTER_INPUT_MOST + 1);
    size_t place;

    need(input != NULL, "no memory for an input");
    for (place = 0; place <= REGISTER_INPUT_MOST; place++) {
        input[place] = (uint8_t)CLOCK[place % (sizeof CLOCK - 1)];
    }
    run_on("the longest input", input, REGISTER_INPUT_MOST, most);
    run_on("an input past the limit", input, REGISTER_INPUT_MOST + 1, most);
    free(input);
}

static void write_on(const char *name, const uint64_t *figures, size_t count, size_t *most)
{
    uint8_t output[REGISTER_JOB_TEXT_MOST];
    call made = {NULL, 0, figures, count, output, NULL};
    size_t bytes = most_taken(&made);

    check(bytes <= REGISTER_WRITE_JOB_STACK, name);
    *most = *most < bytes ? bytes : *most;
}

static void write_texts(size_t *most)
{
    uint64_t figures[REGISTER_JOB_FIGURES_MOST + 1];
    size_t place;

    for (place = 0; place <= REGISTER_JOB_FIGURES_MOST; place++) {
        figures[place] = REGISTER_FIGURE_MOST;
    }
    figures[2] = 16;
    figures[3 + 16 * 6] = 32;
    write_on("the longest text", figures, REGISTER_JOB_FIGURES_MOST, most);
    write_on("a figure too many", figures, REGISTER_JOB_FIGURES_MOST + 1, most);
    memset(figures, 0, sizeof figures);
    figures[2] = 1;
    write_on("the shortest text", figures, 10, most);
}

int main(int count, char **names)
{
    size_t run = 0;
    size_t write = 0;
    int place;

    write_texts(&write); /* first: the first call of a function of the C library takes more, where it is bound lazily */
    run_on("an empty input", NULL, 0, &run);
    run_long(&run);
    for (place = 1; place < count; place++) {
        run_file(names[place], &run);
    }
    printf("stack of register_run: at most %zu bytes of %d\n", run, REGISTER_RUN_STACK);
    printf("stack of register_write_job: at most %zu bytes of %d\n", write, REGISTER_WRITE_JOB_STACK);
    printf("%u checks, %u failed\n", checks, failed);
    return failed != 0;
}
