/*
 * Measures the stack that calls of the entries take, on a scheme file and tables. Each table named is given to placement_report and, with as many
 * numbers as it takes, to placement_run; with the file to placement_report_under and placement_run_under; and the script that names the file's
 * schemes, adds the table's lines, infers and runs to placement_session. Each call is made in a thread whose stack was painted before; what is no
 * longer paint was used. Status 1 where a call took more than PLACEMENT_STACK_LENGTH, or PLACEMENT_RUN_STACK_LENGTH where it can run.
 */
#include "placement.h"

#include <pthread.h>
#include <stdint.h>
#include <stdio.h>
#include <string.h>
#include <sys/mman.h>

/* Far more than a call is to take, so that one that takes too much is measured and does not crash. */
#define ROOM ((size_t)1 << 20)
#define PAINT 0xA5

#define SCHEMES "schemes "
#define ADD "add "
#define INFER "infer\n"
#define RUN "run 10000"
#define ZERO " 0"

static uint8_t schemes[PLACEMENT_SCHEMES_LENGTH];
static size_t schemes_length;
static uint8_t text[PLACEMENT_TEXT_LENGTH];
static size_t text_length;
static uint8_t report[PLACEMENT_REPORT_LENGTH];

/* A table has at most so many parameters. The numbers are zeros, as no stack depends on them. */
#define PARAMETERS 64
#define BUDGET 10000

/* What the entries return where a count of numbers is wrong. */
#define NO_RUN (1000u * PLACEMENT_NO_RUN)

static const uint32_t numbers[PARAMETERS];
static size_t numbers_length;
static size_t numbers_length_under;
static uint32_t answer[PLACEMENT_ANSWER_LENGTH];

/*
 * A text of line feeds alone has the longest script. A scheme file or an add is answered by at most two digits and a line feed, and a run by at
 * most NUMBER, a number, a word of five letters and two counts of five digits.
 */
#define RUN_ANSWER (sizeof "NUMBER,4294967295,PLAIN,10000,10000")
static uint8_t script[sizeof SCHEMES + PLACEMENT_SCHEMES_LENGTH + PLACEMENT_TEXT_LENGTH * sizeof ADD + sizeof INFER + sizeof RUN +
                      PARAMETERS * sizeof ZERO];
static size_t script_length;
static uint8_t answers[3 + PLACEMENT_TEXT_LENGTH * 3 + PLACEMENT_REPORT_LENGTH + RUN_ANSWER];

/* An entry whose calls are measured, and the call that took the most. */
struct measure {
    const char *name;
    void *(*call)(void *);
    size_t limit;
    size_t most;
    const char *deepest;
};

/* Makes one call and hands back where its stack began. */
static void *call_report(void *unused) {
    (void)unused;
    void *begin = __builtin_frame_address(0);
    placement_report(text, text_length, report, sizeof report);
    return begin;
}

/* The same under the scheme file. */
static void *call_report_under(void *unused) {
    (void)unused;
    void *begin = __builtin_frame_address(0);
    placement_report_under(schemes, schemes_length, text, text_length, report, sizeof report);
    return begin;
}

/* The same for a dry run. */
static void *call_run(void *unused) {
    (void)unused;
    void *begin = __builtin_frame_address(0);
    placement_run(text, text_length, numbers, numbers_length, BUDGET, answer, PLACEMENT_ANSWER_LENGTH);
    return begin;
}

/* The same for one under the scheme file. */
static void *call_run_under(void *unused) {
    (void)unused;
    void *begin = __builtin_frame_address(0);
    placement_run_under(schemes, schemes_length, text, text_length, numbers, numbers_length_under, BUDGET, answer, PLACEMENT_ANSWER_LENGTH);
    return begin;
}

/* The same for the script. */
static void *call_session(void *unused) {
    (void)unused;
    void *begin = __builtin_frame_address(0);
    placement_session(script, script_length, answers, sizeof answers);
    return begin;
}

/* Appends bytes to the script. */
static void append(const void *bytes, size_t length) {
    memcpy(script + script_length, bytes, length);
    script_length += length;
}

/* Appends the command that names the schemes: a blank stands for each line feed. */
static void append_schemes(void) {
    append(SCHEMES, sizeof SCHEMES - 1);
    for (size_t i = 0; i < schemes_length; i++) {
        uint8_t byte = schemes[i] == '\n' ? ' ' : schemes[i];
        append(&byte, 1);
    }
    append("\n", 1);
}

/* Finds out how many numbers the table takes, without the scheme file and with it; 0 where it takes none or does not run. */
static void count_numbers(void) {
    numbers_length = 0;
    numbers_length_under = 0;
    for (size_t count = PARAMETERS; count > 0; count--) {
        if (placement_run(text, text_length, numbers, count, 0, answer, PLACEMENT_ANSWER_LENGTH) != NO_RUN) {
            numbers_length = count;
        }
        if (placement_run_under(schemes, schemes_length, text, text_length, numbers, count, 0, answer, PLACEMENT_ANSWER_LENGTH) != NO_RUN) {
            numbers_length_under = count;
        }
    }
}

/* Makes the script that names the schemes, adds the text's lines, infers and runs. */
static void make_script(void) {
    size_t line = 0;

    script_length = 0;
    append_schemes();
    while (line < text_length) {
        const uint8_t *end = memchr(text + line, '\n', text_length - line);
        size_t length = end == NULL ? text_length - line : (size_t)(end - (text + line));
        append(ADD, sizeof ADD - 1);
        append(text + line, length);
        append("\n", 1);
        line += length + 1;
    }
    append(INFER, sizeof INFER - 1);
    append(RUN, sizeof RUN - 1);
    for (size_t i = 0; i < numbers_length_under; i++) {
        append(ZERO, sizeof ZERO - 1);
    }
    append("\n", 1);
}

/* The bytes of stack that a call takes, with the frame of the function that makes it; 0 where no thread could be made. */
static size_t taken(void *(*call)(void *), uint8_t *stack) {
    pthread_attr_t attributes;
    pthread_t thread;
    void *begin = NULL;

    memset(stack, PAINT, ROOM);
    if (pthread_attr_init(&attributes) != 0 || pthread_attr_setstack(&attributes, stack, ROOM) != 0 ||
        pthread_create(&thread, &attributes, call, NULL) != 0 || pthread_join(thread, &begin) != 0) {
        return 0;
    }
    pthread_attr_destroy(&attributes);
    size_t clean = 0;
    while (clean < ROOM && stack[clean] == PAINT) {
        clean++;
    }
    return (size_t)((uint8_t *)begin - (stack + clean));
}

/* Reads as much of a file as there is room for; where it cannot be read, says why and returns 0. */
static int read_front(const char *path, uint8_t *front, size_t room, size_t *length) {
    FILE *file = fopen(path, "rb");

    if (file == NULL) {
        perror(path);
        return 0;
    }
    *length = fread(front, 1, room, file);
    fclose(file);
    return 1;
}

/* Measures one call on the table that was read; returns 0 where that fails. */
static int take(struct measure *measure, const char *path, uint8_t *stack) {
    size_t bytes = taken(measure->call, stack);

    if (bytes == 0) {
        fprintf(stderr, "no thread for %s\n", path);
        return 0;
    }
    if (bytes > measure->most) {
        measure->most = bytes;
        measure->deepest = path;
    }
    return 1;
}

int main(int count, char **arguments) {
    struct measure measures[] = {
        {"placement_report", call_report, PLACEMENT_STACK_LENGTH, 0, "none"},
        {"placement_report_under", call_report_under, PLACEMENT_STACK_LENGTH, 0, "none"},
        {"placement_run", call_run, PLACEMENT_RUN_STACK_LENGTH, 0, "none"},
        {"placement_run_under", call_run_under, PLACEMENT_RUN_STACK_LENGTH, 0, "none"},
        {"placement_session", call_session, PLACEMENT_RUN_STACK_LENGTH, 0, "none"},
    };
    size_t measures_count = sizeof measures / sizeof *measures;
    uint8_t *stack = mmap(NULL, ROOM, PROT_READ | PROT_WRITE, MAP_PRIVATE | MAP_ANONYMOUS, -1, 0);
    int within = count > 2;

    if (stack == MAP_FAILED) {
        perror("mmap");
        return 2;
    }
    if (count > 1 && !read_front(arguments[1], schemes, sizeof schemes, &schemes_length)) {
        return 2;
    }
    for (int i = 2; i < count; i++) {
        if (!read_front(arguments[i], text, sizeof text, &text_length)) {
            return 2;
        }
        count_numbers();
        make_script();
        for (size_t k = 0; k < measures_count; k++) {
            if (!take(&measures[k], arguments[i], stack)) {
                return 2;
            }
        }
    }
    for (size_t k = 0; k < measures_count; k++) {
        printf("%s: at most %zu bytes of stack (%s)\n", measures[k].name, measures[k].most, measures[k].deepest);
        within = within && measures[k].most <= measures[k].limit;
    }
    return within ? 0 : 1;
}
