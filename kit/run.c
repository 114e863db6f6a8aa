/*
 * Makes a dry run of the job in a table on the numbers named, with at most so many steps, and prints how it ended, in one line:
 *
 *   NUMBER,number,tag,applications,operations   with a number, and the word of its scheme
 *   FUNCTION,applications,operations            with a function, which nothing is applied to
 *   NO,number,applications,operations           refused with 28, 29 or 30, after so many steps
 *   X,number,line                               a line is refused; X,25,0, X,26,0 or X,27,0 for a scheme file
 *
 * With --schemes the tags are those of the owner's scheme file.
 */
#include "placement.h"

#include <errno.h>
#include <stdint.h>
#include <stdio.h>
#include <stdlib.h>
#include <string.h>

enum status { ENDED = 0, REFUSED = 1, NOT_RUN = 2 };

/* A table has at most 64 parameters, so that 65 numbers are a wrong count, whatever they are, and no more have to be read. */
#define NUMBERS 65

/* The words of the six, as a scheme file has them. */
static const uint8_t six[] = "S,FHE,11111\nS,OP,00111\nS,DET,00100\nS,MH,01000\nS,AH,10000\nS,RAND,00000\n";

static uint8_t text[PLACEMENT_TEXT_LENGTH];
static uint8_t schemes[PLACEMENT_SCHEMES_LENGTH];
static uint32_t numbers[NUMBERS];
static uint32_t answer[PLACEMENT_ANSWER_LENGTH];

/* Reads as much of a file as can matter; where it cannot be read, says why and returns 0. */
static int read_front(const char *path, uint8_t *front, size_t room, size_t *length) {
    FILE *file = fopen(path, "rb");

    if (file == NULL) {
        perror(path);
        return 0;
    }
    *length = fread(front, 1, room, file);
    int good = !ferror(file);
    if (!good) {
        perror(path);
    }
    fclose(file);
    return good;
}

/* Reads a number of 0 to 4294967295; where a word is none, says so and returns 0. */
static int read_number(const char *word, uint32_t *number) {
    char *end;

    errno = 0;
    unsigned long long value = strtoull(word, &end, 10);
    if (word[0] < '0' || word[0] > '9' || *end != '\0' || errno != 0 || value > UINT32_MAX) {
        fprintf(stderr, "%s is no number of 0 to 4294967295\n", word);
        return 0;
    }
    *number = (uint32_t)value;
    return 1;
}

/* Prints the word of a tag: PLAIN, or the name in that line of an accepted scheme file, which is shorter than its room, so that a 0 ends it. */
static void print_word(uint32_t tag, const uint8_t *file) {
    if (tag == 0) {
        printf("PLAIN");
        return;
    }
    const char *line = (const char *)file;
    for (uint32_t i = 1; i < tag; i++) {
        line = strchr(line, '\n') + 1;
    }
    const char *name = line + strlen("S,");
    printf("%.*s", (int)strcspn(name, ","), name);
}

/* Prints how a run ended; gives the status that says so. */
static enum status print(uint32_t result, const uint8_t *file) {
    unsigned number = placement_number(result);
    int ran = number == PLACEMENT_NO_RUN || number == PLACEMENT_OVERFLOW || number == PLACEMENT_OUT_OF_BUDGET;

    if (result == PLACEMENT_RAN_TO_NUMBER) {
        printf("NUMBER,%u,", answer[PLACEMENT_ANSWER_NUMBER]);
        print_word(answer[PLACEMENT_ANSWER_TAG], file);
    } else if (result == PLACEMENT_RAN_TO_FUNCTION) {
        printf("FUNCTION");
    } else if (ran) {
        printf("NO,%u", number);
    } else {
        printf("X,%u,%u\n", number, placement_place(result));
        return REFUSED;
    }
    printf(",%u,%u\n", answer[PLACEMENT_ANSWER_APPLICATIONS], answer[PLACEMENT_ANSWER_OPERATIONS]);
    return placement_accepted(result) ? ENDED : REFUSED;
}

int main(int count, char **arguments) {
    const uint8_t *file = six;
    size_t text_length = 0;
    size_t schemes_length = 0;
    size_t numbers_length = 0;
    uint32_t budget;
    uint32_t result;

    int owned = count > 2 && strcmp(arguments[1], "--schemes") == 0;
    char **words = arguments + (owned ? 3 : 1);
    if (arguments + count < words + 2) {
        fprintf(stderr, "usage: run [--schemes SCHEMES] TABLE BUDGET NUMBER ...\n");
        return NOT_RUN;
    }
    if (!read_front(words[0], text, sizeof text, &text_length) || !read_number(words[1], &budget)) {
        return NOT_RUN;
    }
    for (words += 2; words < arguments + count && numbers_length < NUMBERS; words++, numbers_length++) {
        if (!read_number(*words, &numbers[numbers_length])) {
            return NOT_RUN;
        }
    }
    if (!owned) {
        result = placement_run(text, text_length, numbers, numbers_length, budget, answer, PLACEMENT_ANSWER_LENGTH);
    } else if (read_front(arguments[2], schemes, sizeof schemes, &schemes_length)) {
        file = schemes;
        result = placement_run_under(schemes, schemes_length, text, text_length, numbers, numbers_length, budget, answer, PLACEMENT_ANSWER_LENGTH);
    } else {
        return NOT_RUN;
    }
    enum status status = print(result, file);
    if (fflush(stdout) != 0 || ferror(stdout)) {
        perror("standard output");
        return NOT_RUN;
    }
    return status;
}
