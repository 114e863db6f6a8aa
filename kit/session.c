/* Reads a script from a file and prints the answers to its commands. */
#include "placement.h"

#include <stdint.h>
#include <stdio.h>
#include <stdlib.h>

enum status { ANSWERED = 0, NOT_RUN = 2 };

/* Bytes that are read, or that are to be written. */
struct bytes {
    uint8_t *start;
    size_t length;
};

/* Twice as much room for bytes, or some where there is none; NULL where there is no memory. */
static uint8_t *widened(uint8_t *start, size_t *room) {
    *room = *room == 0 ? 4096 : *room * 2;
    return realloc(start, *room);
}

/* Reads a whole file, and returns 0 where that fails. The caller frees what was read, also then. */
static int read_all(FILE *file, struct bytes *script) {
    size_t room = 0;

    do {
        if (script->length == room) {
            uint8_t *wider = widened(script->start, &room);
            if (wider == NULL) {
                return 0;
            }
            script->start = wider;
        }
        script->length += fread(script->start + script->length, 1, room - script->length, file);
    } while (!feof(file) && !ferror(file));
    return !ferror(file);
}

/* The same for a file that is named; where it cannot be read, says why. */
static int read_script(const char *path, struct bytes *script) {
    FILE *file = fopen(path, "rb");
    int good = file != NULL && read_all(file, script);

    if (!good) {
        perror(path);
    }
    if (file != NULL) {
        fclose(file);
    }
    return good;
}

/* Answers a script: the first call says how many bytes the answers have, and the second writes them. Returns 0 where there is no memory. */
static int answer(const struct bytes *script, struct bytes *answers) {
    uint8_t none;

    answers->length = placement_session(script->start, script->length, &none, 0);
    answers->start = malloc(answers->length == 0 ? 1 : answers->length);
    if (answers->start == NULL) {
        perror("answers");
        return 0;
    }
    placement_session(script->start, script->length, answers->start, answers->length);
    return 1;
}

/* Prints the answers; where that fails, says why and returns 0. */
static int print(const struct bytes *answers) {
    if (fwrite(answers->start, 1, answers->length, stdout) != answers->length || fflush(stdout) != 0) {
        perror("standard output");
        return 0;
    }
    return 1;
}

int main(int count, char **arguments) {
    struct bytes script = {NULL, 0};
    struct bytes answers = {NULL, 0};

    if (count != 2) {
        fprintf(stderr, "usage: session SCRIPT\n");
        return NOT_RUN;
    }
    int good = read_script(arguments[1], &script) && answer(&script, &answers) && print(&answers);
    free(script.start);
    free(answers.start);
    return good ? ANSWERED : NOT_RUN;
}
