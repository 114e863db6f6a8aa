/*
 * Gives each table named to placement_report as it stands, with its words in small letters, in capitals, and in both by turns. Status 1 where the
 * four are not answered alike, or where a tag or a variable is taken in the other case.
 */
#include "placement.h"

#include <ctype.h>
#include <stdint.h>
#include <stdio.h>
#include <string.h>

/* A text and its answer. */
struct asked {
    uint8_t text[PLACEMENT_TEXT_LENGTH];
    size_t length;
    uint32_t result;
    uint8_t report[PLACEMENT_REPORT_LENGTH];
};

/* A way to write the letters of words, and how many tables it changes. */
struct way {
    const char *name;
    int (*letter)(int byte, size_t place);
    unsigned changed;
};

static int small(int byte, size_t place) {
    (void)place;
    return tolower(byte);
}

static int capital(int byte, size_t place) {
    (void)place;
    return toupper(byte);
}

static int by_turns(int byte, size_t place) {
    return place % 2 == 0 ? tolower(byte) : toupper(byte);
}

/* Lines of none of the forms, so that the answer is 1,000 and the line's number. */
static const struct {
    const char *text;
    uint32_t result;
} refused[] = {
    {"t,0,INT\n", 1001},
    {"T,0,INT\np,0,g0,0\n", 1002},
    {"T,0,INT\nP,0,g0,0\ne,0,VAR,0\n", 1003},
    {"T,0,INT\nP,0,G0,0\n", 1002},
    {"T,0,INT\nT,1,ARROW,g0,0,G1,0\n", 1002},
};

static struct asked table;
static struct asked other;

/* Asks for the report of a text that stands in its place. Bytes that the call leaves are 0. */
static void ask(struct asked *asked) {
    memset(asked->report, 0, sizeof asked->report);
    asked->result = placement_report(asked->text, asked->length, asked->report, sizeof asked->report);
}

/* Reads a table; where it cannot be read, says why and returns 0. */
static int read_table(const char *path) {
    FILE *file = fopen(path, "rb");

    if (file == NULL) {
        perror(path);
        return 0;
    }
    table.length = fread(table.text, 1, sizeof table.text, file);
    fclose(file);
    return 1;
}

/* A tag stands at the front of a line, and the letter of a variable before a digit: these are no letters of a word. */
static int of_a_word(size_t place) {
    int at_front = place == 0 || table.text[place - 1] == '\n';
    int before_digit = place + 1 < table.length && isdigit(table.text[place + 1]);

    return !at_front && !before_digit;
}

/* Writes the table in another way; returns whether that has changed it. */
static int write_other(const struct way *way) {
    other.length = table.length;
    for (size_t i = 0; i < table.length; i++) {
        uint8_t byte = table.text[i];
        other.text[i] = of_a_word(i) ? (uint8_t)way->letter(byte, i) : byte;
    }
    return memcmp(other.text, table.text, table.length) != 0;
}

/* Whether both were answered by the same number and the same bytes. */
static int answered_alike(void) {
    return other.result == table.result && memcmp(other.report, table.report, sizeof table.report) == 0;
}

/* Whether the texts with a tag or a variable in the other case are refused. */
static int refused_as_expected(void) {
    int good = 1;

    for (size_t i = 0; i < sizeof refused / sizeof *refused; i++) {
        other.length = strlen(refused[i].text);
        memcpy(other.text, refused[i].text, other.length);
        ask(&other);
        if (other.result != refused[i].result) {
            fprintf(stderr, "%u for\n%s", other.result, refused[i].text);
            good = 0;
        }
    }
    return good;
}

int main(int count, char **arguments) {
    struct way ways[] = {{"small letters", small, 0}, {"capitals", capital, 0}, {"both by turns", by_turns, 0}};
    size_t ways_count = sizeof ways / sizeof *ways;
    int good = refused_as_expected();

    for (int i = 1; i < count; i++) {
        if (!read_table(arguments[i])) {
            return 2;
        }
        ask(&table);
        for (size_t k = 0; k < ways_count; k++) {
            ways[k].changed += (unsigned)write_other(&ways[k]);
            ask(&other);
            if (!answered_alike()) {
                fprintf(stderr, "%s in %s: %u, and as it stands: %u\n", arguments[i], ways[k].name, other.result, table.result);
                good = 0;
            }
        }
    }
    for (size_t k = 0; k < ways_count; k++) {
        if (ways[k].changed == 0) {
            fprintf(stderr, "no table is another in %s\n", ways[k].name);
            good = 0;
        }
    }
    return good ? 0 : 1;
}
