/*
 * Reads a table from a file and prints its report, or says in words why it is refused and what to do. A second file, where one is named, is the
 * owner's scheme file, and the report is the one under its schemes.
 */
#include "placement.h"

#include <stdint.h>
#include <stdio.h>

enum status { ACCEPTED = 0, REFUSED = 1, NOT_RUN = 2 };

/* What a refusal means and what to do about it. */
static const char *words(unsigned number) {
    switch (number) {
    case PLACEMENT_NO_FORM:
        return "the line is longer than 64 bytes or has none of the forms that docs/NUMBERS.md lists. T, P and E are capitals, and the g of a variable is small. Scheme words are those of the scheme file, or of the six where none is given.";
    case PLACEMENT_NOT_NEXT:
        return "the line's own number is not the next in its list. Number T, P and E lines from 0, each without a gap.";
    case PLACEMENT_LIST_FULL:
        return "the list is full. Keep to 64 types, 64 parameters and 256 term rows, or split the job.";
    case PLACEMENT_NO_TYPE_ROW:
        return "the line names a type row that is not declared yet. Declare it by a T line above this one.";
    case PLACEMENT_NO_PARAMETER:
        return "the line names a parameter that is not declared yet. Declare it by a P line above this one.";
    case PLACEMENT_CHILD_NOT_BELOW:
        return "the row names a child that is not below its own number. Put the child's line first.";
    case PLACEMENT_CHILD_USED:
        return "a child has a parent already, or is named twice. Give each use a row of its own.";
    case PLACEMENT_PARAMETER_BOUND:
        return "another LAM binds this parameter already. Declare a second parameter for the second LAM.";
    case PLACEMENT_NOT_CLOSED:
        return "the rows are not one closed program. Use each row but the last, bind each parameter, and use it only under its LAM.";
    case PLACEMENT_SHORT_BUFFER:
        return "the report buffer is too short. Lend at least 6,280 bytes.";
    case PLACEMENT_NO_SHAPES:
        return "numbers and functions are mixed up here, or a type would contain itself. Apply functions only, and calculate with numbers only.";
    case PLACEMENT_NO_QUALIFIERS:
        return "two different qualifiers would have to be one here, or a function would stand under a scheme. Declare what meets alike or with a variable, and functions PLAIN or with a variable; at row E,0 look at the T and P lines.";
    case PLACEMENT_NO_BOUNDS:
        return "a declared scheme does not support an operation on it. Declare a scheme that supports it, or a variable.";
    case PLACEMENT_BELOW_FLOOR:
        return "the greatest scheme for this input is not at or above its floor. Lower the floor, or change what the program does with the input.";
    case PLACEMENT_SCHEME_FILE:
        return "the scheme file does not have 1 to 8 lines S,NAME,BITS with names of 1 to 5 capitals other than PLAIN, each with five digits 0 or 1, or two lines have the same name or the same digits.";
    case PLACEMENT_NO_MEET:
        return "the scheme file has no greatest scheme, or two schemes in it have no greatest lower bound. Add a scheme that supports exactly what all schemes have in common, or one that supports exactly what those two support together, and check the file again.";
    case PLACEMENT_NO_HIGHEST:
        return "an operation has supporters in the scheme file, but no highest one. Add a scheme that supports exactly what all its supporters have in common, and check the file again.";
    default:
        return "this program does not know the number. See docs/NUMBERS.md.";
    }
}

/* Explains a refusal on standard error. */
static void explain(uint32_t result) {
    unsigned number = placement_number(result);

    fprintf(stderr, "refused with %u", number);
    if (placement_names_line(number)) {
        fprintf(stderr, " at line %u", placement_place(result));
    } else if (placement_names_row(number)) {
        fprintf(stderr, " at row E,%u", placement_place(result));
    } else if (placement_names_parameter(number)) {
        fprintf(stderr, " at parameter P,%u", placement_place(result));
    }
    fprintf(stderr, ": %s\n", words(number));
}

/* Reads as much of a file as can matter; where it cannot be read, says why and returns 0. */
static int read_front(const char *path, uint8_t *front, size_t room, size_t *length) {
    FILE *file = fopen(path, "rb");

    if (file == NULL) {
        perror(path);
        return 0;
    }
    *length = fread(front, 1, room, file);
    int good = !ferror(file);
    if (!good) {
        perror(path);
    }
    fclose(file);
    return good;
}

int main(int count, char **arguments) {
    static uint8_t text[PLACEMENT_TEXT_LENGTH];
    static uint8_t schemes[PLACEMENT_SCHEMES_LENGTH];
    static uint8_t report[PLACEMENT_REPORT_LENGTH];
    size_t text_length = 0;
    size_t schemes_length = 0;
    uint32_t result;

    if (count != 2 && count != 3) {
        fprintf(stderr, "usage: example TABLE [SCHEMES]\n");
        return NOT_RUN;
    }
    if (!read_front(arguments[1], text, sizeof text, &text_length)) {
        return NOT_RUN;
    }
    if (count == 2) {
        result = placement_report(text, text_length, report, sizeof report);
    } else if (read_front(arguments[2], schemes, sizeof schemes, &schemes_length)) {
        result = placement_report_under(schemes, schemes_length, text, text_length, report, sizeof report);
    } else {
        return NOT_RUN;
    }
    if (!placement_accepted(result)) {
        explain(result);
        return REFUSED;
    }
    size_t length = placement_length(result);
    if (fwrite(report, 1, length, stdout) != length || fflush(stdout) != 0) {
        perror("standard output");
        return NOT_RUN;
    }
    return ACCEPTED;
}
