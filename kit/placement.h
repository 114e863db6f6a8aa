/*
 * placement, for a key loader in C or C++: a whole table in, its report or a refusal out, under the built-in six schemes or under a
 * scheme file of the owner's; or a script of commands in, the answers out. For testers: a table and numbers in, the result of a dry run out.
 *
 * Link with libplacement.a, which `kit/archive placement` writes to target/staticlib. The archive is for x86-64 Linux and needs nothing
 * else but memcpy and memset of the C library. docs/NUMBERS.md has an example and a fix for every refusal.
 */
#ifndef PLACEMENT_H
#define PLACEMENT_H

#include <stddef.h>
#include <stdint.h>

#ifdef __cplusplus
extern "C" {
#endif

/* The version of this header and of the archive that belongs to it. CHANGELOG.md lists the versions. */
#define PLACEMENT_VERSION "5.0.0"
#define PLACEMENT_VERSION_MAJOR 5
#define PLACEMENT_VERSION_MINOR 0
#define PLACEMENT_VERSION_PATCH 0

/* A report buffer has at least this many bytes, and no report is longer. */
#define PLACEMENT_REPORT_LENGTH 6280

/* What stands in a text after this many bytes changes nothing: by then a line has been refused, or the text has ended. */
#define PLACEMENT_TEXT_LENGTH 25025

/* What stands in a scheme file after this many bytes changes nothing: no accepted one has more than 112, and a longer one is refused with 25. */
#define PLACEMENT_SCHEMES_LENGTH 113

/*
 * Stack to have free for a call of placement_report or placement_report_under, in bytes. Measured: 35,100 for ordinary tables, 57,100 for the
 * deepest types found. Nothing proves a bound; kit/test measures all calls anew and holds them to this number and the next.
 */
#define PLACEMENT_STACK_LENGTH 131072

/*
 * The same for placement_run and placement_run_under, and for placement_session where its script has the command run. Measured: 159,700 for
 * ordinary tables and for the deepest types found, in a session 181,000.
 */
#define PLACEMENT_RUN_STACK_LENGTH 393216

/* A run's answer has at least this many numbers. */
#define PLACEMENT_ANSWER_LENGTH 4

/*
 * What placement_report and placement_report_under return: from here on this number plus the report's length; below it 1,000 times a refusal's
 * number plus its line, row or parameter.
 */
#define PLACEMENT_ACCEPTED 100000u

/*
 * What placement_run and placement_run_under return for a run that came to its end, with a number or with a function. A refusal is below both:
 * 1,000 times its number, plus the line where a line is refused.
 */
#define PLACEMENT_RAN_TO_NUMBER 100000u
#define PLACEMENT_RAN_TO_FUNCTION 100001u

/* The places of a run's answer. */
enum placement_answer {
    PLACEMENT_ANSWER_NUMBER = 0,       /* the number that the run ended with, else 0 */
    PLACEMENT_ANSWER_TAG = 1,          /* the code of its scheme, else 0. 0 is PLAIN, which is no tag */
    PLACEMENT_ANSWER_APPLICATIONS = 2, /* the applications that were made */
    PLACEMENT_ANSWER_OPERATIONS = 3    /* the operations that were made */
};

/* The refusals' numbers. */
enum placement_refusal {
    /* With the line's number, counted from 1. */
    PLACEMENT_NO_FORM = 1,           /* longer than 64 bytes, or none of the forms */
    PLACEMENT_NOT_NEXT = 2,          /* own number is not the next in its list */
    PLACEMENT_LIST_FULL = 3,         /* 64 types, 64 parameters or 256 term rows stand already */
    PLACEMENT_NO_TYPE_ROW = 4,       /* type row not declared before this line */
    PLACEMENT_NO_PARAMETER = 5,      /* parameter not declared before this line */
    PLACEMENT_CHILD_NOT_BELOW = 6,   /* child not below own number */
    PLACEMENT_CHILD_USED = 7,        /* child already used, or one row named as both children */
    PLACEMENT_PARAMETER_BOUND = 8,   /* LAM of a parameter already bound */
    /* With 0. */
    PLACEMENT_NOT_CLOSED = 10,       /* the rows are not one closed program */
    PLACEMENT_SHORT_BUFFER = 11,     /* report buffer shorter than PLACEMENT_REPORT_LENGTH, or answer than PLACEMENT_ANSWER_LENGTH */
    /* With the term row's number, counted from 0: the least one that leaves no typing. 22 at row 0: the T and P lines alone leave none. */
    PLACEMENT_NO_SHAPES = 21,        /* no typing, even when qualifiers are ignored */
    PLACEMENT_NO_QUALIFIERS = 22,    /* no typing, even when "at or below" is dropped: two qualifiers meet, or a scheme and a function */
    PLACEMENT_NO_BOUNDS = 23,        /* no typing */
    /*
     * With the parameter's number, counted from 0: the lowest whose scheme is not at or above its floor. The program has typings, but none that
     * meets every floor. Lower the floor, or change what the program does with that input. A function is PLAIN, and meets the floor PLAIN alone.
     */
    PLACEMENT_BELOW_FLOOR = 24,      /* a parameter's greatest scheme is not at or above its floor */
    /* With 0, for a scheme file: from the two entries that take one, and in the answers to a script. The first of the three that applies. */
    PLACEMENT_SCHEME_FILE = 25,      /* not 1 to 8 lines, a line that is no S,NAME,BITS, or a repeated name or repeated digits */
    PLACEMENT_NO_MEET = 26,          /* no greatest scheme, or two schemes without a greatest lower bound */
    PLACEMENT_NO_HIGHEST = 27,       /* an operation that schemes support, and none of these is at or above all of them */
    /* With 0, for a dry run: from placement_run and placement_run_under, and in the answers to a script, with the steps that were made. */
    PLACEMENT_NO_RUN = 28,           /* wrong count of numbers, a function among the leading parameters, or a program that has no report */
    PLACEMENT_OVERFLOW = 29,         /* a result passes 4294967295 */
    PLACEMENT_OUT_OF_BUDGET = 30,    /* the budget's steps were made and the run is not over, or the next step stands too deep */
    /* In the answers to a script only. */
    PLACEMENT_NO_TERM_ROW = 9,       /* take-back with no term row */
    PLACEMENT_NO_CODE = 12           /* redeclare with a code above the last variable's, which is 70 under the built-in six */
};

/*
 * Reads the lines of a table and writes its report, under the built-in six schemes.
 *
 * Accepted: returns PLACEMENT_ACCEPTED plus the report's length. The report stands at the front of the buffer, without a 0 at its end; the
 * bytes beyond it are as they were. Refused: returns the number and the place as above, and the whole buffer is as it was. A short buffer
 * is refused before the text is looked at.
 *
 * A line's words, such as ADD, INT or RAND, may be in capitals, in small letters or mixed; its tag T, P or E is a capital, and the g of a
 * variable is small. The report has capitals, whatever the table has. The last line may lack its line feed.
 *
 * A line P or E of the report ends in its shape: INT for a number, ARROW for a function, and ANY where the table leaves it open, a number
 * being taken for it in the words. There is no key for a function: with the shape ARROW the word is always PLAIN. A variable that stands with a
 * function is PLAIN too, and an input that shares it leaves in the open, unless its floor refuses that with 24.
 *
 * Line E,i of the report is the table's row i. The word that the report has for a NUM row is the scheme under which the loader encrypts that
 * literal before upload; PLAIN leaves it in the open. A loader that looks for NUM and ENC rows in the table has to know these words in
 * either case, or it misses literals. The table's text has every literal in the open: do not upload it as it stands.
 *
 * text: any bytes, of any length. They are read and never changed.
 * report: the caller's buffer. Nothing of it, or of the text, is kept after the call.
 *
 * The caller owes: pointers that are not null, also for length 0; lengths that are true; a text and a buffer that do not overlap; nobody
 * else who writes to either during the call; and PLACEMENT_STACK_LENGTH bytes of free stack.
 *
 * The call takes no memory but its stack and holds no state, so threads may call it at once, each with a buffer of its own. It ends for
 * every text.
 */
uint32_t placement_report(const uint8_t *text, size_t text_length, uint8_t *report, size_t report_length);

/*
 * The same under a scheme file: reads the lines of a table and writes its report, in which the owner's schemes stand in the place of the six.
 *
 * A scheme file has 1 to 8 lines S,NAME,BITS. NAME is 1 to 5 capital letters A to Z and not PLAIN. BITS is five digits 0 or 1 that say
 * whether the scheme supports ADD, MUL, EQ, LT and GT, in this order. No two lines have the same name, and no two the same digits. A line ends
 * in a line feed, which the last one may lack; carriage returns, blanks, comments and empty lines are refused with 25. The file of the six is
 *
 *   S,FHE,11111
 *   S,OP,00111
 *   S,DET,00100
 *   S,MH,01000
 *   S,AH,10000
 *   S,RAND,00000
 *
 * One scheme is at or below another when it supports at least as much, and PLAIN is below all. In a file that is accepted there is a greatest
 * scheme, any two qualifiers have a greatest lower bound, and an operation that some scheme supports has one highest scheme, which all that
 * support it are at or below. An operation that no scheme supports has PLAIN as its highest: an input with a variable is PLAIN there and leaves
 * in the open, unless its floor refuses that with 24. So it is with two or more operations that no one scheme supports together. What a scheme
 * supports is the owner's word, which nothing checks.
 *
 * The qualifier words of the table are PLAIN and the file's names: in T and P lines, as floors and, without PLAIN, in ENC lines. Like all words
 * they may be in either case. The report has the names as the file has them. A word of the six that the file does not name is none of the
 * forms, so that its line is refused with 1.
 *
 * Returns what placement_report returns, or 25,000, 26,000 or 27,000 for a refused file. A short buffer is refused before the file is looked
 * at, and the file before the text is. Refused: the whole buffer is as it was.
 *
 * schemes, text: any bytes, of any length. They are read and never changed.
 * report: the caller's buffer. Nothing of it, of the file or of the text is kept after the call.
 *
 * The caller owes: pointers that are not null, also for length 0; lengths that are true; a buffer that overlaps neither the file nor the text
 * (file and text may overlap each other); nobody else who writes to any of the three during the call; and PLACEMENT_STACK_LENGTH bytes of free
 * stack.
 *
 * This call too takes no memory but its stack, holds no state and ends for every file and text, so threads may call it at once, each with a
 * buffer of its own.
 */
uint32_t placement_report_under(const uint8_t *schemes, size_t schemes_length, const uint8_t *text, size_t text_length, uint8_t *report,
                                size_t report_length);

/*
 * Makes a dry run of a job, without keys: reads the lines of a table and applies the leading LAMs of its last row to numbers, the outermost to
 * the first, under the built-in six schemes.
 *
 * Each number has its parameter's scheme in the report as its tag, and each literal its row's. A function and its argument are worked out before
 * the call, an operation's left side before its right, and nothing is worked out inside a LAM that waits for its argument. ADD and MUL keep the
 * tag of their operands; EQ, LT and GT give 1 where they hold and else 0, without a tag. One application or one operation is a step, and the
 * budget says how many steps may be made. One above 10,000 counts as 10,000.
 *
 * Returns PLACEMENT_RAN_TO_NUMBER or PLACEMENT_RAN_TO_FUNCTION where the run came to its end; or it refuses with
 *
 *   28,000   where the count of numbers is not that of the leading LAMs, where the report has the shape ARROW for one of their parameters, and
 *            where placement_report would refuse the program, with 10 or 21 to 24. No step is made
 *   29,000   where the result of the next operation passes 4294967295. That operation is not counted
 *   30,000   where the budget's steps were made and the run is not over, or where more than 4,096 reduction contexts stand around the next
 *            step: applications and operations that wait for what is worked out inside them. Looked at before each step, and before 29
 *
 * With each of these five the front of the answer is written, as enum placement_answer has it, and the numbers beyond it are as they were. The
 * codes of tags are those of a redeclare: 0 to 6 are PLAIN, FHE, OP, DET, MH, AH and RAND. All else leaves the whole answer as it was: 11,000 for
 * an answer shorter than PLACEMENT_ANSWER_LENGTH, before the text is looked at, and what placement_report returns for a refused line.
 *
 * text, numbers: any bytes and any numbers, of any length. They are read and never changed.
 * answer: the caller's array. Nothing of it, of the text or of the numbers is kept after the call.
 *
 * The caller owes: pointers that are not null, also for length 0, and for numbers and answer aligned as uint32_t is; lengths that are true, for
 * numbers and answer in numbers and not in bytes; an answer that overlaps neither the text nor the numbers (these two may overlap each other);
 * nobody else who writes to any of the three during the call; and PLACEMENT_RUN_STACK_LENGTH bytes of free stack, more than a report needs.
 *
 * The call takes no memory but its stack and holds no state, so threads may call it at once, each with an answer of its own. It ends for every
 * text, after 10,000 steps at most.
 */
uint32_t placement_run(const uint8_t *text, size_t text_length, const uint32_t *numbers, size_t numbers_length, uint32_t budget,
                       uint32_t *answer, size_t answer_length);

/*
 * The same under a scheme file, as placement_report_under takes it. The tag of a number is 0 for PLAIN, or the place of its scheme in the file,
 * counted from 1.
 *
 * Returns what placement_run returns, or 25,000, 26,000 or 27,000 for a refused file, with the whole answer as it was. A short answer is refused
 * before the file is looked at, and the file before the text is.
 *
 * The caller owes what placement_run asks for, of the file as of the text.
 */
uint32_t placement_run_under(const uint8_t *schemes, size_t schemes_length, const uint8_t *text, size_t text_length, const uint32_t *numbers,
                             size_t numbers_length, uint32_t budget, uint32_t *answer, size_t answer_length);

/*
 * Answers the commands of a script in turn, from a fresh table of the built-in six schemes on.
 *
 * A script has one command a line; a last line without a line feed counts if it is not empty. Each line is answered by one or more lines:
 *
 *   add LINE           its number: 0, or a refusal's. LINE is a line of a table, any bytes
 *   redeclare P CODE   its number. Gives parameter P another qualifier: codes 0 to 6 are PLAIN, FHE, OP, DET, MH, AH and RAND, and
 *                      7 to 70 are g0 to g63. Under a file of n schemes code 0 is PLAIN, 1 to n are the schemes in the file's
 *                      order, and n + 1 to n + 64 are g0 to g63. Both numbers are decimal, at most 4294967295 and without leading
 *                      zeros. The parameter's floor stays
 *   take-back          its number. Drops the last term row
 *   infer              the report, as placement_report writes it, or NO,number,row; for 24 NO,24,parameter
 *   schemes LINES      its number: 0, 25, 26 or 27. LINES is a scheme file, as placement_report_under takes it, with a blank in the
 *                      place of each line feed, also of the last one: in a shell, echo "schemes $(tr '\n' ' ' < FILE)". Two blanks
 *                      are an empty line, and no byte behind the first blank is an empty file: 25. Accepted, the table from then on
 *                      is a fresh one of that file's schemes, and what stood before is gone; refused, nothing is changed. The way
 *                      back to the six is their own file
 *   run BUDGET NUMBER ...
 *                      a dry run of the table as it stands, as placement_run makes it: NUMBER,number,tag,applications,operations with
 *                      the word of the tag; FUNCTION,applications,operations; or NO,number,applications,operations for 28, 29 and
 *                      30. One blank stands before each number; they are decimal, at most 4294967295 and without leading zeros, or
 *                      the line is answered by ?. After 65 numbers behind the budget nothing is looked at, as no table takes so
 *                      many. Nothing is changed
 *   any other line     ? and nothing is changed. Commands are in small letters
 *
 * Returns the length of all answers, at most SIZE_MAX. Where the buffer is long enough, they stand at its front, without a 0 at their end,
 * and the bytes beyond them are as they were. Where it is shorter, the whole buffer is as it was: call again with a buffer of that length.
 *
 * script: any bytes, of any length. They are read and never changed.
 * answers: the caller's buffer. Nothing of it, or of the script, is kept after the call, and the next call starts from a fresh table of the
 * six again.
 *
 * The caller owes what placement_report asks for: pointers that are not null, also for length 0; lengths that are true; no overlap; nobody
 * else who writes during the call; and PLACEMENT_STACK_LENGTH bytes of free stack, or PLACEMENT_RUN_STACK_LENGTH where the script may have the
 * command run. This call takes no other memory, holds no state and ends for every script too, so threads may call it at once, each with a
 * buffer of its own.
 */
size_t placement_session(const uint8_t *script, size_t script_length, uint8_t *answers, size_t answers_length);

/* Whether a result stands for a report, or for a run that came to its end. */
static inline int placement_accepted(uint32_t result) {
    return result >= PLACEMENT_ACCEPTED;
}

/* The report's length; 0 for a refusal. Not for what a run returns. */
static inline size_t placement_length(uint32_t result) {
    return placement_accepted(result) ? (size_t)(result - PLACEMENT_ACCEPTED) : 0;
}

/* The refusal's number, one of enum placement_refusal; 0 for a report and for a run that came to its end. */
static inline unsigned placement_number(uint32_t result) {
    return placement_accepted(result) ? 0 : (unsigned)(result / 1000);
}

/* The refusal's line, row or parameter; 0 for a report and for a run that came to its end. */
static inline unsigned placement_place(uint32_t result) {
    return placement_accepted(result) ? 0 : (unsigned)(result % 1000);
}

/* Whether the place of a refusal with this number is a line. */
static inline int placement_names_line(unsigned number) {
    return number >= PLACEMENT_NO_FORM && number <= PLACEMENT_PARAMETER_BOUND;
}

/* Whether the place of a refusal with this number is a term row. */
static inline int placement_names_row(unsigned number) {
    return number >= PLACEMENT_NO_SHAPES && number <= PLACEMENT_NO_BOUNDS;
}

/* Whether the place of a refusal with this number is a parameter. */
static inline int placement_names_parameter(unsigned number) {
    return number == PLACEMENT_BELOW_FLOOR;
}

#ifdef __cplusplus
}
#endif

#endif
