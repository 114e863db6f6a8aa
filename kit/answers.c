/*
 * Calls placement_run and placement_run_under with answers of every length up to LONGEST. Status 1 where a call returns another number than
 * expected, or where it writes to an answer that it has to leave, beyond its front, or other numbers than those expected.
 */
#include "placement.h"

#include <stdint.h>
#include <stdio.h>
#include <string.h>

#define LONGEST 9

/* What stands in an answer before a call. */
#define PAINT 7u

/* A file whose first scheme supports ADD. */
#define PAIL_FIRST "S,PAIL,10000\nS,GCM,00000\n"
#define NO_GREATEST "S,PAIL,10000\nS,SIV,00100\n"

#define X_PLUS_X "T,0,INT\nP,0,g0,0\nE,0,VAR,0\nE,1,VAR,0\nE,2,OP,ADD,0,1\nE,3,LAM,0,2\n"
#define X "T,0,INT\nP,0,g0,0\nE,0,VAR,0\nE,1,LAM,0,0\n"
#define X_BEFORE_1 "T,0,INT\nP,0,g0,0\nP,1,g1,0\nE,0,VAR,0\nE,1,LAM,1,0\nE,2,NUM,1\nE,3,APP,1,2\nE,4,LAM,0,3\n"
#define BOUND_TWICE "T,0,INT\nP,0,g0,0\nE,0,VAR,0\nE,1,NUM,1\nE,2,OP,ADD,0,1\nE,3,LAM,0,2\nE,4,NUM,2\nE,5,LAM,0,4\n"

/* A call on one number, what it returns, and the front that it writes, where it writes one. Without a scheme file it is under the six. */
struct call {
    const char *schemes;
    const char *text;
    uint32_t number;
    uint32_t budget;
    uint32_t result;
    int writes;
    uint32_t front[PLACEMENT_ANSWER_LENGTH];
};

static const struct call calls[] = {
    {NULL, X_PLUS_X, 20, 10000, PLACEMENT_RAN_TO_NUMBER, 1, {40, 5, 1, 1}},
    {NULL, X_PLUS_X, 20, 4294967295, PLACEMENT_RAN_TO_NUMBER, 1, {40, 5, 1, 1}},
    {NULL, X, 4294967295, 10000, PLACEMENT_RAN_TO_NUMBER, 1, {4294967295, 6, 1, 0}},
    {NULL, X_PLUS_X, 2147483648, 10000, 29000, 1, {0, 0, 1, 0}},
    {NULL, X_PLUS_X, 20, 1, 30000, 1, {0, 0, 1, 0}},
    {NULL, "E,0,NUM,1", 20, 10000, 28000, 1, {0, 0, 0, 0}},
    {NULL, "", 20, 10000, 28000, 1, {0, 0, 0, 0}},
    {NULL, X_BEFORE_1, 20, 10000, PLACEMENT_RAN_TO_NUMBER, 1, {20, 6, 2, 0}},
    {NULL, BOUND_TWICE, 20, 10000, 8008, 0, {0, 0, 0, 0}},
    {NULL, "no line", 20, 10000, 1001, 0, {0, 0, 0, 0}},
    {PAIL_FIRST, X_PLUS_X, 20, 10000, PLACEMENT_RAN_TO_NUMBER, 1, {40, 1, 1, 1}},
    {PAIL_FIRST, X_PLUS_X, 2147483648, 10000, 29000, 1, {0, 0, 1, 0}},
    {PAIL_FIRST, X_PLUS_X, 20, 1, 30000, 1, {0, 0, 1, 0}},
    {PAIL_FIRST, "E,0,ENC,AH,1", 20, 10000, 1001, 0, {0, 0, 0, 0}},
    {NO_GREATEST, X_PLUS_X, 20, 10000, 26000, 0, {0, 0, 0, 0}},
    {"", "no line", 20, 10000, 25000, 0, {0, 0, 0, 0}},
};

/* Makes a call with an answer of this length. */
static uint32_t made(const struct call *call, uint32_t *answer, size_t length) {
    const uint8_t *text = (const uint8_t *)call->text;
    const uint8_t *schemes = (const uint8_t *)call->schemes;
    size_t text_length = strlen(call->text);

    if (schemes == NULL) {
        return placement_run(text, text_length, &call->number, 1, call->budget, answer, length);
    }
    return placement_run_under(schemes, strlen(call->schemes), text, text_length, &call->number, 1, call->budget, answer, length);
}

/* Whether a call with an answer of this length returns and writes what is expected; an answer that is too short is refused before all else. */
static int as_expected(const struct call *call, size_t length) {
    int is_short = length < PLACEMENT_ANSWER_LENGTH;
    uint32_t expected[LONGEST];
    uint32_t answer[LONGEST];

    for (size_t i = 0; i < LONGEST; i++) {
        expected[i] = PAINT;
        answer[i] = PAINT;
    }
    if (call->writes && !is_short) {
        memcpy(expected, call->front, sizeof call->front);
    }
    uint32_t result = made(call, answer, length);
    return result == (is_short ? 11000 : call->result) && memcmp(answer, expected, sizeof answer) == 0;
}

int main(void) {
    int good = 1;

    for (size_t i = 0; i < sizeof calls / sizeof *calls; i++) {
        for (size_t length = 0; length <= LONGEST; length++) {
            if (!as_expected(&calls[i], length)) {
                fprintf(stderr, "call %zu with an answer of %zu numbers\n", i, length);
                good = 0;
            }
        }
    }
    return good ? 0 : 1;
}
