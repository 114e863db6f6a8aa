/*
 * Calls the four entries that take a text on texts whose bytes after the first PLACEMENT_TEXT_LENGTH lie in a page that cannot be read. Status 1
 * where such a text is not answered as its front is; a call that looks further ends by a signal.
 */
#include "placement.h"

#include <stdint.h>
#include <stdio.h>
#include <string.h>
#include <sys/mman.h>
#include <unistd.h>

/* A line of such bytes never ends, and has no form; an empty line has none either. So line 1 is refused with 1. */
static const uint8_t bytes[] = {0, 'E', '\n'};
#define EXPECTED 1001u

static const uint8_t schemes[] = {'S', ',', 'A', ',', '1', '1', '1', '1', '1'};
static uint8_t report[PLACEMENT_REPORT_LENGTH];
static const uint32_t numbers[1];
static uint32_t answer[PLACEMENT_ANSWER_LENGTH];

/* The front of a text, which ends where an unreadable page begins; NULL where there is no memory. */
static uint8_t *guarded_front(size_t page) {
    size_t readable = (PLACEMENT_TEXT_LENGTH / page + 1) * page;
    uint8_t *start = mmap(NULL, readable + page, PROT_READ | PROT_WRITE, MAP_PRIVATE | MAP_ANONYMOUS, -1, 0);

    if (start == MAP_FAILED || mprotect(start + readable, page, PROT_NONE) != 0) {
        perror("mmap");
        return NULL;
    }
    return start + readable - PLACEMENT_TEXT_LENGTH;
}

/* Asks the four entries, and returns whether each answers as expected. */
static int answered(const uint8_t *text, size_t length) {
    uint32_t results[] = {
        placement_report(text, length, report, sizeof report),
        placement_report_under(schemes, sizeof schemes, text, length, report, sizeof report),
        placement_run(text, length, numbers, 1, 10000, answer, PLACEMENT_ANSWER_LENGTH),
        placement_run_under(schemes, sizeof schemes, text, length, numbers, 1, 10000, answer, PLACEMENT_ANSWER_LENGTH),
    };
    int good = 1;

    for (size_t i = 0; i < sizeof results / sizeof *results; i++) {
        if (results[i] != EXPECTED) {
            fprintf(stderr, "bytes of %u: %u from entry %zu\n", text[0], results[i], i);
            good = 0;
        }
    }
    return good;
}

int main(void) {
    size_t page = (size_t)sysconf(_SC_PAGESIZE);
    uint8_t *text = guarded_front(page);
    int good = 1;

    if (text == NULL) {
        return 2;
    }
    for (size_t i = 0; i < sizeof bytes; i++) {
        memset(text, bytes[i], PLACEMENT_TEXT_LENGTH);
        good = answered(text, PLACEMENT_TEXT_LENGTH + page) && good;
    }
    return good ? 0 : 1;
}
