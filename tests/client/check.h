/* Counts what was checked, and says what failed. */
#ifndef CHECK_H
#define CHECK_H

#include <stdbool.h>
#include <stdio.h>
#include <stdlib.h>

static unsigned long passed_checks;
static unsigned long failed_checks;

/* Counts one check; says it if it failed, with a number that tells the case. */
#define CHECK(condition, number) check((condition), #condition, (unsigned long)(number), __func__, __LINE__)

static void check(bool holds, const char *what, unsigned long number, const char *where, int line) {
    if (holds) {
        passed_checks++;
        return;
    }
    failed_checks++;
    printf("FAILED: %s, line %d, case %lu: %s\n", where, line, number, what);
}

/* The closing line, and the program's status. */
static int closing(void) {
    printf("%lu passed, %lu failed\n", passed_checks, failed_checks);
    return failed_checks == 0 && passed_checks > 0 ? EXIT_SUCCESS : EXIT_FAILURE;
}

#endif
