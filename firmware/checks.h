/* Counts the checks of a test, and says which are wrong. */
#include <stdio.h>

static int failures, checks;

static void check(int right, const char *what)
{
    checks++;
    if (!right) {
        failures++;
        printf("wrong: %s\n", what);
    }
}
