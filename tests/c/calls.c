/* Every function that the archive exports, called from C, with answers that were worked out by hand. */
#include "expect.h"

static unsigned passed, failed;

void expect(bool good, const char *what) {
    if (good) {
        passed++;
        return;
    }
    failed++;
    printf("failed: %s\n", what);
}

int main(void) {
    records();
    rehearsals();
    texts();
    writers();
    printf("%u passed, %u failed\n", passed, failed);
    return failed != 0;
}
