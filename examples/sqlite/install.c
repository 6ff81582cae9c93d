/*
 * Installs the page cache before main, if the variable LUFFA_PCACHE names a policy: for programs that can't be changed.
 * Another name ends the program with status 2, and a program that has started SQLite already with status 3.
 */
#include "luffa_pcache.h"
#include <stdio.h>
#include <stdlib.h>
#include <string.h>
#include <unistd.h>

__attribute__((constructor)) static void install(void) {
    static const char *const NAMES[] = {"fifo", "lru", "lfu", "s3fifo", "sieve"}; /* LUFFA_FIFO to LUFFA_SIEVE */
    const char *name = getenv("LUFFA_PCACHE");
    if (name == NULL || *name == '\0')
        return;
    for (uint32_t policy = 0; policy < sizeof NAMES / sizeof *NAMES; policy++)
        if (strcmp(name, NAMES[policy]) == 0) {
            if (luffa_pcache_install(policy) != 0)
                _exit(3);
            return;
        }
    (void)fprintf(stderr, "LUFFA_PCACHE is fifo, lru, lfu, s3fifo or sieve, and not %s\n", name);
    _exit(2);
}
