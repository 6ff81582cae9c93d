/* The page cache of SQLite over luffapricot. README.md says how to link it, and when it pays. */
#ifndef LUFFA_PCACHE_H
#define LUFFA_PCACHE_H

#include <stdint.h>

#ifdef __cplusplus
extern "C" {
#endif

/*
 * Installs the page cache for all connections of the process. Call it before any other call of SQLite. Returns
 * SQLITE_OK, or SQLITE_MISUSE if SQLite is initialized already or no policy (LUFFA_FIFO to LUFFA_SIEVE) has this
 * number.
 */
int luffa_pcache_install(uint32_t policy);

#ifdef __cplusplus
}
#endif
#endif
