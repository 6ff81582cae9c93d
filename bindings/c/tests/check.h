/* What the tests share. */
#ifndef CHECK_H
#define CHECK_H

#include "../luffapricot.h"
#include <stdio.h>
#include <stdlib.h>
#include <string.h>

static int failures;

#define CHECK(IS_WELL)                                                                                                 \
    do {                                                                                                               \
        if (!(IS_WELL)) {                                                                                              \
            fprintf(stderr, "%s:%d: %s\n", __FILE__, __LINE__, #IS_WELL);                                              \
            failures++;                                                                                                \
        }                                                                                                              \
    } while (0)

static inline luffa_cache *created(uint32_t policy, size_t capacity, size_t shards) {
    luffa_config config = luffa_config_default(policy);
    config.capacity = capacity;
    config.shards = shards;
    luffa_cache *cache;
    CHECK(luffa_create(&config, &cache) == LUFFA_OK);
    return cache;
}

static inline luffa_status put(luffa_cache *cache, const char *key, const char *value) {
    return luffa_insert(cache, 0, key, strlen(key), value, strlen(value), 1, 0);
}

/* Whether the cache has this value under a key. */
static inline int has(luffa_cache *cache, const char *key, const char *value) {
    char buffer[64];
    size_t len;
    return luffa_get(cache, 0, key, strlen(key), buffer, sizeof buffer, &len) == LUFFA_OK && len == strlen(value) &&
           memcmp(buffer, value, len) == 0;
}

static inline int ended(const char *name) {
    printf("%s: %s\n", name, failures == 0 ? "ok" : "FAILED");
    return failures != 0;
}

#endif
