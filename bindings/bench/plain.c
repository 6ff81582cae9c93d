/*
 * plain.c: what bench.c calls, over a plain cache: a hash table (uthash) and a list of all records, the last used one
 * last, behind one mutex. It has no shards, weights, expiry, entries or listeners. Linked in place of the library.
 */
#include "../c/luffapricot.h"
#include <pthread.h>
#include <stdlib.h>
#include <string.h>
#include <uthash.h>
#include <utlist.h>

struct record {
    UT_hash_handle hh;
    struct record *prev, *next;
    size_t key_len;
    size_t value_len;
    unsigned char bytes[]; /* the key, then the value */
};

struct luffa_cache {
    pthread_mutex_t lock;
    struct record *table;
    struct record *order;
    size_t capacity;
};

void luffa_config_init(luffa_config *config, size_t size, uint32_t policy) {
    memset(config, 0, size);
    config->policy.kind = policy;
}

luffa_status luffa_create(const luffa_config *config, luffa_cache **made) {
    luffa_cache *cache = *made = calloc(1, sizeof *cache);
    if (cache == NULL)
        return LUFFA_NO_MEMORY;
    pthread_mutex_init(&cache->lock, NULL);
    cache->capacity = config->capacity;
    return LUFFA_OK;
}

static void take_out(luffa_cache *cache, struct record *record) {
    HASH_DELETE(hh, cache->table, record);
    DL_DELETE(cache->order, record);
    free(record);
}

luffa_status luffa_insert(luffa_cache *cache, uint64_t now, const void *key, size_t key_len, const void *value,
                          size_t value_len, size_t weight, uint64_t expires) {
    struct record *old, *record = malloc(sizeof *record + key_len + value_len);
    (void)now, (void)weight, (void)expires;
    if (record == NULL)
        return LUFFA_NO_MEMORY;
    record->key_len = key_len;
    record->value_len = value_len;
    memcpy(record->bytes, key, key_len);
    memcpy(record->bytes + key_len, value, value_len);
    pthread_mutex_lock(&cache->lock);
    HASH_FIND(hh, cache->table, key, key_len, old);
    if (old != NULL)
        take_out(cache, old);
    else if (HASH_COUNT(cache->table) >= cache->capacity)
        take_out(cache, cache->order);
    HASH_ADD_KEYPTR(hh, cache->table, record->bytes, key_len, record);
    DL_APPEND(cache->order, record);
    pthread_mutex_unlock(&cache->lock);
    return LUFFA_OK;
}

luffa_status luffa_get(luffa_cache *cache, uint64_t now, const void *key, size_t key_len, void *buffer,
                       size_t buffer_len, size_t *value_len) {
    struct record *record;
    (void)now;
    pthread_mutex_lock(&cache->lock);
    HASH_FIND(hh, cache->table, key, key_len, record);
    if (record != NULL) {
        DL_DELETE(cache->order, record);
        DL_APPEND(cache->order, record);
        *value_len = record->value_len;
        memcpy(buffer, record->bytes + key_len, buffer_len < *value_len ? buffer_len : *value_len);
    }
    pthread_mutex_unlock(&cache->lock);
    return record != NULL ? LUFFA_OK : LUFFA_MISSING;
}

/* There are no entries. */
luffa_status luffa_get_entry(luffa_cache *cache, uint64_t now, const void *key, size_t key_len, luffa_entry *entry) {
    (void)cache, (void)now, (void)key, (void)key_len, (void)entry;
    abort();
}

void luffa_release(luffa_entry *entry) { (void)entry; }

void luffa_destroy(luffa_cache *cache) {
    while (cache->order != NULL)
        take_out(cache, cache->order);
    pthread_mutex_destroy(&cache->lock);
    free(cache);
}
