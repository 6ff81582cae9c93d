/* The proved calls, of crates/luffapricot_c, for one shard. Private to luffapricot.c. */
#ifndef LUFFA_SHARD_H
#define LUFFA_SHARD_H

#include "luffapricot.h"
#include <stdbool.h>

/*
 * What the proved side needs of C: a shard begins as zeros, is never copied, and has one call at a time; no buffer that
 * a call writes overlaps one that it reads; equal keys come with equal hashes; malloc, realloc and free are one
 * allocator's.
 */
typedef struct luffa_shard {
    void *address;
    bool is_open;
} luffa_shard;

/* A record as a call shows it: an entry but for its shard, which luffapricot.c adds. */
typedef luffa_entry luffa_record;

/* A time, and the hash of a key. They are passed as their one field is, and can't be taken for another number. */
typedef struct luffa_at {
    uint64_t time;
} luffa_at;

typedef struct luffa_hashed {
    uint64_t hash;
} luffa_hashed;

typedef struct luffa_fetch {
    uint64_t fetch;
    uint64_t token;
} luffa_fetch;

typedef struct luffa_load {
    uint64_t usage;
    uint64_t usage_high;
    uint64_t entries;
} luffa_load;

/* Statuses that don't leave luffapricot.c. */
enum {
    LUFFA_LEAD = 102,
    LUFFA_WAIT = 103,
    LUFFA_LEFT = 104,
    LUFFA_IS_OPEN = 106,
    LUFFA_NOT_OPEN = 107,
    LUFFA_UNTOLD = 108
};

uint32_t luffa_shard_create(luffa_shard *, const luffa_policy *, size_t capacity, bool has_listener);
uint32_t luffa_shard_destroy(luffa_shard *);
uint32_t luffa_shard_insert(luffa_shard *, luffa_at now, luffa_hashed hash, const uint8_t *key, size_t key_len,
                            const uint8_t *value, size_t value_len, size_t weight, uint64_t expires);
uint32_t luffa_shard_insert_entry(luffa_shard *, luffa_at now, luffa_hashed hash, const uint8_t *key, size_t key_len,
                                  const uint8_t *value, size_t value_len, uint64_t owner, const luffa_terms *,
                                  luffa_record *);
uint32_t luffa_shard_insert_if_fits(luffa_shard *, luffa_at now, luffa_hashed hash, const uint8_t *key, size_t key_len,
                                    const uint8_t *value, size_t value_len, uint64_t owner, const luffa_terms *,
                                    luffa_record *);
typedef uint32_t (*luffa_shard_insert_call)(luffa_shard *, luffa_at, luffa_hashed, const uint8_t *, size_t,
                                            const uint8_t *, size_t, uint64_t, const luffa_terms *, luffa_record *);
uint32_t luffa_shard_replace_if(luffa_shard *, luffa_at now, luffa_hashed hash, const uint8_t *key, size_t key_len,
                                const uint8_t *value, size_t value_len, uint64_t owner, const luffa_terms *,
                                size_t number, luffa_record *);
uint32_t luffa_shard_get(luffa_shard *, luffa_at now, luffa_hashed hash, const uint8_t *key, size_t key_len,
                         uint8_t *out, size_t out_len, size_t *len);
uint32_t luffa_shard_peek(luffa_shard *, luffa_at now, luffa_hashed hash, const uint8_t *key, size_t key_len,
                          uint8_t *out, size_t out_len, size_t *len);
uint32_t luffa_shard_get_entry(luffa_shard *, luffa_at now, luffa_hashed hash, const uint8_t *key, size_t key_len,
                               luffa_record *);
uint32_t luffa_shard_remove(luffa_shard *, luffa_hashed hash, const uint8_t *key, size_t key_len, luffa_record *);
uint32_t luffa_shard_remove_this(luffa_shard *, size_t number);
uint32_t luffa_shard_set_expires(luffa_shard *, luffa_at now, size_t number, uint64_t expires);
uint32_t luffa_shard_contains(luffa_shard *, luffa_at now, luffa_hashed hash, const uint8_t *key, size_t key_len);
uint32_t luffa_shard_touch(luffa_shard *, luffa_at now, luffa_hashed hash, const uint8_t *key, size_t key_len);
uint32_t luffa_shard_release(luffa_shard *, size_t number);
uint32_t luffa_shard_resize(luffa_shard *, luffa_at now, size_t capacity);
uint32_t luffa_shard_evict_all(luffa_shard *, luffa_at now);
uint32_t luffa_shard_clear(luffa_shard *);
uint32_t luffa_shard_reconfigure(luffa_shard *, const luffa_policy *);
uint32_t luffa_shard_load(luffa_shard *, luffa_load *);
uint32_t luffa_shard_take_left(luffa_shard *, size_t *number, size_t *count);
uint32_t luffa_shard_show_left(luffa_shard *, size_t number, size_t index, luffa_record *);
uint32_t luffa_shard_list(luffa_shard *, size_t *number, size_t *count);
uint32_t luffa_shard_show_listed(luffa_shard *, size_t number, size_t index, luffa_record *);
uint32_t luffa_shard_remove_listed(luffa_shard *, size_t number, size_t index);
uint32_t luffa_shard_clear_one(luffa_shard *, size_t *slot, luffa_record *);
uint32_t luffa_shard_listen(luffa_shard *);
uint32_t luffa_shard_fetch(luffa_shard *, luffa_at now, luffa_hashed hash, const uint8_t *key, size_t key_len,
                           luffa_record *, luffa_fetch *);
uint32_t luffa_shard_complete(luffa_shard *, luffa_at now, luffa_hashed hash, const uint8_t *key, size_t key_len,
                              uint64_t fetch, const uint8_t *value, size_t value_len, const luffa_terms *);
uint32_t luffa_shard_cancel(luffa_shard *, luffa_hashed hash, const uint8_t *key, size_t key_len, uint64_t fetch);
uint32_t luffa_shard_answered(luffa_shard *, size_t number, luffa_record *);

#endif
