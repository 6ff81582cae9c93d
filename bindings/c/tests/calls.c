/* Every call and every status that a program can bring about. */
#include "check.h"
#include <stdbool.h>

static const char *const POLICIES[] = {"fifo", "lru", "lfu", "s3fifo", "sieve"};

static void creating(void) {
    luffa_cache *cache = (luffa_cache *)1;
    luffa_config config = luffa_config_default(LUFFA_LRU);
    CHECK(config.shards == 8 && config.capacity == 0 && config.policy.kind == LUFFA_LRU);
    config.shards = 0;
    CHECK(luffa_create(&config, &cache) == LUFFA_NO_SHARDS && cache == NULL);
    config.shards = SIZE_MAX;
    CHECK(luffa_create(&config, &cache) == LUFFA_NO_MEMORY && cache == NULL);
    for (config.shards = (size_t)1 << 57; config.shards != 0; config.shards <<= 1) /* their bytes would wrap to 0 */
        CHECK(luffa_create(&config, &cache) == LUFFA_NO_MEMORY && cache == NULL);
    config.shards = 1;
    config.policy.high_priority_pool.den = 0;
    CHECK(luffa_create(&config, &cache) == LUFFA_ZERO_DENOMINATOR && cache == NULL);
    config.policy.high_priority_pool = (luffa_ratio){2, 1};
    CHECK(luffa_create(&config, &cache) == LUFFA_RATIO_RANGE);
    config = luffa_config_default(LUFFA_LFU);
    config.policy.window = (luffa_ratio){1, 2};
    config.policy.protected_ = (luffa_ratio){1, 2};
    CHECK(luffa_create(&config, &cache) == LUFFA_RATIO_SUM);
    config = luffa_config_default(LUFFA_LFU);
    config.policy.sketch_rows = 0;
    CHECK(luffa_create(&config, &cache) == LUFFA_NO_ROWS);
    config.policy.sketch_rows = 1;
    config.policy.sketch_buckets = 0;
    CHECK(luffa_create(&config, &cache) == LUFFA_NO_BUCKETS);
    for (uint32_t kind = 5; kind != 0; kind = kind < 1000 ? kind + 1 : kind << 1) {
        config = luffa_config_default(kind);
        CHECK(luffa_create(&config, &cache) == LUFFA_NO_POLICY && cache == NULL);
    }
    config = (luffa_config){.capacity = 1, .shards = 1};
    CHECK(luffa_create(&config, &cache) == LUFFA_BAD_CONFIG && cache == NULL);
    luffa_destroy(NULL);
    luffa_entry nothing = {0};
    luffa_release(&nothing);
    CHECK(strstr(luffa_version(), "proved") != NULL);
    CHECK(strcmp(luffa_strerror(LUFFA_NO_MEMORY), "out of memory") == 0);
    for (luffa_status status = 0; status < 300; status++)
        CHECK(*luffa_strerror(status) != 0);
}

/* Structures of a program whose header has a field more, or, for what is written, some less. */
static void growing(void) {
    struct {
        luffa_config config;
        uint64_t more;
    } later = {.more = 1};
    struct {
        luffa_stats stats;
        uint64_t more;
    } found = {.more = 1};
    luffa_cache *cache;
    luffa_config_init(&later.config, sizeof later, LUFFA_SIEVE);
    CHECK(later.config.size == sizeof later && later.more == 0 && later.config.policy.kind == LUFFA_SIEVE);
    later.config.capacity = 8;
    CHECK(luffa_create(&later.config, &cache) == LUFFA_OK && luffa_shards(cache) == 8);
    CHECK(put(cache, "a", "x") == LUFFA_OK);
    luffa_read_stats(cache, &found.stats, sizeof found);
    CHECK(found.stats.entries == 1 && found.stats.usage == 1 && found.more == 0);
    memset(&found, 7, sizeof found);
    luffa_read_stats(cache, &found.stats, offsetof(luffa_stats, hits));
    CHECK(found.stats.entries == 1 && found.stats.hits == 0x0707070707070707);
    luffa_destroy(cache);
    for (unsigned bit = 0; bit < 64; bit++) { /* what this library doesn't know */
        later.more = (uint64_t)1 << bit;
        CHECK(luffa_create(&later.config, &cache) == LUFFA_BAD_CONFIG && cache == NULL);
    }
    const size_t first = offsetof(luffa_config, is_unlocked); /* what version 0.1.0 had */
    for (later.config.size = 0; later.config.size < first; later.config.size++)
        CHECK(luffa_create(&later.config, &cache) == LUFFA_BAD_CONFIG);
    CHECK(luffa_create(&later.config, &cache) == LUFFA_OK && put(cache, "a", "x") == LUFFA_OK);
    luffa_destroy(cache);
    memset(&later, 7, sizeof later);
    luffa_config_init(&later.config, offsetof(luffa_config, listener), LUFFA_LRU);
    CHECK(later.config.shards == 8 && later.config.hash == NULL && later.config.listener != NULL);
}

/* The version as text and as numbers, in the header and in the library. */
static void versions(void) {
    char text[64];
    snprintf(text, sizeof text, "%d.%d.%d", LUFFA_VERSION_MAJOR, LUFFA_VERSION_MINOR, LUFFA_VERSION_PATCH);
    CHECK(strcmp(text, LUFFA_VERSION) == 0 && strncmp(luffa_version(), text, strlen(text)) == 0);
    CHECK(luffa_version()[strlen(text)] == ' ' && LUFFA_VERSION_NUMBER >= 100);
}

static void one_record(luffa_cache *cache) {
    char buffer[8] = "unread";
    size_t len = 99;
    CHECK(luffa_get(cache, 0, "a", 1, buffer, sizeof buffer, &len) == LUFFA_MISSING && len == 99);
    CHECK(put(cache, "a", "first") == LUFFA_OK && has(cache, "a", "first"));
    CHECK(luffa_get(cache, 0, "a", 1, buffer, 3, &len) == LUFFA_OK && len == 5 && memcmp(buffer, "firead", 6) == 0);
    CHECK(luffa_get(cache, 0, "a", 1, NULL, 0, &len) == LUFFA_OK && len == 5);
    CHECK(put(cache, "a", "second") == LUFFA_OK && has(cache, "a", "second"));
    CHECK(luffa_usage(cache) == 1 && luffa_entries(cache) == 1);
    CHECK(luffa_contains(cache, 0, "a", 1) == LUFFA_OK && luffa_contains(cache, 0, "b", 1) == LUFFA_MISSING);
    CHECK(luffa_touch(cache, 0, "a", 1) == LUFFA_OK && luffa_touch(cache, 0, "b", 1) == LUFFA_MISSING);
    CHECK(luffa_remove(cache, "a", 1) == LUFFA_OK && luffa_remove(cache, "a", 1) == LUFFA_MISSING);
    CHECK(luffa_usage(cache) == 0 && luffa_entries(cache) == 0);
    luffa_stats stats = luffa_get_stats(cache);
    CHECK(stats.hits == 5 && stats.misses == 2);
}

static void empty_bytes(luffa_cache *cache) {
    size_t len = 9;
    luffa_entry entry;
    CHECK(luffa_insert(cache, 0, NULL, 0, NULL, 0, 1, 0) == LUFFA_OK);
    CHECK(luffa_get(cache, 0, NULL, 0, NULL, 0, &len) == LUFFA_OK && len == 0);
    CHECK(luffa_get_entry(cache, 0, NULL, 0, &entry) == LUFFA_OK && entry.key_len == 0 && entry.value_len == 0);
    luffa_release(&entry);
    CHECK(luffa_get(cache, 0, "", 1, NULL, 0, &len) == LUFFA_MISSING);
    CHECK(luffa_insert(cache, 0, "", 1, "x", 1, 1, 0) == LUFFA_OK && luffa_entries(cache) == 2);
    CHECK(luffa_remove(cache, NULL, 0) == LUFFA_OK && luffa_remove(cache, "", 1) == LUFFA_OK);
}

/* Keys that agree but for one byte, of every length up to 40, and if they may be long of 1 and 10 MB. */
static void lengths(luffa_cache *cache, int are_long) {
    static const size_t LARGE[] = {1 << 20, 10 << 20};
    luffa_entry entry;
    for (size_t len = 1; len <= (are_long ? 42 : 40); len++) {
        size_t size = len <= 40 ? len : LARGE[len - 41];
        unsigned char *bytes = malloc(size), *other = malloc(size);
        memset(bytes, (int)len, size);
        for (size_t at = 0; at < size; at += size < 100 ? 1 : size / 3) {
            memcpy(other, bytes, size);
            other[at] ^= 1;
            CHECK(luffa_insert(cache, 0, bytes, size, bytes, size, 1, 0) == LUFFA_OK);
            CHECK(luffa_contains(cache, 0, other, size) == LUFFA_MISSING);
            CHECK(luffa_insert(cache, 0, other, size, other, size, 1, 0) == LUFFA_OK);
            CHECK(luffa_get_entry(cache, 0, bytes, size, &entry) == LUFFA_OK && entry.value_len == size &&
                  entry.key_len == size && memcmp(entry.value, bytes, size) == 0 &&
                  memcmp(entry.key, bytes, size) == 0);
            luffa_release(&entry);
            CHECK(luffa_remove(cache, other, size) == LUFFA_OK && luffa_contains(cache, 0, bytes, size) == LUFFA_OK);
        }
        CHECK(luffa_remove(cache, bytes, size) == LUFFA_OK);
        free(bytes);
        free(other);
    }
}

static void expiry(luffa_cache *cache) {
    size_t len;
    CHECK(luffa_insert(cache, 10, "e", 1, "x", 1, 1, 20) == LUFFA_OK);
    CHECK(luffa_get(cache, 19, "e", 1, NULL, 0, &len) == LUFFA_OK);
    CHECK(luffa_get(cache, 20, "e", 1, NULL, 0, &len) == LUFFA_MISSING);
    CHECK(luffa_contains(cache, 20, "e", 1) == LUFFA_MISSING && luffa_touch(cache, 20, "e", 1) == LUFFA_MISSING);
    CHECK(luffa_get(cache, 19, "e", 1, NULL, 0, &len) == LUFFA_OK); /* time may go back */
    CHECK(luffa_insert(cache, 0, "n", 1, "x", 1, 1, 0) == LUFFA_OK);
    CHECK(luffa_get(cache, UINT64_MAX, "n", 1, NULL, 0, &len) == LUFFA_OK);
    CHECK(luffa_insert(cache, 1u << 31, "e", 1, "x", 1, 1, (uint64_t)1 << 40) == LUFFA_OK);
    CHECK(luffa_get(cache, ((uint64_t)1 << 40) - 1, "e", 1, NULL, 0, &len) == LUFFA_OK);
    CHECK(luffa_get(cache, (uint64_t)1 << 40, "e", 1, NULL, 0, &len) == LUFFA_MISSING);
    CHECK(luffa_entries(cache) == 2 && luffa_remove(cache, "e", 1) == LUFFA_OK && luffa_entries(cache) == 1);
    CHECK(luffa_insert(cache, UINT64_MAX - 1, "e", 1, "x", 1, 1, UINT64_MAX) == LUFFA_OK);
    CHECK(luffa_contains(cache, UINT64_MAX - 1, "e", 1) == LUFFA_OK);
    CHECK(luffa_contains(cache, UINT64_MAX, "e", 1) == LUFFA_MISSING);
    CHECK(luffa_clear(cache) == LUFFA_OK && luffa_entries(cache) == 0 && luffa_usage(cache) == 0);
}

static void entries(uint32_t policy) {
    luffa_cache *cache = created(policy, 2, 1);
    luffa_entry held, again, phantom, none = {0};
    luffa_terms terms = {.weight = 1, .flags = LUFFA_PHANTOM};
    CHECK(put(cache, "a", "held") == LUFFA_OK);
    CHECK(luffa_get_entry(cache, 0, "a", 1, &held) == LUFFA_OK);
    CHECK(luffa_get_entry(cache, 0, "none", 4, &none) == LUFFA_MISSING && none.shard == NULL);
    luffa_release(&none);
    for (int i = 0; i < 100; i++)
        CHECK(put(cache, (char[]){(char)('b' + i % 20), 0}, "other") == LUFFA_OK);
    CHECK(held.value_len == 4 && memcmp(held.value, "held", 4) == 0 && memcmp(held.key, "a", 1) == 0);
    if (policy == LUFFA_LRU || policy == LUFFA_FIFO) /* LRU pins it */
        CHECK(luffa_contains(cache, 0, "a", 1) == (policy == LUFFA_LRU ? LUFFA_OK : LUFFA_MISSING));
    luffa_release(&held);
    CHECK(held.shard == NULL);
    luffa_release(&held);
    CHECK(luffa_insert_entry(cache, 0, "p", 1, "phantom", 7, &terms, &phantom) == LUFFA_OK);
    CHECK(luffa_contains(cache, 0, "p", 1) == LUFFA_MISSING && memcmp(phantom.value, "phantom", 7) == 0);
    luffa_release(&phantom);
    terms = (luffa_terms){.weight = 2, .expires = 5, .flags = LUFFA_EXPIRES | LUFFA_LOW_PRIORITY};
    CHECK(luffa_insert_entry(cache, 0, "t", 1, "terms", 5, &terms, &held) == LUFFA_OK && held.weight == 2);
    CHECK(held.expires == 5 && held.flags == terms.flags);
    CHECK(luffa_get_entry(cache, 4, "t", 1, &again) == LUFFA_OK && again.value == held.value);
    CHECK(luffa_get_entry(cache, 5, "t", 1, &again) == LUFFA_MISSING);
    luffa_release(&again);
    luffa_release(&held);
    CHECK(luffa_remove_entry(cache, "t", 1, &held) == LUFFA_OK && memcmp(held.value, "terms", 5) == 0);
    CHECK(luffa_remove_entry(cache, "t", 1, &again) == LUFFA_MISSING);
    luffa_destroy(cache); /* with an entry that is held, which is not to be used any more */
}

/* Makes a value of this weight. */
static int make_heavy(void *context, const void *key, size_t key_len, luffa_made *made) {
    made->value = key;
    made->value_len = key_len;
    made->weight = *(size_t *)context;
    return 0;
}

static void weights(uint32_t policy) {
    luffa_cache *cache = created(policy, 10, 1);
    luffa_entry held;
    size_t one = 1;
    CHECK(luffa_insert(cache, 0, "a", 1, "x", 1, 4, 0) == LUFFA_OK);
    CHECK(luffa_insert(cache, 0, "b", 1, "x", 1, 6, 0) == LUFFA_OK && luffa_usage(cache) == 10);
    CHECK(luffa_insert(cache, 0, "c", 1, "x", 1, 1, 0) == LUFFA_OK && luffa_usage(cache) <= 10);
    CHECK(luffa_insert(cache, 0, "h", 1, "x", 1, SIZE_MAX, 0) == LUFFA_OK && luffa_usage(cache) == UINT64_MAX);
    CHECK(luffa_entries(cache) == 1);
    CHECK(luffa_clear(cache) == LUFFA_OK);
    if (policy == LUFFA_LRU) { /* only a pinned record can make the sum overflow */
        CHECK(luffa_insert(cache, 0, "h", 1, "x", 1, SIZE_MAX, 0) == LUFFA_OK);
        CHECK(luffa_get_entry(cache, 0, "h", 1, &held) == LUFFA_OK);
        CHECK(luffa_insert(cache, 0, "i", 1, "x", 1, 1, 0) == LUFFA_WEIGHT);
        CHECK(luffa_get_or_insert(cache, 0, "i", 1, make_heavy, &one, NULL) == LUFFA_WEIGHT);
        CHECK(luffa_contains(cache, 0, "i", 1) == LUFFA_MISSING && luffa_entries(cache) == 1);
        luffa_release(&held);
    }
    luffa_destroy(cache);
    cache = created(policy, 10, 4);
    for (uint32_t i = 0; i < 40; i++) /* each shard has one, whose sum is too much */
        CHECK(luffa_insert(cache, 0, &i, 4, NULL, 0, SIZE_MAX / 2, 0) == LUFFA_OK);
    CHECK(luffa_usage(cache) == UINT64_MAX && luffa_entries(cache) == 4);
    luffa_destroy(cache);
}

static void bulk(uint32_t policy) {
    luffa_cache *cache = created(policy, 1000, 4);
    luffa_policy config = luffa_config_default(policy).policy;
    for (uint32_t i = 0; i < 1000; i++)
        CHECK(luffa_insert(cache, 0, &i, sizeof i, &i, sizeof i, 1, 0) == LUFFA_OK);
    CHECK(luffa_capacity(cache) == 1000 && luffa_shards(cache) == 4);
    CHECK(luffa_usage(cache) <= 1000 && luffa_usage(cache) > 800 && luffa_usage(cache) == luffa_entries(cache));
    CHECK(luffa_resize(cache, 0, 10) == LUFFA_OK && luffa_usage(cache) <= 10 && luffa_capacity(cache) == 10);
    CHECK(luffa_resize(cache, 0, 1000) == LUFFA_OK);
    CHECK(luffa_reconfigure(cache, &config) == LUFFA_OK);
    config.kind = policy == LUFFA_LRU ? LUFFA_FIFO : LUFFA_LRU;
    CHECK(luffa_reconfigure(cache, &config) == LUFFA_WRONG_POLICY);
    config.kind = 5;
    CHECK(luffa_reconfigure(cache, &config) == LUFFA_NO_POLICY);
    if (policy == LUFFA_S3FIFO) {
        config = luffa_config_default(policy).policy;
        config.small_queue = (luffa_ratio){1, 1};
        CHECK(luffa_reconfigure(cache, &config) == LUFFA_RATIO_RANGE);
    }
    for (uint32_t i = 0; i < 100; i++)
        CHECK(luffa_insert(cache, 0, &i, sizeof i, &i, sizeof i, 1, 0) == LUFFA_OK);
    CHECK(luffa_evict_all(cache, 0) == LUFFA_OK && luffa_entries(cache) == 0);
    luffa_destroy(cache);
}

static uint64_t number_of(void *context, const void *key, size_t key_len) {
    uint32_t number;
    (void)context;
    memcpy(&number, key, key_len);
    return number;
}

/* A cache that was created with one configuration and got another, after gets and inserts. */
static luffa_cache *used(const luffa_policy *first, const luffa_policy *then) {
    luffa_config config = luffa_config_default(first->kind);
    luffa_cache *cache;
    uint32_t state = 1;
    config.policy = *first;
    config.capacity = 80;
    config.shards = 4;
    config.hash = number_of;
    CHECK(luffa_create(&config, &cache) == LUFFA_OK && luffa_reconfigure(cache, then) == LUFFA_OK);
    for (int i = 0; i < 5000; i++) {
        uint32_t key = (state >> 8) % 200;
        size_t len;
        key = (state >> 16) % (key + 1);
        state = state * 1664525 + 1013904223;
        if (luffa_get(cache, 0, &key, 4, NULL, 0, &len) == LUFFA_MISSING)
            CHECK(luffa_insert(cache, 0, &key, 4, &key, 4, 1, 0) == LUFFA_OK);
    }
    return cache;
}

/* Each shard gets the configuration. */
static void reconfiguring(void) {
    luffa_policy small = luffa_config_default(LUFFA_S3FIFO).policy, large = small;
    large.small_queue = (luffa_ratio){9, 10};
    luffa_cache *caches[] = {used(&small, &small), used(&large, &small), used(&large, &large)};
    size_t differ = 0, other = 0;
    for (uint32_t key = 0; key < 200; key++) {
        luffa_status wanted = luffa_contains(caches[0], 0, &key, 4);
        differ += luffa_contains(caches[1], 0, &key, 4) != wanted;
        other += luffa_contains(caches[2], 0, &key, 4) != wanted;
    }
    CHECK(differ == 0 && other > 0);
    for (int i = 0; i < 3; i++)
        luffa_destroy(caches[i]);
}

/* What left, by event, and whether each left with its own value. */
struct heard {
    luffa_cache *cache;
    size_t counts[4];
    int last;
    size_t wrong;
};

static void hear(void *context, int event, const void *key, size_t key_len, const void *value, size_t value_len) {
    struct heard *heard = context;
    heard->counts[event]++;
    heard->last = event;
    heard->wrong += key_len != 4 || value_len != 4 || memcmp(key, value, 4) != 0;
    if (heard->cache != NULL) /* no lock is held */
        heard->wrong += luffa_contains(heard->cache, 0, "?", 1) != LUFFA_MISSING;
}

static void listening(uint32_t policy) {
    struct heard heard = {0};
    luffa_config config = luffa_config_default(policy);
    luffa_entry entry;
    luffa_terms phantom = {.weight = 1, .flags = LUFFA_PHANTOM};
    config.capacity = 100;
    config.shards = 2;
    config.listener = hear;
    config.listener_context = &heard;
    CHECK(luffa_create(&config, &heard.cache) == LUFFA_OK);
    for (uint32_t i = 0; i < 1000; i++)
        CHECK(luffa_insert(heard.cache, 0, &i, 4, &i, 4, 1, 0) == LUFFA_OK);
    CHECK(heard.counts[LUFFA_EVICT] == 1000 - luffa_entries(heard.cache));
    uint32_t last = 999;
    CHECK(luffa_insert(heard.cache, 0, &last, 4, &last, 4, 1, 0) == LUFFA_OK && heard.counts[LUFFA_REPLACE] == 1);
    CHECK(luffa_remove(heard.cache, &last, 4) == LUFFA_OK && heard.counts[LUFFA_REMOVE] == 1);
    size_t left = luffa_entries(heard.cache), evicted = heard.counts[LUFFA_EVICT];
    CHECK(luffa_resize(heard.cache, 0, 20) == LUFFA_OK && heard.counts[LUFFA_EVICT] == evicted + left - 20);
    CHECK(luffa_insert_entry(heard.cache, 0, &last, 4, &last, 4, &phantom, &entry) == LUFFA_OK);
    evicted = heard.counts[LUFFA_EVICT];
    luffa_release(&entry);
    CHECK(heard.counts[LUFFA_EVICT] == evicted + 1);
    CHECK(luffa_insert_entry(heard.cache, 0, &last, 4, &last, 4, &phantom, NULL) == LUFFA_OK);
    CHECK(heard.counts[LUFFA_EVICT] == evicted + 2 && heard.last == LUFFA_EVICT);
    luffa_cache *cache = heard.cache;
    heard.cache = NULL;
    luffa_destroy(cache);
    CHECK(heard.counts[LUFFA_CLEAR] == 20 && heard.wrong == 0);
}

static int make(void *context, const void *key, size_t key_len, luffa_made *made) {
    int *runs = context;
    if (++*runs > 2)
        return 1;
    made->value = memcpy(malloc(key_len), key, key_len);
    made->value_len = key_len;
    made->free_value = free;
    made->expires = 50;
    return 0;
}

static void count_call(void *context) { ++*(int *)context; }

/* Makes an empty value, or none, whose address is the context. */
static int make_nothing(void *context, const void *key, size_t key_len, luffa_made *made) {
    (void)key_len;
    made->value = context;
    made->free_value = count_call;
    return *(const char *)key == 'f';
}

static int make_and_insert(void *context, const void *key, size_t key_len, luffa_made *made) {
    made->value = "made";
    made->value_len = 4;
    return (int)luffa_insert(context, 0, key, key_len, "inserted", 8, 1, 0);
}

static void making(luffa_cache *cache) {
    luffa_entry entry;
    luffa_stats before = luffa_get_stats(cache);
    int runs = 0;
    CHECK(luffa_get_or_insert(cache, 0, "key", 3, make, &runs, &entry) == LUFFA_OK && runs == 1);
    CHECK(entry.value_len == 3 && memcmp(entry.value, "key", 3) == 0);
    luffa_release(&entry);
    CHECK(luffa_get_or_insert(cache, 49, "key", 3, make, &runs, &entry) == LUFFA_OK && runs == 1);
    luffa_release(&entry);
    luffa_stats after = luffa_get_stats(cache);
    CHECK(after.hits == before.hits + 1 && after.misses == before.misses + 1);
    CHECK(luffa_get_or_insert(cache, 50, "key", 3, make, &runs, NULL) == LUFFA_OK && runs == 2);
    CHECK(luffa_get_or_insert(cache, 0, "none", 4, make, &runs, &entry) == LUFFA_CANCELLED && runs == 3);
    CHECK(luffa_contains(cache, 0, "none", 4) == LUFFA_MISSING);
    CHECK(luffa_get_or_insert(cache, 0, "both", 4, make_and_insert, cache, &entry) == LUFFA_OK);
    CHECK(entry.value_len == 8 && memcmp(entry.value, "inserted", 8) == 0); /* the insert ended the fetch */
    luffa_release(&entry);
    runs = 0;
    CHECK(luffa_get_or_insert(cache, 0, "empty", 5, make_nothing, &runs, &entry) == LUFFA_OK && runs == 1);
    CHECK(entry.value_len == 0 && entry.weight == 1);
    luffa_release(&entry);
    CHECK(luffa_get_or_insert(cache, 0, "fails", 5, make_nothing, &runs, NULL) == LUFFA_CANCELLED && runs == 2);
    CHECK(luffa_clear(cache) == LUFFA_OK);
    size_t heavy = ((size_t)1 << 40) + 2;
    CHECK(luffa_get_or_insert(cache, 0, "heavy", 5, make_heavy, &heavy, &entry) == LUFFA_OK && entry.weight == heavy);
    luffa_release(&entry);
    CHECK(luffa_usage(cache) == heavy && luffa_clear(cache) == LUFFA_OK);
}

/* Makes a value when it is 100. */
static int make_late(void *context, const void *key, size_t key_len, luffa_made *made) {
    (void)context;
    made->value = key;
    made->value_len = key_len;
    made->now = 100;
    return 0;
}

/* What is expired when the value is made leaves first. */
static void making_late(uint32_t policy) {
    luffa_cache *cache = created(policy, 2, 1);
    CHECK(put(cache, "old", "x") == LUFFA_OK);
    CHECK(luffa_insert(cache, 0, "expires", 7, "x", 1, 1, 60) == LUFFA_OK);
    CHECK(luffa_get_or_insert(cache, 0, "late", 4, make_late, NULL, NULL) == LUFFA_OK);
    CHECK(luffa_contains(cache, 0, "expires", 7) == LUFFA_MISSING && has(cache, "old", "x") &&
          has(cache, "late", "late"));
    luffa_destroy(cache);
}

/* Inserts a record for each that leaves, up to a number. */
struct echo {
    luffa_cache *cache;
    uint32_t inserted;
    uint32_t told;
};

static void echo(void *context, int event, const void *key, size_t key_len, const void *value, size_t value_len) {
    struct echo *echo = context;
    uint32_t bytes;
    memcpy(&bytes, key, 4);
    CHECK(event == LUFFA_EVICT && key_len == 4 && value_len == 4 && memcmp(value, &bytes, 4) == 0);
    echo->told++;
    if (echo->inserted < 1000) {
        bytes = echo->inserted++;
        CHECK(luffa_insert(echo->cache, 0, &bytes, 4, &bytes, 4, 1, 0) == LUFFA_OK);
    }
}

/* The listener calls the cache, which tells it again, one call in the other; and of more than one batch. */
static void echoing(uint32_t policy) {
    struct echo heard = {.inserted = 500};
    luffa_config config = luffa_config_default(policy);
    config.capacity = 100;
    config.shards = 2;
    config.listener = echo;
    config.listener_context = &heard;
    CHECK(luffa_create(&config, &heard.cache) == LUFFA_OK);
    for (uint32_t i = 0; i < 500; i++)
        CHECK(luffa_insert(heard.cache, 0, &i, 4, &i, 4, 1, 0) == LUFFA_OK);
    CHECK(luffa_resize(heard.cache, 0, 10) == LUFFA_OK && luffa_evict_all(heard.cache, 0) == LUFFA_OK);
    CHECK(heard.inserted == 1000 && heard.told + luffa_entries(heard.cache) == 1000 && luffa_usage(heard.cache) <= 10);
    CHECK(luffa_evict_all(heard.cache, 0) == LUFFA_OK && heard.told == 1000);
    luffa_destroy(heard.cache);
}

/* The hash without a callback: each byte of a key counts, so the keys don't crowd a shard, and each cache has its own.
 */
static void hashing(void) {
    unsigned char key[40];
    for (size_t len = 1; len <= sizeof key; len += len < 18 ? 1 : 5)
        for (size_t at = 0; at < len; at++) {
            luffa_cache *cache = created(LUFFA_FIFO, 128, 8);
            memset(key, 'k', sizeof key);
            for (key[at] = 0; key[at] < 64; key[at]++)
                CHECK(luffa_insert(cache, 0, key, len, NULL, 0, 1, 0) == LUFFA_OK);
            CHECK(luffa_entries(cache) > 48);
            luffa_destroy(cache);
        }
    luffa_cache *caches[] = {created(LUFFA_FIFO, 100, 8), created(LUFFA_FIFO, 100, 8)};
    size_t differ = 0;
    for (uint32_t i = 0; i < 1000; i++)
        for (int which = 0; which < 2; which++)
            CHECK(luffa_insert(caches[which], 0, &i, 4, NULL, 0, 1, 0) == LUFFA_OK);
    for (uint32_t i = 0; i < 1000; i++)
        differ += luffa_contains(caches[0], 0, &i, 4) != luffa_contains(caches[1], 0, &i, 4);
    CHECK(differ > 0);
    luffa_destroy(caches[0]);
    luffa_destroy(caches[1]);
}

static uint64_t one(void *context, const void *key, size_t key_len) {
    (void)key;
    (void)key_len;
    return ++*(uint64_t *)context, 1;
}

/* All keys have the same hash. */
static void colliding(uint32_t policy) {
    luffa_config config = luffa_config_default(policy);
    uint64_t asked = 0;
    luffa_cache *cache;
    config.capacity = 8000;
    config.hash = one;
    config.hash_context = &asked;
    CHECK(luffa_create(&config, &cache) == LUFFA_OK);
    for (uint32_t i = 0; i < 200; i++)
        CHECK(luffa_insert(cache, 0, &i, 4, &i, 4, 1, 0) == LUFFA_OK);
    for (uint32_t i = 0; i < 200; i++) {
        uint32_t found = ~i;
        size_t len;
        CHECK(luffa_get(cache, 0, &i, 4, &found, 4, &len) == LUFFA_OK && found == i);
    }
    CHECK(asked == 400);
    luffa_destroy(cache);
}

/* A cache that takes no lock. */
static luffa_cache *unlocked(uint32_t policy, size_t capacity) {
    luffa_config config = luffa_config_default(policy);
    luffa_cache *cache;
    config.capacity = capacity;
    config.shards = 2;
    config.is_unlocked = 1;
    CHECK(luffa_create(&config, &cache) == LUFFA_OK);
    return cache;
}

int main(void) {
    creating();
    growing();
    versions();
    hashing();
    reconfiguring();
    for (uint32_t policy = LUFFA_FIFO; policy <= LUFFA_SIEVE; policy++) {
        for (size_t shards = 0; shards <= 3; shards++) {
            luffa_cache *cache = shards == 0 ? unlocked(policy, 300) : created(policy, 300, shards);
            one_record(cache);
            empty_bytes(cache);
            lengths(cache, shards == 1);
            expiry(cache);
            making(cache);
            luffa_destroy(cache);
        }
        entries(policy);
        weights(policy);
        bulk(policy);
        listening(policy);
        echoing(policy);
        making_late(policy);
        colliding(policy);
        if (failures != 0) {
            fprintf(stderr, "with %s\n", POLICIES[policy]);
            break;
        }
    }
    return ended("calls");
}
