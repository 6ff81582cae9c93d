/* Sizes that users have: many shards of which some are empty, thousands of records that leave by one call, thousands of
 * entries, times and capacities above 2^32 and 2^48. */
#include "check.h"
#include <stdbool.h>

enum { KEYS = 6000, MANY = 70000 };

/* The last call's departures: how many, of which event, each key once, and the first one's key. */
struct heard {
    size_t count;
    int event;
    size_t wrong;
    uint64_t first;
    bool is_told[KEYS];
};

static struct heard heard;
static bool is_in[KEYS];

static uint64_t key_is_hash(void *context, const void *key, size_t key_len) {
    uint64_t number;
    (void)context;
    memcpy(&number, key, key_len);
    return number;
}

static void hear(void *context, int event, const void *key, size_t key_len, const void *value, size_t value_len) {
    uint64_t number = key_is_hash(NULL, key, key_len);
    (void)context;
    if (heard.count++ == 0)
        heard.first = number;
    heard.event = event;
    heard.wrong += number >= KEYS || heard.is_told[number] || value_len != 8 || memcmp(key, value, 8) != 0;
    if (number < KEYS)
        heard.is_told[number] = true;
}

static luffa_cache *listened(uint32_t policy, size_t capacity, size_t shards) {
    luffa_config config = luffa_config_default(policy);
    luffa_cache *cache;
    config.capacity = capacity;
    config.shards = shards;
    config.hash = key_is_hash;
    config.listener = hear;
    CHECK(luffa_create(&config, &cache) == LUFFA_OK);
    heard = (struct heard){0};
    return cache;
}

static luffa_status add(luffa_cache *cache, uint64_t now, uint64_t key, size_t weight, uint64_t expires) {
    return luffa_insert(cache, now, &key, 8, &key, 8, weight, expires);
}

/* Adds the first keys, but those of every fourth shard, and forgets what was heard. Returns how many. */
static size_t fill(luffa_cache *cache, size_t keys) {
    size_t count = 0;
    for (uint64_t key = 0; key < KEYS; key++) {
        is_in[key] = key < keys && (luffa_shards(cache) < 3 || key % luffa_shards(cache) % 4 != 2);
        if (is_in[key])
            CHECK(add(cache, 0, key, 1, 0) == LUFFA_OK);
        count += is_in[key];
    }
    CHECK(luffa_entries(cache) == count && luffa_usage(cache) == count && heard.count == 0);
    return count;
}

/* Whether each record that was in, and no other, was told as this event, once. */
static bool has_told_all(int event) {
    bool is_well = heard.wrong == 0 && heard.event == event;
    for (size_t key = 0; key < KEYS; key++)
        is_well &= heard.is_told[key] == is_in[key];
    heard = (struct heard){0};
    return is_well;
}

/* Each call for all records reaches each shard, and tells all that leaves. */
static void all_shards(uint32_t policy, size_t shards, size_t keys) {
    luffa_cache *cache = listened(policy, 100 * KEYS, shards);
    luffa_entry entry;
    uint64_t heavy = shards == 1 ? 0 : 1;
    size_t count = fill(cache, keys), hits = 0;
    for (uint64_t key = 0; key < keys; key++)
        hits += luffa_touch(cache, 0, &key, 8) == LUFFA_OK;
    luffa_stats stats = luffa_get_stats(cache);
    CHECK(hits == count && stats.hits == count && stats.misses == keys - count && stats.entries == count);
    CHECK(luffa_clear(cache) == LUFFA_OK && has_told_all(LUFFA_CLEAR) && luffa_entries(cache) == 0);
    fill(cache, keys);
    CHECK(luffa_evict_all(cache, 0) == LUFFA_OK && has_told_all(LUFFA_EVICT) && luffa_entries(cache) == 0);
    fill(cache, keys);
    CHECK(luffa_resize(cache, 0, 0) == LUFFA_OK && has_told_all(LUFFA_EVICT) && luffa_entries(cache) == 0);
    CHECK(luffa_resize(cache, 0, SIZE_MAX) == LUFFA_OK && luffa_capacity(cache) == SIZE_MAX);
    if (fill(cache, keys) && shards == 1) { /* one insert evicts them all */
        is_in[heavy] = false;
        CHECK(luffa_remove_entry(cache, &heavy, 8, &entry) == LUFFA_OK);
        luffa_release(&entry);
        heard = (struct heard){0};
        CHECK(add(cache, 0, heavy, SIZE_MAX, 0) == LUFFA_OK && has_told_all(LUFFA_EVICT) && luffa_entries(cache) == 1);
        is_in[heavy] = true;
        CHECK(luffa_clear(cache) == LUFFA_OK && heard.count == 1);
        heard = (struct heard){0};
        fill(cache, keys);
    }
    luffa_destroy(cache);
    CHECK(has_told_all(LUFFA_CLEAR));
}

/* In each shard LRU's pool of high priority becomes empty, so a record of low priority is no longer the first to leave.
 */
static void reconfiguring(size_t shards) {
    luffa_cache *cache = listened(LUFFA_LRU, 2 * shards, shards);
    luffa_policy policy = luffa_config_default(LUFFA_LRU).policy;
    const luffa_terms low = {.weight = 1, .flags = LUFFA_LOW_PRIORITY};
    for (int is_changed = 0; is_changed < 2; is_changed++) {
        policy.high_priority_pool = (luffa_ratio){is_changed ? 0 : 9, 10};
        CHECK(luffa_reconfigure(cache, &policy) == LUFFA_OK && luffa_clear(cache) == LUFFA_OK);
        for (uint64_t key = 0; key < shards; key++) {
            uint64_t second = key + shards, third = second + shards;
            CHECK(add(cache, 0, key, 1, 0) == LUFFA_OK);
            CHECK(luffa_insert_entry(cache, 0, &second, 8, &second, 8, &low, NULL) == LUFFA_OK);
            CHECK(add(cache, 0, third, 1, 0) == LUFFA_OK);
            CHECK(luffa_contains(cache, 0, &key, 8) == (is_changed ? LUFFA_MISSING : LUFFA_OK));
        }
    }
    luffa_destroy(cache);
}

/* Thousands of entries stay readable whatever else is called, and a release ends each of them and no other. */
static void holding(uint32_t policy) {
    static luffa_entry entries[KEYS];
    luffa_cache *cache = listened(policy, KEYS, 1);
    const luffa_terms terms = {.weight = 1}, phantom = {.weight = 1, .flags = LUFFA_PHANTOM};
    uint64_t other = KEYS;
    for (uint64_t key = 0; key < KEYS; key++)
        CHECK(luffa_insert_entry(cache, 0, &key, 8, &key, 8, &terms, &entries[key]) == LUFFA_OK);
    for (uint64_t key = 0; key < KEYS; key += 3)
        CHECK(luffa_remove(cache, &key, 8) == LUFFA_OK);
    for (uint64_t key = 1; key < KEYS; key += 3)
        CHECK(luffa_insert(cache, 0, &key, 8, &other, 8, 1, 0) == LUFFA_OK);
    CHECK(luffa_evict_all(cache, 0) == LUFFA_OK && luffa_entries(cache) == 0);
    for (uint64_t key = 0; key < KEYS; key++) {
        uint64_t at = (key * 2999) % KEYS; /* in another order */
        CHECK(entries[at].value_len == 8 && memcmp(entries[at].value, &at, 8) == 0);
        luffa_release(&entries[at]);
        CHECK(entries[at].shard == NULL);
    }
    CHECK(heard.count == KEYS + KEYS / 3 && luffa_entries(cache) == 0);
    for (uint64_t key = 0; key < KEYS; key++) /* a phantom is told once more, when its entry is released */
        CHECK(luffa_insert_entry(cache, 0, &key, 8, &key, 8, &phantom, &entries[key]) == LUFFA_OK);
    for (uint64_t key = 0; key < KEYS; key++) {
        uint64_t at = (key * 2999) % KEYS;
        heard = (struct heard){0};
        luffa_release(&entries[at]);
        CHECK(heard.count == 1 && heard.first == at && heard.event == LUFFA_EVICT);
    }
    luffa_destroy(cache);
}

/* Hears of FIFO's records, which leave in the order in which they were inserted. */
static void hear_next(void *context, int event, const void *key, size_t key_len, const void *value, size_t value_len) {
    uint64_t *next = context;
    heard.wrong += event != LUFFA_EVICT || key_is_hash(NULL, key, key_len) != *next;
    heard.wrong += value_len != 8 || memcmp(key, value, 8) != 0;
    ++*next;
}

/* More records leave by one call than 16 bits count. */
static void leaving(size_t capacity) {
    luffa_config config = luffa_config_default(LUFFA_FIFO);
    uint64_t next = 0;
    luffa_cache *cache;
    config.capacity = MANY;
    config.shards = 1;
    config.listener = hear_next;
    config.listener_context = &next;
    heard = (struct heard){0};
    CHECK(luffa_create(&config, &cache) == LUFFA_OK);
    for (uint64_t key = 0; key < MANY; key++)
        CHECK(add(cache, 0, key, 1, 0) == LUFFA_OK);
    CHECK(next == 0 && (capacity == 0 ? luffa_evict_all(cache, 0) : luffa_resize(cache, 0, capacity)) == LUFFA_OK);
    CHECK(next == MANY - capacity && heard.wrong == 0 && luffa_entries(cache) == capacity);
    CHECK(luffa_evict_all(cache, 0) == LUFFA_OK && next == MANY && heard.wrong == 0);
    luffa_destroy(cache);
}

static int is_odd(void *context, const luffa_entry *record) {
    ++*(uint64_t *)context;
    return key_is_hash(NULL, record->key, record->key_len) % 2 != 0;
}

struct making {
    uint64_t now;
    uint64_t expires;
    int runs;
};

static int make(void *context, const void *key, size_t key_len, luffa_made *made) {
    struct making *making = context;
    making->runs++;
    made->value = key;
    made->value_len = key_len;
    CHECK(made->now == making->now);
    made->expires = making->expires;
    return 0;
}

/* Whether a value was made, and not found. */
static bool made(luffa_cache *cache, uint64_t now, uint64_t key, uint64_t expires) {
    struct making making = {now, expires, 0};
    luffa_entry entry;
    CHECK(luffa_get_or_insert(cache, now, &key, 8, make, &making, &entry) == LUFFA_OK && making.runs <= 1);
    CHECK(entry.value_len == 8 && memcmp(entry.key, &key, 8) == 0 && memcmp(entry.value, &key, 8) == 0);
    luffa_release(&entry);
    return making.runs == 1;
}

/* More entries are held than 16 bits count, and each call takes the record that it is to take. */
static void holding_more(void) {
    static luffa_entry entries[MANY];
    luffa_cache *cache = listened(LUFFA_FIFO, 2 * MANY, 1);
    const luffa_terms terms = {.weight = 1}, phantom = {.weight = 1, .flags = LUFFA_PHANTOM};
    const uint64_t last = MANY - 2, other = MANY + 1;
    uint64_t met = 0, removed = 0;
    luffa_entry seen, next;
    for (uint64_t key = 0; key < MANY; key++)
        CHECK(luffa_insert_entry(cache, 0, &key, 8, &key, 8, &terms, &entries[key]) == LUFFA_OK);
    CHECK(luffa_insert_entry(cache, 0, &other, 8, &other, 8, &phantom, &seen) == LUFFA_OK && heard.count == 1);
    luffa_release(&seen);
    CHECK(heard.count == 2 && heard.event == LUFFA_EVICT); /* the release was this entry's */
    CHECK(made(cache, 0, MANY, 0) && luffa_set_expires(cache, 0, &last, 8, 9) == LUFFA_OK);
    CHECK(luffa_get_entry(cache, 8, &last, 8, &seen) == LUFFA_OK && seen.expires == 9);
    CHECK(luffa_replace_if(cache, 0, &seen, &last, 8, &last, 8, &terms, &next) == LUFFA_OK);
    CHECK(luffa_remove_this(&seen) == LUFFA_MISSING && luffa_remove_this(&next) == LUFFA_OK);
    CHECK(luffa_contains(cache, 0, &last, 8) == LUFFA_MISSING && luffa_entries(cache) == MANY);
    luffa_release(&seen);
    luffa_release(&next);
    CHECK(luffa_remove_if(cache, is_odd, &met, &removed) == LUFFA_OK && met == MANY && removed == MANY / 2);
    for (uint64_t key = 0; key < MANY; key++) {
        CHECK(luffa_contains(cache, 0, &key, 8) == (key % 2 != 0 || key == last ? LUFFA_MISSING : LUFFA_OK));
        CHECK(entries[key].value_len == 8 && memcmp(entries[key].value, &key, 8) == 0);
        luffa_release(&entries[key]);
    }
    CHECK(luffa_entries(cache) == MANY / 2);
    luffa_destroy(cache);
}

/* Each look-up finds a record until it expires, by all bits of the time. */
static void looking_up(uint32_t policy, uint64_t expires) {
    luffa_cache *cache = created(policy, 100, 17);
    uint64_t key = 7, value;
    luffa_entry entry;
    size_t len;
    for (int is_made = 0; is_made < 2; is_made++) {
        CHECK(is_made ? made(cache, 1, key, expires) : add(cache, 1, key, 1, expires) == LUFFA_OK);
        for (uint64_t now = expires - 1; now - expires + 1 < 2; now++) {
            luffa_status wanted = now < expires ? LUFFA_OK : LUFFA_MISSING;
            CHECK(luffa_get(cache, now, &key, 8, &value, 8, &len) == wanted);
            CHECK(luffa_peek(cache, now, &key, 8, &value, 8, &len) == wanted);
            CHECK(luffa_contains(cache, now, &key, 8) == wanted && luffa_touch(cache, now, &key, 8) == wanted);
            CHECK(luffa_get_entry(cache, now, &key, 8, &entry) == wanted);
            if (wanted == LUFFA_OK)
                luffa_release(&entry);
        }
        CHECK(luffa_get(cache, 0, &key, 8, &value, 8, &len) == LUFFA_OK); /* time may go back */
        CHECK(!made(cache, expires - 1, key, 0) && made(cache, expires, key, 0) && luffa_clear(cache) == LUFFA_OK);
    }
    luffa_destroy(cache);
}

enum evicting { RESIZE, EVICT_ALL, INSERT, INSERT_ENTRY, INSERT_OWNED, REPLACE_IF, SET_EXPIRES, MAKE };

static bool evicts(luffa_cache *cache, uint64_t now, enum evicting call) {
    const luffa_terms terms = {.weight = 1};
    static uint64_t key = 10, resident = 5;
    switch (call) {
    case RESIZE:
        return luffa_resize(cache, now, 9) == LUFFA_OK;
    case EVICT_ALL:
        return luffa_evict_all(cache, now) == LUFFA_OK;
    case INSERT:
        return add(cache, now, key, 1, 0) == LUFFA_OK;
    case INSERT_ENTRY:
        return luffa_insert_entry(cache, now, &key, 8, &key, 8, &terms, NULL) == LUFFA_OK;
    case INSERT_OWNED:
        return luffa_insert_owned(cache, now, &key, 8, &key, &terms, NULL, NULL, NULL) == LUFFA_OK;
    case REPLACE_IF:
        return luffa_replace_if(cache, now, NULL, &key, 8, &key, 8, &terms, NULL) == LUFFA_OK;
    case SET_EXPIRES:
        return luffa_set_expires(cache, now, &resident, 8, 0) == LUFFA_OK;
    default:
        return made(cache, now, key, 0);
    }
}

/* What has expired leaves first, by all bits of the time. */
static void evicting(uint32_t policy, uint64_t expires, enum evicting call) {
    for (int is_late = 0; is_late < 2; is_late++) {
        luffa_cache *cache = listened(policy, 10, 1);
        uint64_t now = expires - !is_late;
        for (uint64_t key = 0; key < 10; key++)
            CHECK(add(cache, 0, key, 1, key == 9 ? expires : 0) == LUFFA_OK);
        CHECK(evicts(cache, now, call));
        CHECK(heard.count > 0 && heard.wrong == 0 && (heard.first == 9) == is_late);
        luffa_destroy(cache);
    }
}

/* Each shard gets its part of a capacity above 2^32, the first ones of what is left over too. */
static void shares(uint32_t policy, size_t shards) {
    const size_t weight = ((size_t)1 << 40) - 1, capacity = shards * 3 * weight + shards / 2;
    for (int is_resized = 0; is_resized < 2; is_resized++) {
        luffa_cache *cache = listened(policy, is_resized ? 0 : capacity, shards);
        if (is_resized)
            CHECK(luffa_resize(cache, 0, capacity) == LUFFA_OK);
        for (uint64_t key = 0; key < 3 * shards; key++)
            CHECK(add(cache, 0, key, weight + (key < shards / 2), 0) == LUFFA_OK && heard.count == 0);
        CHECK(luffa_usage(cache) == capacity && luffa_entries(cache) == 3 * shards);
        for (uint64_t key = 3 * shards; key < 4 * shards; key++)
            CHECK(add(cache, 0, key, 1, 0) == LUFFA_OK);
        CHECK(heard.count == shards && heard.wrong == 0 && luffa_entries(cache) == 3 * shards);
        luffa_destroy(cache);
    }
}

/* Hashes that differ above bit 32 alone lead to shards of their own, if their number is odd. */
static void high_hashes(uint32_t policy, size_t shards) {
    luffa_cache *cache = listened(policy, shards, shards);
    for (uint64_t i = 0; i < shards; i++)
        CHECK(add(cache, 0, i << 32, 1, 0) == LUFFA_OK && luffa_entries(cache) == i + 1);
    luffa_destroy(cache);
}

/* A key whose hash differs above bit 32 alone is none that left lately, which S3-FIFO would keep. */
static void remembering(uint64_t key, luffa_status wanted) {
    luffa_cache *cache = listened(LUFFA_S3FIFO, 10, 1);
    for (uint64_t other = 0; other < 11; other++)
        CHECK(add(cache, 0, other, 1, 0) == LUFFA_OK);
    CHECK(add(cache, 0, key, 1, 0) == LUFFA_OK);
    for (uint64_t other = 100; other < 110; other++)
        CHECK(add(cache, 0, other, 1, 0) == LUFFA_OK);
    CHECK(luffa_contains(cache, 0, &key, 8) == wanted);
    luffa_destroy(cache);
}

/* More hits and misses than 16 bits count. */
static void counting(void) {
    luffa_cache *cache = listened(LUFFA_LRU, 10, 1);
    uint64_t key = 1, missing = 2;
    CHECK(add(cache, 0, key, 1, 0) == LUFFA_OK);
    for (size_t i = 0; i < MANY; i++)
        CHECK(luffa_touch(cache, 0, &key, 8) == LUFFA_OK && luffa_touch(cache, 0, &missing, 8) == LUFFA_MISSING);
    luffa_stats stats = luffa_get_stats(cache);
    CHECK(stats.hits == MANY && stats.misses == MANY);
    luffa_destroy(cache);
}

int main(void) {
    static const size_t SHARDS[] = {17, 65, 100, 128};
    static const uint64_t TIMES[] = {(uint64_t)1 << 32, ((uint64_t)1 << 48) + 5, (uint64_t)1 << 56, UINT64_MAX - 1};
    for (uint32_t policy = LUFFA_FIFO; policy <= LUFFA_SIEVE; policy++) {
        all_shards(policy, 1, 5000);
        all_shards(policy, 2, 5000);
        for (size_t i = 0; i < sizeof SHARDS / sizeof *SHARDS; i++) {
            all_shards(policy, SHARDS[i], 1000);
            shares(policy, SHARDS[i]);
            if (SHARDS[i] % 2 != 0)
                high_hashes(policy, SHARDS[i]);
            if (policy == LUFFA_LRU)
                reconfiguring(SHARDS[i]);
        }
        holding(policy);
        for (size_t i = 0; i < sizeof TIMES / sizeof *TIMES; i++) {
            looking_up(policy, TIMES[i]);
            for (enum evicting call = RESIZE; call <= MAKE; call++)
                evicting(policy, TIMES[i], call);
        }
    }
    leaving(0);
    leaving(1000);
    holding_more();
    remembering(0, LUFFA_OK);
    remembering((uint64_t)1 << 32, LUFFA_MISSING);
    counting();
    return ended("sizes");
}
