/* Looks that count no use, and walks over all records: with many shards of which some are empty, and thousands of
 * records. */
#include "check.h"
#include <stdbool.h>

enum { KEYS = 6000 };

static uint64_t key_is_hash(void *context, const void *key, size_t key_len) {
    uint64_t number;
    (void)context;
    memcpy(&number, key, key_len);
    return number;
}

/* The records that a walk met, or the listener was told of: how often each key, and how many in all. */
struct seen {
    luffa_cache *cache;
    size_t count;
    size_t wrong;
    size_t times[KEYS];
};

static struct seen seen, told;

static void see(struct seen *in, const void *key, size_t key_len, const void *value, size_t value_len) {
    uint64_t number = key_is_hash(NULL, key, key_len);
    in->count++;
    in->wrong += number >= KEYS || value_len != 8 || memcmp(value, key, 8) != 0;
    if (number < KEYS)
        in->times[number]++;
}

static void hear(void *context, int event, const void *key, size_t key_len, const void *value, size_t value_len) {
    (void)context;
    told.wrong += event != LUFFA_REMOVE && event != LUFFA_CLEAR;
    see(&told, key, key_len, value, value_len);
}

static luffa_cache *filled(uint32_t policy, size_t shards, size_t keys, size_t apart) {
    luffa_config config = luffa_config_default(policy);
    luffa_cache *cache;
    config.capacity = 100 * KEYS;
    config.shards = shards;
    config.hash = key_is_hash;
    config.listener = hear;
    CHECK(luffa_create(&config, &cache) == LUFFA_OK);
    seen = told = (struct seen){.cache = cache};
    for (uint64_t key = 0; key < keys; key += apart)
        CHECK(luffa_insert(cache, 0, &key, 8, &key, 8, 1 + key % 5, 0) == LUFFA_OK);
    return cache;
}

static void look(void *context, const luffa_entry *record) {
    uint64_t other = KEYS;
    luffa_entry copy = *record;
    see(context, record->key, record->key_len, record->value, record->value_len);
    seen.wrong += record->weight != 1 + key_is_hash(NULL, record->key, 8) % 5;
    seen.wrong += luffa_contains(seen.cache, 0, &other, 8) != LUFFA_MISSING; /* no lock is held */
    luffa_release(&copy);                                                    /* it isn't an entry */
}

static int is_even(void *context, const luffa_entry *record) {
    look(context, record);
    return key_is_hash(NULL, record->key, 8) % 2 == 0 ? -1 : 0;
}

/* Whether each of these keys was seen once, and no other. */
static bool saw(const struct seen *in, size_t keys, size_t apart, size_t step) {
    bool is_well = in->wrong == 0;
    for (size_t key = 0; key < KEYS; key++)
        is_well &= in->times[key] == (key < keys && key % apart == 0 && key % step == 0);
    return is_well;
}

static void all_records(uint32_t policy, size_t shards, size_t keys, size_t apart) {
    luffa_cache *cache = filled(policy, shards, keys, apart);
    luffa_stats before = luffa_get_stats(cache);
    uint64_t removed = 7, count = before.entries;
    CHECK(count == (keys + apart - 1) / apart && luffa_for_each(cache, look, &seen) == LUFFA_OK);
    CHECK(saw(&seen, keys, apart, 1) && seen.count == count && told.count == 0);
    luffa_stats after = luffa_get_stats(cache);
    CHECK(memcmp(&before, &after, sizeof before) == 0);
    seen = (struct seen){.cache = cache};
    CHECK(luffa_remove_if(cache, is_even, &seen, &removed) == LUFFA_OK && saw(&seen, keys, apart, 1));
    CHECK(saw(&told, keys, apart, 2) && removed == told.count && luffa_entries(cache) == count - removed);
    for (uint64_t key = 0; key < keys; key += apart)
        CHECK(luffa_contains(cache, 0, &key, 8) == (key % 2 == 0 ? LUFFA_MISSING : LUFFA_OK));
    seen = (struct seen){.cache = cache};
    CHECK(luffa_remove_if(cache, is_even, &seen, NULL) == LUFFA_OK && seen.count == count - removed);
    CHECK(luffa_clear(cache) == LUFFA_OK && told.count == count);
    seen = (struct seen){.cache = cache};
    CHECK(luffa_for_each(cache, look, &seen) == LUFFA_OK && seen.count == 0);
    luffa_destroy(cache);
}

/* Removes the record that is met, and the next ones, and inserts it again under another key. */
static void disturb(void *context, const luffa_entry *record) {
    struct seen *in = context;
    uint64_t key = key_is_hash(NULL, record->key, 8);
    see(in, record->key, 8, record->value, record->value_len);
    for (uint64_t other = key; other < key + 40 && other < KEYS; other++)
        luffa_remove(in->cache, &other, 8);
    in->wrong += memcmp(record->key, record->value, 8) != 0; /* still readable */
    CHECK(luffa_insert(in->cache, 0, &key, 8, &key, 8, 1, 0) == LUFFA_OK);
}

static int remove_and_replace(void *context, const luffa_entry *record) {
    struct seen *in = context;
    uint64_t key = key_is_hash(NULL, record->key, 8);
    in->count++;
    CHECK(luffa_insert(in->cache, 0, &key, 8, &key, 8, 1, 0) == LUFFA_OK);
    return 1;
}

/* Removes a third of all records when it is called first, and chooses the even ones. */
static int is_even_of_two_thirds(void *context, const luffa_entry *record) {
    struct seen *in = context;
    uint64_t key = key_is_hash(NULL, record->key, 8);
    for (uint64_t other = 1; in->count == 0 && other < KEYS; other += 3)
        luffa_remove(in->cache, &other, 8);
    in->count++;
    return key % 2 == 0;
}

static void skipping(uint32_t policy) {
    luffa_cache *cache = filled(policy, 1, 3000, 1);
    uint64_t removed;
    CHECK(luffa_remove_if(cache, is_even_of_two_thirds, &seen, &removed) == LUFFA_OK && removed == 1000);
    for (uint64_t key = 0; key < 3000; key++)
        CHECK(luffa_contains(cache, 0, &key, 8) == (key % 2 != 0 && key % 3 != 1 ? LUFFA_OK : LUFFA_MISSING));
    CHECK(told.count == 2000 && told.wrong == 0);
    luffa_destroy(cache);
}

/* Callbacks change the cache: a record that has left by its batch isn't shown, and one that replaces a record that was
 * chosen stays. */
static void changing(uint32_t policy) {
    luffa_cache *cache = filled(policy, 1, 1000, 1);
    uint64_t removed;
    CHECK(luffa_for_each(cache, disturb, &seen) == LUFFA_OK && seen.wrong == 0);
    CHECK(seen.count >= 1000 / 40 && seen.count < 1000);
    size_t count = luffa_entries(cache);
    seen = (struct seen){.cache = cache};
    CHECK(luffa_remove_if(cache, remove_and_replace, &seen, &removed) == LUFFA_OK && seen.count == count);
    CHECK(removed == 0 && luffa_entries(cache) == count);
    luffa_destroy(cache);
}

/* A peek leaves the order and the counts alone; a get uses: the oldest record leaves first, unless it was used. */
static void peeking(uint32_t policy) {
    for (int is_used = 0; is_used < 2; is_used++) {
        luffa_cache *cache = created(policy, 40, 1);
        char buffer[8] = "unread";
        size_t len = 99;
        for (char key = 'A'; key < 'A' + 40; key++)
            CHECK(luffa_insert(cache, 0, &key, 1, &key, 1, 1, key == 'H' ? 9 : 0) == LUFFA_OK);
        CHECK(luffa_peek(cache, 0, "z", 1, buffer, 8, &len) == LUFFA_MISSING && len == 99);
        CHECK(luffa_peek(cache, 9, "H", 1, buffer, 8, &len) == LUFFA_MISSING && len == 99);
        CHECK(strcmp(buffer, "unread") == 0 && luffa_peek(cache, 8, "H", 1, NULL, 0, &len) == LUFFA_OK && len == 1);
        for (int i = 0; i < 3; i++)
            CHECK((is_used ? luffa_get : luffa_peek)(cache, 0, "A", 1, buffer, 8, &len) == LUFFA_OK && *buffer == 'A');
        luffa_stats stats = luffa_get_stats(cache);
        CHECK(stats.hits == (is_used ? 3 : 0) && stats.misses == 0);
        CHECK(put(cache, "i", "i") == LUFFA_OK && luffa_entries(cache) == 40);
        if (policy != LUFFA_LFU)
            CHECK(luffa_contains(cache, 0, "A", 1) == (is_used && policy != LUFFA_FIFO ? LUFFA_OK : LUFFA_MISSING));
        luffa_destroy(cache);
    }
}

/* LFU: after many uses the oldest record stays, and after as many peeks it leaves. */
static void peeking_often(void) {
    for (int is_used = 0; is_used < 2; is_used++) {
        luffa_cache *cache = created(LUFFA_LFU, 100, 1);
        uint32_t first = 0;
        size_t len;
        for (uint32_t key = 0; key < 100; key++)
            CHECK(luffa_insert(cache, 0, &key, 4, &key, 4, 1, 0) == LUFFA_OK);
        for (int i = 0; i < 10; i++)
            CHECK((is_used ? luffa_get : luffa_peek)(cache, 0, &first, 4, NULL, 0, &len) == LUFFA_OK);
        for (uint32_t key = 100; key < 400; key++) {
            CHECK(luffa_insert(cache, 0, &key, 4, &key, 4, 1, 0) == LUFFA_OK);
            luffa_get(cache, 0, &key, 4, NULL, 0, &len);
            luffa_get(cache, 0, &key, 4, NULL, 0, &len);
        }
        CHECK(luffa_contains(cache, 0, &first, 4) == (is_used ? LUFFA_OK : LUFFA_MISSING));
        luffa_destroy(cache);
    }
}

int main(void) {
    static const size_t SHARDS[] = {1, 2, 17, 65, 1000};
    for (uint32_t policy = LUFFA_FIFO; policy <= LUFFA_SIEVE; policy++) {
        for (size_t i = 0; i < sizeof SHARDS / sizeof *SHARDS; i++) {
            all_records(policy, SHARDS[i], 5000, 1);
            all_records(policy, SHARDS[i], 900, 3);
        }
        changing(policy);
        skipping(policy);
        peeking(policy);
    }
    peeking_often();
    return ended("walks");
}
