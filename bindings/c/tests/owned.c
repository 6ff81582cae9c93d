/* Values that the caller gives: each is freed once, after its record has left and its last entry was released, with no
 * lock held. */
#include "check.h"
#include <stdbool.h>

enum { KEYS = 5000 };

static luffa_cache *cache;
static size_t freed[KEYS + 1], count_freed, wrong;
static size_t values[KEYS + 1];

/* A value is the address of a number's place in `values`. */
static void free_value(void *context, void *value) {
    size_t key = (size_t)((size_t *)value - values);
    wrong += context != values || key > KEYS || freed[key]++ != 0;
    count_freed++;
    if (cache != NULL) /* no lock is held */
        wrong += luffa_contains(cache, 0, "?", 1) != LUFFA_MISSING;
}

static luffa_status add(uint64_t key, uint32_t flags, luffa_entry *entry) {
    const luffa_terms terms = {.weight = 1, .expires = 50, .flags = flags};
    return luffa_insert_owned(cache, 0, &key, 8, &values[key], &terms, free_value, values, entry);
}

static void begin(luffa_cache *with) {
    cache = with;
    memset(freed, 0, sizeof freed);
    count_freed = wrong = 0;
}

static void end(size_t wanted) {
    luffa_cache *last = cache;
    cache = NULL; /* which the callback may not use any more */
    luffa_destroy(last);
    CHECK(count_freed == wanted && wrong == 0);
}

static void one_value(uint32_t policy) {
    luffa_entry first, second;
    uint64_t key = 3;
    size_t len = 9;
    begin(created(policy, 100, 1));
    CHECK(add(key, 0, &first) == LUFFA_OK && first.value == &values[3] && first.value_len == 0 && first.weight == 1);
    CHECK(luffa_get_entry(cache, 0, &key, 8, &second) == LUFFA_OK && second.value == &values[3]);
    CHECK(luffa_get(cache, 0, &key, 8, NULL, 0, &len) == LUFFA_OK && len == 0); /* nothing to copy */
    luffa_release(&first);
    CHECK(luffa_remove(cache, &key, 8) == LUFFA_OK && count_freed == 0 && second.value == &values[3]);
    luffa_release(&second);
    CHECK(count_freed == 1 && freed[3] == 1);
    key = 4;
    CHECK(add(key, 0, &first) == LUFFA_OK && luffa_remove_entry(cache, &key, 8, &second) == LUFFA_OK);
    luffa_release(&second);
    CHECK(count_freed == 1);
    luffa_release(&first);
    CHECK(freed[4] == 1);
    CHECK(add(5, 0, NULL) == LUFFA_OK && luffa_insert(cache, 0, &(uint64_t){5}, 8, "x", 1, 1, 0) == LUFFA_OK);
    CHECK(freed[5] == 1); /* it was replaced */
    CHECK(add(6, LUFFA_EXPIRES, NULL) == LUFFA_OK && luffa_evict_all(cache, 50) == LUFFA_OK && freed[6] == 1);
    CHECK(add(7, 0, NULL) == LUFFA_OK && luffa_clear(cache) == LUFFA_OK && freed[7] == 1);
    CHECK(add(8, LUFFA_PHANTOM, &first) == LUFFA_OK && freed[8] == 0 && first.value == &values[8]);
    luffa_release(&first);
    CHECK(freed[8] == 1 && add(9, LUFFA_PHANTOM, NULL) == LUFFA_OK && freed[9] == 1);
    CHECK(add(10, 0, NULL) == LUFFA_OK && add(11, 0, &first) == LUFFA_OK);
    CHECK(luffa_insert_owned(cache, 0, "k", 1, &key, &(luffa_terms){.weight = 1}, NULL, NULL, NULL) == LUFFA_OK);
    end(9); /* with one in the cache and one that is held */
    CHECK(freed[10] == 1 && freed[11] == 1);
}

/* A value with more entries than 16 bits count is freed with the last of them. */
static void entries_of_one(void) {
    enum { MANY = 70000 };
    static luffa_entry entries[MANY];
    const uint64_t key = 1;
    begin(created(LUFFA_LRU, 10, 1));
    CHECK(add(key, 0, NULL) == LUFFA_OK);
    for (size_t i = 0; i < MANY; i++)
        CHECK(luffa_get_entry(cache, 0, &key, 8, &entries[i]) == LUFFA_OK);
    CHECK(luffa_remove(cache, &key, 8) == LUFFA_OK);
    for (size_t i = 0; i < MANY; i++) {
        CHECK(count_freed == 0);
        luffa_release(&entries[i]);
    }
    end(1);
}

/* The caller keeps a value that is refused. */
static void refused(void) {
    const luffa_terms heavy = {.weight = SIZE_MAX};
    luffa_entry held;
    begin(created(LUFFA_LRU, 10, 1));
    CHECK(add(1, 0, NULL) == LUFFA_OK && luffa_get_entry(cache, 0, &(uint64_t){1}, 8, &held) == LUFFA_OK);
    CHECK(luffa_insert_owned(cache, 0, "h", 1, values, &heavy, free_value, values, NULL) == LUFFA_WEIGHT);
    CHECK(count_freed == 0);
    luffa_release(&held);
    end(1);
}

struct heard {
    size_t count;
    size_t wrong;
};

/* The listener is told before the value is freed, and gets it. */
static void hear(void *context, int event, const void *key, size_t key_len, const void *value, size_t value_len) {
    struct heard *heard = context;
    uint64_t number = KEYS;
    memcpy(&number, key, key_len);
    heard->count++;
    heard->wrong += event > LUFFA_CLEAR || value_len != 0 || value != &values[number] || freed[number] != 0;
}

static int chosen(void *context, const luffa_entry *record) {
    uint64_t key;
    memcpy(&key, record->key, 8);
    wrong += record->value != &values[key] || freed[key] != 0;
    if (key % 7 == 0) { /* the walk keeps the value of a record that leaves meanwhile */
        luffa_remove(context, &key, 8);
        wrong += freed[key] != 0;
    }
    return key % 2 == 0;
}

/* Thousands of values leave in every way, some while they are held. */
static void many(uint32_t policy, size_t shards, bool is_heard) {
    static luffa_entry held[KEYS];
    struct heard heard = {0};
    luffa_config config = luffa_config_default(policy);
    luffa_cache *made;
    uint64_t removed;
    config.capacity = 100 * KEYS; /* no shard is full, whatever the seed of the hash */
    config.shards = shards;
    config.listener = is_heard ? hear : NULL;
    config.listener_context = &heard;
    CHECK(luffa_create(&config, &made) == LUFFA_OK);
    begin(made);
    for (uint64_t key = 0; key < KEYS; key++)
        CHECK(add(key, 0, key % 3 == 0 ? &held[key] : NULL) == LUFFA_OK);
    CHECK(luffa_remove_if(cache, chosen, cache, &removed) == LUFFA_OK && wrong == 0);
    size_t left = luffa_entries(cache);
    CHECK(KEYS - left == KEYS / 2 + (KEYS / 7 + 1) / 2 && removed < KEYS - left);
    CHECK(luffa_resize(cache, 0, shards * 3) == LUFFA_OK && luffa_clear(cache) == LUFFA_OK);
    for (uint64_t key = 0; key < KEYS; key++)
        CHECK(freed[key] == (key % 3 != 0));
    for (uint64_t key = 0; key < KEYS; key += 3) {
        CHECK(freed[key] == 0 && held[key].value == &values[key]);
        if (key % 2 == 0)
            luffa_release(&held[key]);
        CHECK(freed[key] == (key % 2 == 0));
    }
    CHECK(!is_heard || (heard.count == KEYS && heard.wrong == 0));
    end(KEYS); /* with some that are held */
}

/* Inserts the value for a key while it is made, which then is that of all who asked for it. */
static int make_owned(void *context, const void *key, size_t key_len, luffa_made *made) {
    uint64_t number;
    (void)context;
    memcpy(&number, key, key_len);
    made->value = "other";
    CHECK(add(number, 0, NULL) == LUFFA_OK);
    CHECK(number != 2 || (luffa_remove(cache, key, key_len) == LUFFA_OK && freed[2] == 0));
    return number == 3;
}

static void made_by_another(uint32_t policy) {
    luffa_entry entry;
    begin(created(policy, 100, 1));
    for (uint64_t key = 1; key < 4; key++) {
        CHECK(luffa_get_or_insert(cache, 0, &key, 8, make_owned, NULL, &entry) == LUFFA_OK);
        CHECK(entry.value == &values[key] && freed[key] == 0);
        luffa_release(&entry);
        CHECK(freed[key] == (key == 2));
    }
    uint64_t key = 4;
    CHECK(luffa_get_or_insert(cache, 0, &key, 8, make_owned, NULL, NULL) == LUFFA_OK && freed[4] == 0);
    CHECK(luffa_get_or_insert(cache, 0, &key, 8, make_owned, NULL, &entry) == LUFFA_OK && entry.value == &values[4]);
    CHECK(luffa_clear(cache) == LUFFA_OK && freed[1] == 1 && freed[3] == 1 && freed[4] == 0);
    luffa_release(&entry);
    end(4);
}

/* Inserts another value for each of the first ones that is freed. */
static void free_and_insert(void *context, void *value) {
    size_t key = (size_t)((size_t *)value - values);
    const luffa_terms terms = {.weight = 1};
    free_value(values, value);
    uint64_t next = key + 100;
    if (next < 1000 && cache != NULL)
        CHECK(luffa_insert_owned(cache, 0, &next, 8, &values[next], &terms, free_and_insert, context, NULL) ==
              LUFFA_OK);
}

static void inserting_again(uint32_t policy) {
    const luffa_terms terms = {.weight = 1};
    begin(created(policy, 50, 2));
    for (uint64_t key = 0; key < 100; key++)
        CHECK(luffa_insert_owned(cache, 0, &key, 8, &values[key], &terms, free_and_insert, NULL, NULL) == LUFFA_OK);
    while (luffa_entries(cache) != 0)
        CHECK(luffa_evict_all(cache, 0) == LUFFA_OK);
    end(1000);
}

int main(void) {
    static const size_t SHARDS[] = {1, 17, 65, 1000};
    for (uint32_t policy = LUFFA_FIFO; policy <= LUFFA_SIEVE; policy++) {
        one_value(policy);
        made_by_another(policy);
        inserting_again(policy);
        for (size_t i = 0; i < 8; i++)
            many(policy, SHARDS[i / 2], i % 2 == 0);
    }
    refused();
    entries_of_one();
    return ended("owned");
}
