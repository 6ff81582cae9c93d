/*
 * conditional [THREADS]: inserts and removals that depend on the record that a key has, and records that are only
 * inserted if they fit. Then threads count in one record by luffa_replace_if, and none of their steps is lost.
 */
#include "check.h"
#include <pthread.h>
#include <stdatomic.h>

enum { STEPS = 2000, MOST_THREADS = 64, LONG = 40 };

static const luffa_terms ONE = {.weight = 1};
static luffa_cache *cache;
static atomic_size_t told[LUFFA_CLEAR + 1];

static void hear(void *context, int event, const void *key, size_t key_len, const void *value, size_t value_len) {
    (void)context, (void)key, (void)key_len, (void)value, (void)value_len;
    told[event]++;
}

static luffa_status replace(uint64_t now, const luffa_entry *seen, const char *value, luffa_entry *current) {
    return luffa_replace_if(cache, now, seen, "a key of more than 22 bytes", 27, value, strlen(value), &ONE, current);
}

static luffa_status expiring(uint64_t expires) {
    return luffa_insert(cache, 0, "a key of more than 22 bytes", 27, "old", 3, 1, expires);
}

static int is_value(const luffa_entry *entry, const char *value) {
    return entry->value_len == strlen(value) && memcmp(entry->value, value, entry->value_len) == 0;
}

static void begin(uint32_t policy, size_t capacity) {
    luffa_config config = luffa_config_default(policy);
    config.capacity = capacity;
    config.shards = 1;
    config.listener = hear;
    for (int i = 0; i <= LUFFA_CLEAR; i++)
        told[i] = 0;
    CHECK(luffa_create(&config, &cache) == LUFFA_OK);
}

static void replaces(uint32_t policy) {
    luffa_entry first, second, third;
    begin(policy, 10);
    CHECK(replace(0, NULL, "one", &first) == LUFFA_OK && is_value(&first, "one"));
    CHECK(replace(0, NULL, "two", &second) == LUFFA_CHANGED && is_value(&second, "one"));
    luffa_release(&second);
    CHECK(replace(0, &first, "two", &second) == LUFFA_OK && is_value(&second, "two") && told[LUFFA_REPLACE] == 1);
    CHECK(replace(0, &first, "three", &third) == LUFFA_CHANGED && is_value(&third, "two"));
    luffa_release(&third);
    CHECK(replace(0, &first, "three", NULL) == LUFFA_CHANGED && luffa_remove_this(&first) == LUFFA_MISSING);
    CHECK(luffa_remove_this(&second) == LUFFA_OK && told[LUFFA_REMOVE] == 1 && luffa_entries(cache) == 0);
    CHECK(luffa_remove_this(&second) == LUFFA_MISSING && is_value(&second, "two"));
    CHECK(replace(0, &second, "three", &third) == LUFFA_MISSING && luffa_entries(cache) == 0);
    luffa_release(&first);
    luffa_release(&second);
    CHECK(expiring(5) == LUFFA_OK && replace(5, NULL, "new", &first) == LUFFA_OK && is_value(&first, "new"));
    CHECK(told[LUFFA_REPLACE] + told[LUFFA_EVICT] == 2); /* an expired record isn't found */
    luffa_release(&first);
    CHECK(expiring(5) == LUFFA_OK && luffa_get_entry(cache, 0, "a key of more than 22 bytes", 27, &first) == LUFFA_OK);
    CHECK(replace(9, &first, "new", &second) == LUFFA_OK && is_value(&second, "new")); /* and can be replaced */
    luffa_release(&second);
    luffa_release(&first);
    luffa_destroy(cache);
}

static luffa_status fits(const char *key, size_t weight, luffa_entry *entry) {
    const luffa_terms terms = {.weight = weight, .flags = LUFFA_ONLY_IF_FITS};
    return luffa_insert_entry(cache, 0, key, strlen(key), key, strlen(key), &terms, entry);
}

static void free_value(void *context, void *value) {
    (void)value;
    ++*(int *)context;
}

static void inserts_if_fits(uint32_t policy) {
    const luffa_terms heavy = {.weight = 11, .flags = LUFFA_ONLY_IF_FITS};
    luffa_entry held;
    int freed = 0;
    begin(policy, 10);
    CHECK(fits("a", 10, NULL) == LUFFA_OK && fits("b", 11, &held) == LUFFA_FULL && luffa_usage(cache) == 10);
    CHECK(luffa_insert_owned(cache, 0, "b", 1, &freed, &heavy, free_value, &freed, NULL) == LUFFA_FULL && freed == 0);
    CHECK(luffa_contains(cache, 0, "a", 1) == LUFFA_OK && told[LUFFA_EVICT] == 0);
    CHECK(fits("b", 4, NULL) == LUFFA_OK && luffa_usage(cache) == 4 && told[LUFFA_EVICT] == 1);
    CHECK(luffa_get_entry(cache, 0, "b", 1, &held) == LUFFA_OK);
    CHECK(fits("c", 7, NULL) == (policy == LUFFA_LRU ? LUFFA_FULL : LUFFA_OK)); /* LRU doesn't evict what is held */
    CHECK(fits("b", 10, NULL) == LUFFA_OK);                                     /* but it is replaced */
    luffa_release(&held);
    CHECK(fits("c", 7, NULL) == LUFFA_OK && luffa_usage(cache) <= 10);
    luffa_destroy(cache);
}

/* What doesn't fit replaces nothing. */
static void replaces_if_fits(uint32_t policy) {
    const luffa_terms fine = {.weight = 10, .flags = LUFFA_ONLY_IF_FITS}, heavy = {11, 0, LUFFA_ONLY_IF_FITS};
    luffa_entry first, second = {0};
    begin(policy, 10);
    CHECK(luffa_replace_if(cache, 0, NULL, "a", 1, "one", 3, &heavy, &second) == LUFFA_FULL && second.shard == NULL);
    CHECK(luffa_replace_if(cache, 0, NULL, "a", 1, "one", 3, &fine, &first) == LUFFA_OK && luffa_usage(cache) == 10);
    CHECK(luffa_replace_if(cache, 0, &first, "a", 1, "two", 3, &heavy, &second) == LUFFA_FULL &&
          told[LUFFA_REPLACE] == 0);
    CHECK(luffa_replace_if(cache, 0, &first, "a", 1, "two", 3, &fine, &second) == LUFFA_OK && is_value(&second, "two"));
    luffa_release(&second);
    CHECK(luffa_replace_if(cache, 0, &first, "a", 1, "three", 5, &heavy, &second) == LUFFA_CHANGED);
    CHECK(is_value(&second, "two") && told[LUFFA_REPLACE] + told[LUFFA_EVICT] == 1);
    CHECK(luffa_replace_if(cache, 0, NULL, "b", 1, "b", 1, &fine, NULL) ==
          (policy == LUFFA_LRU ? LUFFA_FULL : LUFFA_OK));
    luffa_release(&second);
    luffa_release(&first);
    luffa_destroy(cache);
}

/* Adds one to the number under "n", whatever the other threads do. */
static void add_one(void) {
    luffa_entry seen = {0}, current;
    uint64_t number = 1;
    luffa_status status = luffa_replace_if(cache, 0, NULL, "n", 1, &number, 8, &ONE, &current);
    while (status == LUFFA_CHANGED) {
        luffa_release(&seen);
        seen = current;
        memcpy(&number, seen.value, 8);
        number++;
        status = luffa_replace_if(cache, 0, &seen, "n", 1, &number, 8, &ONE, &current);
    }
    CHECK(status == LUFFA_OK);
    luffa_release(&current);
    luffa_release(&seen);
}

static void *count(void *context) {
    for (int i = 0; i < STEPS; i++)
        add_one();
    return context;
}

static void counts(uint32_t policy, int threads) {
    pthread_t all[MOST_THREADS];
    uint64_t number = 0;
    size_t len;
    begin(policy, 100);
    for (int i = 0; i < threads; i++)
        CHECK(pthread_create(&all[i], NULL, count, NULL) == 0);
    for (int i = 0; i < threads; i++)
        CHECK(pthread_join(all[i], NULL) == 0);
    CHECK(luffa_get(cache, 0, "n", 1, &number, 8, &len) == LUFFA_OK && number == (uint64_t)threads * STEPS);
    CHECK(told[LUFFA_REPLACE] == number - 1 && luffa_entries(cache) == 1);
    luffa_destroy(cache);
}

int main(int argc, char **argv) {
    int threads = argc > 1 ? atoi(argv[1]) : 4;
    for (uint32_t policy = LUFFA_FIFO; policy <= LUFFA_SIEVE; policy++) {
        replaces(policy);
        inserts_if_fits(policy);
        replaces_if_fits(policy);
        counts(policy, threads < MOST_THREADS ? threads : MOST_THREADS);
    }
    return ended("conditional");
}
