/*
 * expiry [THREADS]: luffa_set_expires, and what entries show of the terms of their records. Then threads change when
 * the same records expire, while they insert, hold and remove them; each value of the caller's is freed once.
 */
#define _GNU_SOURCE
#include "check.h"
#include <pthread.h>
#include <stdatomic.h>
#include <stdbool.h>
#include <time.h>

enum { KEYS = 2000, LONG = 40, STEPS = 4000, MOST_THREADS = 64 };

static const uint64_t TIMES[] = {7, (uint64_t)1 << 33, (uint64_t)1 << 49, UINT64_MAX - 9};
static luffa_cache *cache;
static atomic_size_t told[LUFFA_CLEAR + 1], freed, wrong;

/* Keys of 40 bytes, and values of as many, need memory of their own. */
static const unsigned char *spelled(uint64_t number) {
    static _Thread_local unsigned char bytes[LONG];
    memset(bytes, (int)number % 251, sizeof bytes);
    memcpy(bytes, &number, 8);
    return bytes;
}

static void hear(void *context, int event, const void *key, size_t key_len, const void *value, size_t value_len) {
    (void)context;
    wrong += key_len != LONG || (value_len != 0 && (value_len != LONG || memcmp(key, value, LONG) != 0));
    told[event]++;
}

static void begin(uint32_t policy, size_t capacity, size_t shards, bool is_heard) {
    luffa_config config = luffa_config_default(policy);
    config.capacity = capacity;
    config.shards = shards;
    config.listener = is_heard ? hear : NULL;
    for (int i = 0; i <= LUFFA_CLEAR; i++)
        told[i] = 0;
    freed = wrong = 0;
    CHECK(luffa_create(&config, &cache) == LUFFA_OK);
}

static luffa_status set(uint64_t now, uint64_t key, uint64_t expires) {
    return luffa_set_expires(cache, now, spelled(key), LONG, expires);
}

static luffa_status get(uint64_t now, uint64_t key, luffa_entry *entry) {
    luffa_status status = luffa_get_entry(cache, now, spelled(key), LONG, entry);
    CHECK(status != LUFFA_OK || (entry->key_len == LONG && memcmp(entry->key, spelled(key), LONG) == 0));
    return status;
}

static luffa_status add(uint64_t key, size_t weight, uint32_t flags, uint64_t expires, luffa_entry *entry) {
    const luffa_terms terms = {.weight = weight, .flags = flags, .expires = expires};
    return luffa_insert_entry(cache, 0, spelled(key), LONG, spelled(key), LONG, &terms, entry);
}

static bool shows(const luffa_entry *entry, size_t weight, uint32_t flags, uint64_t expires) {
    return entry->weight == weight && entry->flags == flags && entry->expires == expires && entry->value_len == LONG &&
           memcmp(entry->value, entry->key, LONG) == 0;
}

static void one_record(uint32_t policy, uint64_t time) {
    luffa_entry old, new;
    begin(policy, 100, 1, true);
    CHECK(set(0, 1, time) == LUFFA_MISSING && luffa_entries(cache) == 0);
    CHECK(add(1, 3, LUFFA_LOW_PRIORITY, 99, &old) == LUFFA_OK && shows(&old, 3, LUFFA_LOW_PRIORITY, 0));
    CHECK(set(0, 1, time) == LUFFA_OK && luffa_entries(cache) == 1 && luffa_usage(cache) == 3);
    CHECK(told[LUFFA_REPLACE] == 1 && shows(&old, 3, LUFFA_LOW_PRIORITY, 0));
    CHECK(get(time - 1, 1, &new) == LUFFA_OK && shows(&new, 3, LUFFA_LOW_PRIORITY | LUFFA_EXPIRES, time));
    luffa_release(&old);
    CHECK(get(time, 1, &old) == LUFFA_MISSING && set(time, 1, 0) == LUFFA_MISSING);
    CHECK(set(time - 1, 1, time + 2) == LUFFA_OK && shows(&new, 3, LUFFA_LOW_PRIORITY | LUFFA_EXPIRES, time));
    luffa_release(&new);
    CHECK(get(time + 1, 1, &new) == LUFFA_OK && new.expires == time + 2);
    luffa_release(&new);
    CHECK(set(0, 1, 0) == LUFFA_OK && get(UINT64_MAX, 1, &new) == LUFFA_OK);
    CHECK(shows(&new, 3, LUFFA_LOW_PRIORITY, 0));
    luffa_release(&new);
    CHECK(set(0, 1, 5) == LUFFA_OK && luffa_evict_all(cache, 5) == LUFFA_OK && luffa_entries(cache) == 0);
    CHECK(told[LUFFA_REPLACE] == 4 && told[LUFFA_EVICT] == 1);
    CHECK(add(2, 1, LUFFA_PHANTOM | LUFFA_EXPIRES, time, &new) == LUFFA_OK);
    CHECK(shows(&new, 1, LUFFA_PHANTOM | LUFFA_EXPIRES, time) && set(0, 2, 9) == LUFFA_MISSING);
    luffa_release(&new);
    CHECK(wrong == 0);
    luffa_destroy(cache);
}

static size_t seen;

static void look(void *context, const luffa_entry *record) {
    uint64_t key;
    memcpy(&key, record->key, 8);
    seen += shows(record, 1, LUFFA_EXPIRES, *(uint64_t *)context + key);
}

/* Thousands of records get times of their own, in as many shards. */
static void many(uint32_t policy, size_t shards, uint64_t time) {
    luffa_entry entry;
    begin(policy, 100 * KEYS, shards, true);
    for (uint64_t key = 0; key < KEYS; key++)
        CHECK(add(key, 1, 0, 0, NULL) == LUFFA_OK && set(0, key, time - KEYS + key) == LUFFA_OK);
    time -= KEYS;
    seen = 0;
    CHECK(luffa_for_each(cache, look, &time) == LUFFA_OK && seen == KEYS && luffa_entries(cache) == KEYS);
    for (uint64_t key = 0; key < KEYS; key += 3) {
        CHECK(get(time + key, key, &entry) == LUFFA_MISSING);
        CHECK(key == 0 || get(time + key - 1, key, &entry) == LUFFA_OK);
        if (key != 0)
            luffa_release(&entry);
    }
    CHECK(luffa_evict_all(cache, time + KEYS) == LUFFA_OK && luffa_entries(cache) == 0);
    CHECK(told[LUFFA_REPLACE] == KEYS && told[LUFFA_EVICT] == KEYS && wrong == 0);
    luffa_destroy(cache);
}

/* A full shard evicts a record to make room for one that is inserted again, and then has room. */
static void in_a_full_shard(uint32_t policy) {
    size_t count = 0;
    begin(policy, 100, 1, true);
    for (uint64_t key = 0; key < 100; key++)
        CHECK(add(key, 1, 0, 0, NULL) == LUFFA_OK);
    for (uint64_t key = 0; key < 100; key++)
        count += set(0, key, 50) == LUFFA_OK;
    CHECK(count >= 98 && luffa_entries(cache) == count && told[LUFFA_REPLACE] + told[LUFFA_EVICT] >= count);
    const luffa_terms heavy = {.weight = SIZE_MAX};
    luffa_entry entry;
    CHECK(get(0, 99, &entry) == LUFFA_OK);
    if (policy == LUFFA_LRU) /* its pinned weight and the other's would overflow, so the record stays as it was */
        CHECK(luffa_insert_entry(cache, 0, spelled(1), LONG, NULL, 0, &heavy, NULL) == LUFFA_WEIGHT);
    luffa_release(&entry);
    luffa_destroy(cache);
}

/* It evicts what has expired by then, however late that is. */
static void evicts_what_has_expired(uint32_t policy, uint64_t time) {
    begin(policy, 100, 1, true);
    for (uint64_t key = 0; key < 100; key++)
        CHECK(add(key, 1, key == 50 ? LUFFA_EXPIRES : 0, time, NULL) == LUFFA_OK);
    CHECK(set(time, 60, 0) == LUFFA_OK && told[LUFFA_EVICT] == 1 && told[LUFFA_REPLACE] == 1);
    for (uint64_t key = 0; key < 100; key++)
        CHECK(luffa_contains(cache, 0, spelled(key), LONG) == (key == 50 ? LUFFA_MISSING : LUFFA_OK));
    luffa_destroy(cache);
}

static int values[KEYS];

static void free_value(void *context, void *value) {
    wrong += context != values || ++*(int *)value != 1;
    freed++;
}

static luffa_status give(uint64_t key, uint32_t flags, luffa_entry *entry) {
    const luffa_terms terms = {.weight = 1, .flags = flags};
    return luffa_insert_owned(cache, 0, spelled(key), LONG, &values[key], &terms, free_value, values, entry);
}

/* A value is freed after the last of its records has left, and the last entry of any was released. */
static void owned(uint32_t policy, size_t shards, bool is_heard) {
    luffa_entry first, second;
    memset(values, 0, sizeof values);
    begin(policy, 100 * KEYS, shards, is_heard);
    CHECK(give(0, 0, &first) == LUFFA_OK && set(0, 0, 8) == LUFFA_OK && set(0, 0, 9) == LUFFA_OK && freed == 0);
    CHECK(get(8, 0, &second) == LUFFA_OK && second.value == &values[0] && second.expires == 9);
    CHECK(luffa_remove(cache, spelled(0), LONG) == LUFFA_OK && freed == 0);
    luffa_release(&second);
    CHECK(freed == 0 && first.value == &values[0]);
    luffa_release(&first);
    CHECK(freed == 1 && values[0] == 1);
    for (uint64_t key = 1; key < KEYS; key++) {
        CHECK(give(key, 0, NULL) == LUFFA_OK);
        for (uint64_t times = key % 3; times > 0; times--)
            CHECK(set(0, key, 9 + times) == LUFFA_OK);
    }
    CHECK(freed == 1);
    for (uint64_t key = 1; key < KEYS; key += 2)
        CHECK(luffa_insert(cache, 0, spelled(key), LONG, spelled(key), LONG, 1, 0) == LUFFA_OK && values[key] == 1);
    CHECK(freed == 1 + KEYS / 2 && luffa_clear(cache) == LUFFA_OK && freed == KEYS);
    values[1] = 0;
    freed = 0;
    CHECK(give(1, 0, &first) == LUFFA_OK && set(0, 1, 9) == LUFFA_OK);
    luffa_destroy(cache);
    CHECK(freed == 1 && values[1] == 1 && wrong == 0);
}

/* Makes the value of key 1 of the record that was found at an earlier time, and of key 2 of one that is inserted. */
static int make(void *context, const void *key, size_t key_len, luffa_made *made) {
    (void)key_len, (void)made;
    uint64_t number;
    memcpy(&number, key, 8);
    if (number == 2)
        CHECK(give(2, 0, NULL) == LUFFA_OK);
    CHECK(set(0, number, 100) == LUFFA_OK && (number == 1 || set(0, number, 200) == LUFFA_OK));
    *(bool *)context = true;
    return 1;
}

/* A record that is inserted again ends the fetch of its key. */
static void ends_a_fetch(uint32_t policy) {
    for (uint64_t key = 1; key < 3; key++) {
        luffa_entry entry;
        bool is_made = false;
        values[key] = 0;
        begin(policy, 100, 1, false);
        CHECK(key == 2 || (give(key, 0, NULL) == LUFFA_OK && set(0, key, 5) == LUFFA_OK));
        CHECK(luffa_get_or_insert(cache, 5, spelled(key), LONG, make, &is_made, &entry) == LUFFA_OK && is_made);
        CHECK(entry.value == &values[key] && luffa_clear(cache) == LUFFA_OK && freed == 0);
        luffa_release(&entry);
        CHECK(freed == 1 && values[key] == 1 && wrong == 0); /* and not when the cache ends */
        luffa_destroy(cache);
    }
}

static atomic_int has_ended;

static void *wait_for_it(void *context) {
    luffa_entry entry;
    CHECK(luffa_get_or_insert(cache, 5, spelled(1), LONG, NULL, NULL, &entry) == LUFFA_OK && entry.expires == 100);
    luffa_release(&entry);
    has_ended = 1;
    return context;
}

/* Finds the record at an earlier time while another thread waits for its key, which then waits no more. */
static int make_for_another(void *context, const void *key, size_t key_len, luffa_made *made) {
    (void)made;
    CHECK(pthread_create(context, NULL, wait_for_it, NULL) == 0);
    while (luffa_get_stats(cache).misses < 2)
        nanosleep(&(struct timespec){0, 1000000}, NULL);
    nanosleep(&(struct timespec){0, 20000000}, NULL);
    CHECK(luffa_set_expires(cache, 0, key, key_len, 100) == LUFFA_OK);
    for (int i = 0; i < 5000 && !has_ended; i++)
        nanosleep(&(struct timespec){0, 1000000}, NULL);
    CHECK(has_ended);
    return 1;
}

static void wakes_who_waits(void) {
    pthread_t waiter;
    begin(LUFFA_LRU, 100, 1, true);
    CHECK(add(1, 1, LUFFA_EXPIRES, 5, NULL) == LUFFA_OK);
    CHECK(luffa_get_or_insert(cache, 5, spelled(1), LONG, make_for_another, &waiter, NULL) == LUFFA_OK);
    pthread_join(waiter, NULL);
    luffa_destroy(cache);
}

struct given {
    atomic_int is_freed;
    uint64_t key;
};

static void free_given(void *context, void *value) {
    struct given *it = value;
    wrong += context != &cache || atomic_fetch_add(&it->is_freed, 1) != 0;
    freed++;
    free(it);
}

static atomic_size_t given;

static void *change(void *context) {
    uint64_t state = 88172645463325252u + (uint64_t)(uintptr_t)context;
    luffa_entry held = {0};
    for (int i = 0; i < STEPS; i++) {
        state = state * 6364136223846793005u + 1442695040888963407u;
        uint64_t key = (state >> 33) % 50, what = (state >> 40) % 8;
        const luffa_terms terms = {.weight = 1};
        if (what == 0) {
            struct given *it = calloc(1, sizeof *it);
            it->key = key;
            given++;
            wrong += luffa_insert_owned(cache, 0, &key, 8, it, &terms, free_given, &cache, NULL) != LUFFA_OK;
        } else if (what == 1) {
            luffa_release(&held);
            if (luffa_get_entry(cache, 0, &key, 8, &held) == LUFFA_OK)
                wrong += ((const struct given *)held.value)->key != key;
        } else if (what == 2) {
            luffa_remove(cache, &key, 8);
        } else {
            luffa_status status = luffa_set_expires(cache, 0, &key, 8, what == 3 ? 0 : state >> 20);
            wrong += status != LUFFA_OK && status != LUFFA_MISSING;
        }
        if (held.shard != NULL)
            wrong += ((const struct given *)held.value)->is_freed != 0;
    }
    luffa_release(&held);
    return NULL;
}

static void changes(uint32_t policy, size_t threads) {
    pthread_t all[MOST_THREADS];
    begin(policy, 40, 4, false);
    given = 0;
    for (size_t i = 0; i < threads; i++)
        CHECK(pthread_create(&all[i], NULL, change, (void *)(uintptr_t)(i + 1)) == 0);
    for (size_t i = 0; i < threads; i++)
        CHECK(pthread_join(all[i], NULL) == 0);
    CHECK(luffa_clear(cache) == LUFFA_OK && freed == given && wrong == 0);
    luffa_destroy(cache);
    CHECK(freed == given && wrong == 0);
}

static atomic_bool is_written;

static void *change_one(void *context) {
    for (uint64_t time = 1; !is_written; time++) {
        luffa_status status = set(0, 1, time);
        wrong += status != LUFFA_OK && status != LUFFA_MISSING;
    }
    return context;
}

/* Whoever changes when a record expires doesn't put an older one in the place of another thread's. */
static void keeps_what_is_newer(uint32_t policy, size_t threads) {
    pthread_t all[MOST_THREADS];
    luffa_entry entry;
    begin(policy, 100, 1, false);
    is_written = false;
    for (size_t i = 0; i < threads; i++)
        CHECK(pthread_create(&all[i], NULL, change_one, NULL) == 0);
    for (uint64_t number = 0; number < STEPS; number++) {
        CHECK(luffa_insert(cache, 0, spelled(1), LONG, &number, 8, 1, 0) == LUFFA_OK);
        CHECK(get(0, 1, &entry) == LUFFA_OK && memcmp(entry.value, &number, 8) == 0);
        luffa_release(&entry);
    }
    is_written = true;
    for (size_t i = 0; i < threads; i++)
        CHECK(pthread_join(all[i], NULL) == 0);
    CHECK(luffa_entries(cache) == 1 && wrong == 0);
    luffa_destroy(cache);
}

int main(int argc, char **argv) {
    static const size_t SHARDS[] = {1, 17, 65, 1000};
    size_t threads = argc > 1 ? strtoull(argv[1], NULL, 10) : 4;
    for (uint32_t policy = LUFFA_FIFO; policy <= LUFFA_SIEVE; policy++) {
        for (size_t i = 0; i < 4; i++) {
            one_record(policy, TIMES[i]);
            evicts_what_has_expired(policy, TIMES[i]);
            many(policy, SHARDS[i], TIMES[i] > KEYS ? TIMES[i] : KEYS + 9);
            owned(policy, SHARDS[i], i % 2 == 0);
        }
        in_a_full_shard(policy);
        ends_a_fetch(policy);
        changes(policy, threads < MOST_THREADS ? threads : MOST_THREADS);
        keeps_what_is_newer(policy, threads < MOST_THREADS ? threads : MOST_THREADS);
    }
    wakes_who_waits();
    return ended("expiry");
}
