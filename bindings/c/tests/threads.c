/*
 * threads [THREADS SECONDS]: threads insert, look up, hold, make, remove, resize and clear at random. Each value has
 * its key and a checksum, so a value of another key or of two writers is seen. Of the callers of luffa_get_or_insert
 * that ask for one key at the same time, one makes it.
 */
#define _GNU_SOURCE
#include "check.h"
#include <pthread.h>
#include <stdatomic.h>
#include <time.h>

enum { KEYS = 3000, HELD = 16, MOST_THREADS = 64, LONGEST = 400 };

static luffa_cache *cache;
static luffa_policy policy_in_use;
static atomic_int is_over;
static atomic_ulong wrong, calls, made, left, given, freed;
static atomic_int is_making[KEYS + 1];

struct value {
    uint32_t key;
    uint32_t len;
    uint32_t sum;
    unsigned char bytes[LONGEST];
};

static uint32_t sum_of(const unsigned char *bytes, size_t len, uint32_t sum) {
    for (size_t i = 0; i < len; i++)
        sum = (sum ^ bytes[i]) * 16777619u;
    return sum;
}

static size_t write_value(struct value *value, uint32_t key, uint32_t noise) {
    value->key = key;
    value->len = noise % LONGEST;
    for (size_t i = 0; i < value->len; i++)
        value->bytes[i] = (unsigned char)(noise >> i % 24);
    value->sum = sum_of(value->bytes, value->len, key);
    return offsetof(struct value, bytes) + value->len;
}

static void look_at(uint32_t key, const void *bytes, size_t len) {
    struct value value;
    if (len < offsetof(struct value, bytes) || len > sizeof value) {
        wrong++;
        return;
    }
    memcpy(&value, bytes, len);
    wrong += value.key != key || len != offsetof(struct value, bytes) + value.len ||
             value.sum != sum_of(value.bytes, value.len, key);
}

static int make(void *context, const void *key, size_t key_len, luffa_made *out) {
    uint32_t number;
    memcpy(&number, key, key_len);
    wrong += atomic_fetch_add(&is_making[number], 1) != 0;
    out->value_len = write_value(context, number, number * 2654435761u);
    out->value = context;
    made++;
    if (number % 64 == 0)
        nanosleep(&(struct timespec){0, 100000}, NULL);
    atomic_fetch_sub(&is_making[number], 1);
    return number % 97 == 0;
}

static void hear(void *context, int event, const void *key, size_t key_len, const void *value, size_t value_len) {
    uint32_t number;
    (void)context;
    memcpy(&number, key, key_len);
    if (number < KEYS)
        look_at(number, value, value_len);
    wrong += event > LUFFA_CLEAR;
    left++;
}

/* A value that the cache is given, which is freed once and stays readable until then. */
struct given {
    atomic_int is_freed;
    uint32_t key;
};

static void free_given(void *context, void *value) {
    struct given *it = value;
    wrong += context != &cache || atomic_fetch_add(&it->is_freed, 1) != 0;
    freed++;
    free(it);
}

static void look_at_given(const luffa_entry *record) {
    const struct given *it = record->value;
    uint32_t number;
    memcpy(&number, record->key, sizeof number);
    wrong += record->value_len != 0 || it->is_freed != 0 || it->key != number;
}

/* Keys from KEYS on have such values. */
static void give(uint32_t key, luffa_entry *entry) {
    const luffa_terms terms = {.weight = 1, .flags = key % 16 == 0 ? LUFFA_PHANTOM : 0};
    struct given *it = malloc(sizeof *it);
    *it = (struct given){0, key};
    given++;
    if (luffa_insert_owned(cache, 0, &key, sizeof key, it, &terms, free_given, &cache, entry) != LUFFA_OK)
        wrong++;
}

static void look_at_any(void *context, const luffa_entry *record) {
    uint32_t number;
    memcpy(&number, record->key, sizeof number);
    if (number >= KEYS)
        look_at_given(record);
    else
        look_at(number, record->value, record->value_len);
    ++*(uint32_t *)context;
}

static int look_and_choose(void *context, const luffa_entry *record) {
    look_at_any(context, record);
    return *(uint32_t *)context % 8 == 0;
}

static int make_given(void *context, const void *key, size_t key_len, luffa_made *out) {
    uint32_t number;
    (void)context, (void)key_len, (void)out;
    memcpy(&number, key, sizeof number);
    give(number, NULL);
    return 1; /* the insert has ended the fetch */
}

static void use_given(uint32_t noise, luffa_entry *held) {
    uint32_t key = KEYS + noise % 300;
    luffa_entry entry = {0};
    if (noise % 3 == 0)
        give(key, noise % 2 == 0 ? &entry : NULL);
    else if (noise % 5 == 0)
        luffa_get_or_insert(cache, 0, &key, sizeof key, make_given, NULL, &entry);
    else
        luffa_get_entry(cache, 0, &key, sizeof key, &entry);
    if (entry.shard == NULL)
        return;
    look_at_given(&entry);
    if (held->shard != NULL)
        look_at_given(held);
    luffa_release(held);
    *held = entry;
}

static uint32_t next(uint32_t *state) {
    *state ^= *state << 13;
    *state ^= *state >> 17;
    *state ^= *state << 5;
    return *state;
}

static void hold(luffa_entry *held, luffa_entry entry, uint32_t key) {
    look_at(key, entry.value, entry.value_len);
    if (held->shard != NULL) {
        uint32_t number;
        memcpy(&number, held->key, held->key_len);
        look_at(number, held->value, held->value_len);
    }
    luffa_release(held);
    *held = entry;
}

static void *work(void *context) {
    uint32_t state = *(uint32_t *)context;
    luffa_entry held[HELD] = {{0}}, held_given[HELD] = {{0}}, entry;
    struct value value;
    while (!is_over) {
        uint32_t noise = next(&state), key = noise % KEYS, call = next(&state) % 1000;
        size_t len;
        key = next(&state) % (key + 1); /* low keys more often */
        if (noise % 8 == 0) {
            use_given(next(&state), &held_given[noise / 8 % HELD]);
        } else if (call < 500) {
            key |= 1;
            luffa_status status = luffa_get(cache, 0, &key, sizeof key, &value, sizeof value, &len);
            if (status == LUFFA_OK)
                look_at(key, &value, len);
            else if (status == LUFFA_MISSING)
                wrong +=
                    luffa_insert(cache, 0, &key, sizeof key, &value, write_value(&value, key, noise), 1, 0) != LUFFA_OK;
        } else if (call < 700) {
            luffa_entry *old = &held[noise % HELD];
            if (old->shard != NULL && call % 8 == 0) { /* again, after the record has left */
                wrong += luffa_remove_this(old) > LUFFA_MISSING;
                wrong += luffa_remove_this(old) != LUFFA_MISSING;
            }
            if (luffa_get_entry(cache, 0, &key, sizeof key, &entry) == LUFFA_OK)
                hold(old, entry, key);
        } else if (call < 900) {
            key &= ~1u;
            luffa_entry *wanted = noise % 4 == 0 ? NULL : &entry;
            luffa_status status = luffa_get_or_insert(cache, 0, &key, sizeof key, make, &value, wanted);
            if (status == LUFFA_OK && wanted != NULL)
                hold(&held[noise % HELD], entry, key);
            else
                wrong += status != LUFFA_OK && status != LUFFA_CANCELLED;
        } else if (call < 910) { /* many ask for these keys, whose values take a while */
            key = 64 * (1 + noise % 3);
            luffa_remove(cache, &key, sizeof key);
            luffa_status status = luffa_get_or_insert(cache, 0, &key, sizeof key, make, &value, NULL);
            wrong += status != LUFFA_OK && status != LUFFA_CANCELLED;
        } else if (call < 960) {
            luffa_remove(cache, &key, sizeof key);
        } else if (call < 980) {
            luffa_touch(cache, 0, &key, sizeof key);
            luffa_contains(cache, 0, &key, sizeof key);
            if (luffa_peek(cache, 0, &key, sizeof key, &value, sizeof value, &len) == LUFFA_OK)
                look_at(key, &value, len);
        } else if (call < 990) {
            key = noise % 2 == 0 ? key : KEYS + noise % 300;
            luffa_status status = luffa_set_expires(cache, 0, &key, sizeof key, noise);
            wrong += status != LUFFA_OK && status != LUFFA_MISSING;
        } else if (call < 991) {
            uint32_t count = 0;
            if (noise % 2 == 0)
                wrong += luffa_for_each(cache, look_at_any, &count) != LUFFA_OK;
            else
                wrong += luffa_remove_if(cache, look_and_choose, &count, NULL) != LUFFA_OK;
        } else if (call < 995) {
            luffa_resize(cache, 0, 200 + noise % 2000);
        } else if (call < 997) {
            luffa_evict_all(cache, 0);
        } else if (call < 998) {
            luffa_clear(cache);
            wrong += luffa_reconfigure(cache, &policy_in_use) != LUFFA_OK;
        } else {
            wrong += luffa_get_stats(cache).entries > KEYS + 300;
        }
        calls++;
    }
    for (int i = 0; i < HELD; i++) {
        luffa_release(&held[i]);
        luffa_release(&held_given[i]);
    }
    return NULL;
}

static void run(uint32_t policy, long threads, double seconds, int is_heard) {
    luffa_config config = luffa_config_default(policy);
    pthread_t ids[MOST_THREADS];
    uint32_t seeds[MOST_THREADS];
    config.capacity = 1000;
    policy_in_use = config.policy;
    config.listener = is_heard ? hear : NULL;
    CHECK(luffa_create(&config, &cache) == LUFFA_OK);
    is_over = 0;
    for (long i = 0; i < threads; i++) {
        seeds[i] = (uint32_t)(i * 2654435761u + policy + 1);
        CHECK(pthread_create(&ids[i], NULL, work, &seeds[i]) == 0);
    }
    nanosleep(&(struct timespec){(time_t)seconds, (long)((seconds - (double)(time_t)seconds) * 1e9)}, NULL);
    is_over = 1;
    for (long i = 0; i < threads; i++)
        pthread_join(ids[i], NULL);
    CHECK(luffa_clear(cache) == LUFFA_OK && luffa_usage(cache) == 0 && given == freed);
    luffa_destroy(cache);
}

static atomic_int has_ended;

static void *wait_for_it(void *context) {
    (void)context;
    luffa_entry entry;
    CHECK(luffa_get_or_insert(cache, 0, "key", 3, NULL, NULL, &entry) == LUFFA_OK);
    CHECK(memcmp(entry.value, "inserted", 8) == 0);
    luffa_release(&entry);
    has_ended = 1;
    return NULL;
}

enum inserting { INSERT, INSERT_ENTRY, INSERT_OWNED, REPLACE_IF };

struct waking {
    enum inserting call;
    pthread_t waiter;
};

static luffa_status insert_by(enum inserting call, const void *key, size_t key_len) {
    static char value[] = "inserted";
    const luffa_terms terms = {.weight = 1};
    switch (call) {
    case INSERT:
        return luffa_insert(cache, 0, key, key_len, value, 8, 1, 0);
    case INSERT_ENTRY:
        return luffa_insert_entry(cache, 0, key, key_len, value, 8, &terms, NULL);
    case INSERT_OWNED:
        return luffa_insert_owned(cache, 0, key, key_len, value, &terms, NULL, NULL, NULL);
    default:
        return luffa_replace_if(cache, 0, NULL, key, key_len, value, 8, &terms, NULL);
    }
}

/* Inserts the key while another thread waits for it, which then waits no more. */
static int make_for_another(void *context, const void *key, size_t key_len, luffa_made *out) {
    struct waking *waking = context;
    (void)out;
    CHECK(pthread_create(&waking->waiter, NULL, wait_for_it, NULL) == 0);
    while (luffa_get_stats(cache).misses < 2)
        nanosleep(&(struct timespec){0, 1000000}, NULL);
    nanosleep(&(struct timespec){0, 20000000}, NULL);
    CHECK(insert_by(waking->call, key, key_len) == LUFFA_OK);
    for (int i = 0; i < 5000 && !has_ended; i++)
        nanosleep(&(struct timespec){0, 1000000}, NULL);
    CHECK(has_ended);
    return 1;
}

static void insert_wakes(enum inserting call) {
    struct waking waking = {.call = call};
    has_ended = 0;
    cache = created(LUFFA_LRU, 10, 1);
    CHECK(luffa_get_or_insert(cache, 0, "key", 3, make_for_another, &waking, NULL) == LUFFA_OK);
    pthread_join(waking.waiter, NULL);
    luffa_destroy(cache);
}

enum { WAITERS = 6 };

static atomic_int cancelled, made_again;
static pthread_t waiters[WAITERS];

static int make_again(void *context, const void *key, size_t key_len, luffa_made *out) {
    (void)context;
    made_again++;
    out->value = key;
    out->value_len = key_len;
    return 0;
}

static void *wait_in_vain(void *context) {
    luffa_entry entry = {0};
    (void)context;
    cancelled += luffa_get_or_insert(cache, 0, "fails", 5, make_again, NULL, &entry) == LUFFA_CANCELLED;
    luffa_release(&entry);
    return NULL;
}

/* Fails once others wait for it. */
static int make_none(void *context, const void *key, size_t key_len, luffa_made *out) {
    (void)context, (void)key, (void)key_len, (void)out;
    for (int i = 0; i < WAITERS; i++)
        CHECK(pthread_create(&waiters[i], NULL, wait_in_vain, NULL) == 0);
    while (luffa_get_stats(cache).misses < 1 + WAITERS)
        nanosleep(&(struct timespec){0, 1000000}, NULL);
    return 1;
}

/* Whoever ran the callback that failed and all who waited for it get F15, and none of them makes a value. The next call
 * does. */
static void all_are_refused(void) {
    luffa_entry entry = {0};
    cache = created(LUFFA_S3FIFO, 10, 1);
    CHECK(luffa_get_or_insert(cache, 0, "fails", 5, make_none, NULL, &entry) == LUFFA_CANCELLED && entry.shard == NULL);
    for (int i = 0; i < WAITERS; i++)
        pthread_join(waiters[i], NULL);
    CHECK(cancelled == WAITERS && made_again == 0 && luffa_entries(cache) == 0);
    CHECK(luffa_get_or_insert(cache, 0, "fails", 5, make_again, NULL, &entry) == LUFFA_OK && made_again == 1);
    luffa_release(&entry);
    luffa_destroy(cache);
}

int main(int argc, char **argv) {
    long threads = argc > 1 ? strtol(argv[1], NULL, 10) : 8;
    double seconds = argc > 2 ? strtod(argv[2], NULL) : 10;
    for (enum inserting call = INSERT; call <= REPLACE_IF; call++)
        insert_wakes(call);
    all_are_refused();
    for (uint32_t policy = LUFFA_FIFO; policy <= LUFFA_SIEVE; policy++)
        run(policy, threads < MOST_THREADS ? threads : MOST_THREADS, seconds / 5, policy % 2 == 0);
    CHECK(wrong == 0 && made > 0 && left > 0);
    CHECK(given > 0);
    printf("%lu calls, %lu values made, %lu given, %lu records told, %lu wrong\n", calls, made, given, left, wrong);
    return ended("threads");
}
