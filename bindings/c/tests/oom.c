/*
 * Each request for memory is refused in turn: build it with -Wl,--wrap=malloc,--wrap=realloc,--wrap=calloc,
 * --wrap=aligned_alloc,--wrap=free. Every call then returns what it may, nothing is lost, and the cache goes on. And
 * the same calls again and again keep no more memory. With an argument N, each Nth request is refused.
 */
#include "check.h"
#include <malloc.h>

void *__real_malloc(size_t size);
void *__real_calloc(size_t count, size_t size);
void *__real_realloc(void *block, size_t size);
void *__real_aligned_alloc(size_t align, size_t size);
void __real_free(void *block);

/* How many requests are granted before all are refused, or -1; and whether only one is refused. */
static long granted = -1;
static int only_one;
static long refusals;
static long step = 1; /* from one refused request to the next */
static size_t bytes;  /* that are in use */

static int is_refused(void) {
    if (granted < 0)
        return 0;
    if (granted > 0) {
        granted--;
        return 0;
    }
    if (only_one)
        granted = -1;
    refusals++;
    return 1;
}

static void *counted(void *block) {
    bytes += malloc_usable_size(block);
    return block;
}

void *__wrap_malloc(size_t size) { return is_refused() ? NULL : counted(__real_malloc(size)); }
void *__wrap_calloc(size_t count, size_t size) { return is_refused() ? NULL : counted(__real_calloc(count, size)); }
void *__wrap_aligned_alloc(size_t align, size_t size) {
    return is_refused() ? NULL : counted(__real_aligned_alloc(align, size));
}
void *__wrap_realloc(void *block, size_t size) {
    size_t old = malloc_usable_size(block);
    void *moved = is_refused() ? NULL : counted(__real_realloc(block, size));
    bytes -= moved != NULL ? old : 0;
    return moved;
}
void __wrap_free(void *block) {
    bytes -= malloc_usable_size(block);
    __real_free(block);
}

enum { KEYS = 60, LONG = 40 };

/* How long keys are: 8 needs no memory, LONG does. */
static size_t key_len = 8;

static const unsigned char *spelled(uint64_t number) {
    static unsigned char bytes[LONG];
    memcpy(bytes, &number, 8);
    return bytes;
}

/* How many records of each key were inserted and not told to have left. */
static int are_in[KEYS + 1];
static long told;

static void hear(void *context, int event, const void *key, size_t len, const void *value, size_t value_len) {
    uint64_t number;
    (void)context;
    CHECK(len == key_len && value_len == 8 && memcmp(key, value, 8) == 0);
    memcpy(&number, key, 8);
    CHECK(event <= LUFFA_CLEAR && are_in[number]-- > 0);
    told++;
}

static luffa_cache *current;

/* Makes the key as its value, or nothing without a context. The shard is asked for a shorter key meanwhile. */
static int make(void *context, const void *key, size_t len, luffa_made *made) {
    CHECK(luffa_contains(current, 0, "?", 1) == LUFFA_MISSING);
    if (context == NULL)
        return 1;
    *(int *)context = 1;
    made->value = key;
    made->value_len = len < 8 ? len : 8;
    return 0;
}

/* How many values were given and not freed. */
static long are_owned;

static void free_value(void *context, void *value) { CHECK(value == context && are_owned-- > 0); }

static void look(void *context, const luffa_entry *record) {
    CHECK(record->key_len == key_len);
    ++*(size_t *)context;
}

static int is_third(void *context, const luffa_entry *record) {
    look(context, record);
    return *(size_t *)context % 3 == 0;
}

static int is_fine(luffa_status status) { return status == LUFFA_OK || status == LUFFA_NO_MEMORY; }

static void walks(luffa_cache *cache) {
    size_t count = 0, entries = luffa_entries(cache);
    uint64_t removed = 99;
    luffa_status status = luffa_for_each(cache, look, &count);
    CHECK(status == LUFFA_OK ? count == entries : status == LUFFA_NO_MEMORY && count <= entries);
    count = 0;
    status = luffa_remove_if(cache, is_third, &count, &removed);
    CHECK(status == LUFFA_OK ? removed == count / 3 : status == LUFFA_NO_MEMORY && removed <= count / 3);
    CHECK(luffa_entries(cache) == entries - removed);
}

/* Values that the caller gives, some of which are held: no listener hears of them here. */
static void owned(luffa_cache *cache) {
    luffa_terms terms = {.weight = 1};
    luffa_entry entries[8];
    size_t held = 0;
    for (uint64_t key = 0; key < KEYS; key++) {
        are_owned++;
        luffa_entry *entry = held < 8 && key % 5 == 0 ? &entries[held] : NULL;
        terms.flags = key % 11 == 0 ? LUFFA_PHANTOM : 0;
        luffa_status status =
            luffa_insert_owned(cache, 0, spelled(key), key_len, &are_owned, &terms, free_value, &are_owned, entry);
        CHECK(is_fine(status));
        if (status != LUFFA_OK)
            are_owned--;
        else
            held += entry != NULL;
        status = luffa_set_expires(cache, 0, spelled(key), key_len, 9);
        CHECK(is_fine(status) || status == LUFFA_MISSING);
    }
    walks(cache);
    for (size_t i = 0; i < held; i += 2)
        luffa_release(&entries[i]);
    luffa_status status = luffa_clear(cache);
    CHECK(is_fine(status));
    for (size_t i = 1; i < held; i += 2)
        luffa_release(&entries[i]);
}

/* Replaces records if they are still there, and removes them. */
static void conditional(luffa_cache *cache) {
    const luffa_terms terms = {.weight = 1, .flags = LUFFA_ONLY_IF_FITS};
    for (uint64_t key = 0; key < KEYS; key += 3) {
        luffa_entry seen = {0}, next = {0};
        luffa_status status = luffa_replace_if(cache, 0, NULL, spelled(key), key_len, &key, 8, &terms, &seen);
        CHECK(is_fine(status) || status == LUFFA_CHANGED);
        are_in[key] += status == LUFFA_OK;
        if (seen.shard != NULL) {
            status = luffa_replace_if(cache, 0, &seen, spelled(key), key_len, &key, 8, &terms, &next);
            CHECK(is_fine(status));
            are_in[key] += status == LUFFA_OK;
        }
        if (next.shard != NULL) {
            status = luffa_remove_this(&seen);
            CHECK(status == LUFFA_MISSING || status == LUFFA_NO_MEMORY);
            CHECK(is_fine(luffa_remove_this(&next)));
        }
        luffa_release(&seen);
        luffa_release(&next);
        status = luffa_insert_entry(cache, 0, spelled(key), key_len, &key, 8, &terms, NULL);
        CHECK(is_fine(status));
        are_in[key] += status == LUFFA_OK;
        status = luffa_set_expires(cache, 0, spelled(key), key_len, key);
        CHECK(is_fine(status) || status == LUFFA_MISSING);
        are_in[key] += status == LUFFA_OK;
    }
}

/* Inserts, lookups and bulk calls over KEYS keys. */
static void calls(luffa_cache *cache) {
    current = cache;
    luffa_entry entry;
    luffa_terms phantom = {.weight = 1, .flags = LUFFA_PHANTOM};
    for (uint64_t key = 0; key < KEYS; key++) {
        uint64_t found = 0, asked = key / 2;
        size_t len;
        luffa_status status = luffa_insert(cache, key, spelled(key), key_len, &key, 8, 1, key % 3 == 0 ? key + 5 : 0);
        CHECK(is_fine(status));
        if (status == LUFFA_OK)
            are_in[key]++;
        status = luffa_get(cache, key, spelled(asked), key_len, &found, 8, &len);
        CHECK(is_fine(status) || status == LUFFA_MISSING);
        CHECK(status != LUFFA_OK || (len == 8 && found == asked));
        status = luffa_peek(cache, key, spelled(asked), key_len, &found, 8, &len);
        CHECK(is_fine(status) || status == LUFFA_MISSING);
        CHECK(status != LUFFA_OK || (len == 8 && found == asked));
    }
    walks(cache);
    conditional(cache);
    for (uint64_t key = 0; key < KEYS; key += 7) {
        int is_made = 0;
        luffa_status status = luffa_get_or_insert(cache, KEYS, spelled(key), key_len, make, &is_made, &entry);
        CHECK(is_fine(status) || status == LUFFA_CANCELLED);
        if (status == LUFFA_OK) {
            are_in[key] += is_made;
            luffa_release(&entry);
        }
        status = luffa_remove(cache, spelled(key), key_len);
        CHECK(is_fine(status) || status == LUFFA_MISSING);
        status = luffa_get_or_insert(cache, KEYS, spelled(key), key_len, make, NULL, NULL);
        CHECK(is_fine(status) || status == LUFFA_CANCELLED);
    }
    uint64_t last = KEYS;
    are_in[last] += 2; /* a phantom is told twice: when it is inserted and when it leaves */
    if (luffa_insert_entry(cache, 0, spelled(last), key_len, &last, 8, &phantom, &entry) == LUFFA_OK)
        luffa_release(&entry);
    else
        are_in[last] -= 2;
    luffa_status status = luffa_resize(cache, KEYS, 10);
    CHECK(status == LUFFA_OK ? luffa_usage(cache) <= 10 : status == LUFFA_NO_MEMORY);
    status = luffa_evict_all(cache, KEYS);
    CHECK(status == LUFFA_OK ? luffa_entries(cache) == 0 : status == LUFFA_NO_MEMORY);
    status = luffa_clear(cache);
    CHECK(status == LUFFA_OK ? luffa_entries(cache) == 0 : status == LUFFA_NO_MEMORY);
}

static void run(uint32_t policy, long fail, int is_heard) {
    luffa_config config = luffa_config_default(policy);
    luffa_cache *cache;
    size_t len;
    memset(are_in, 0, sizeof are_in);
    config.capacity = 20;
    config.shards = 2;
    config.listener = is_heard ? hear : NULL;
    granted = fail;
    luffa_status status = luffa_create(&config, &cache);
    CHECK(is_fine(status) && (status == LUFFA_OK) == (cache != NULL));
    if (status != LUFFA_OK) {
        granted = -1;
        CHECK(luffa_create(&config, &cache) == LUFFA_OK);
        granted = only_one ? -1 : 0;
    }
    calls(cache);
    if (!is_heard)
        owned(cache);
    granted = -1; /* from here on there is memory */
    uint64_t key = 7, found = 0;
    CHECK(luffa_insert(cache, 0, spelled(key), key_len, &key, 8, 1, 0) == LUFFA_OK);
    are_in[key]++;
    CHECK(luffa_get(cache, 0, spelled(key), key_len, &found, 8, &len) == LUFFA_OK && found == key);
    CHECK(luffa_resize(cache, 0, 10) == LUFFA_OK && luffa_clear(cache) == LUFFA_OK);
    CHECK(luffa_usage(cache) == 0 && luffa_entries(cache) == 0);
    for (size_t i = 0; is_heard && i <= KEYS; i++)
        CHECK(are_in[i] == 0);
    CHECK(are_owned == 0);
    luffa_destroy(cache);
}

/* Whether the calls keep memory. */
static void repeat(uint32_t policy) {
    luffa_config config = luffa_config_default(policy);
    luffa_cache *cache;
    size_t before = bytes, first = 0;
    config.capacity = 20;
    config.listener = hear;
    CHECK(luffa_create(&config, &cache) == LUFFA_OK);
    for (int turn = 0; turn < 50; turn++) {
        calls(cache);
        if (turn == 9)
            first = bytes;
    }
    CHECK(bytes <= first);
    luffa_destroy(cache);
    CHECK(bytes == before);
}

enum { MANY = 5000, SOME = 300, HELD = 40 };

static int heard[MANY], freed[MANY];

/* Hears of each record once, and removes another one. */
static void hear_end(void *context, int event, const void *key, size_t len, const void *value, size_t value_len) {
    uint64_t number;
    memcpy(&number, key, 8);
    CHECK(len == key_len && (value_len == 0 ? value == &freed[number] : memcmp(key, value, 8) == 0));
    CHECK(context == heard && event >= LUFFA_REMOVE && ++heard[number] == 1);
    if (number % 7 == 0) {
        luffa_status status = luffa_remove(current, spelled(number + 1), key_len);
        CHECK(is_fine(status) || status == LUFFA_MISSING);
    }
}

static void free_told(void *context, void *value) {
    CHECK(context == heard && heard[(int *)value - freed] == 1 && ++*(int *)value == 1);
}

/* Fills a cache, of which some entries are held, and one record that has left is not told. */
static luffa_cache *filled(uint32_t policy, size_t shards, uint64_t count) {
    const luffa_terms terms = {.weight = 1};
    luffa_config config = luffa_config_default(policy);
    luffa_entry entry;
    memset(heard, 0, sizeof heard);
    memset(freed, 0, sizeof freed);
    config.capacity = 100 * MANY;
    config.shards = shards;
    config.listener = hear_end;
    config.listener_context = heard;
    CHECK(luffa_create(&config, &current) == LUFFA_OK);
    for (uint64_t key = 0; key < count; key++)
        if (key % 3 == 0)
            CHECK(luffa_insert_owned(current, 0, spelled(key), key_len, &freed[key], &terms, free_told, heard, NULL) ==
                  LUFFA_OK);
        else
            CHECK(luffa_insert(current, 0, spelled(key), key_len, &key, 8, 1, 0) == LUFFA_OK);
    for (uint64_t key = 0; key < HELD; key++)
        CHECK(luffa_get_entry(current, 0, spelled(2 * key), key_len, &entry) == LUFFA_OK);
    for (uint64_t key = 1; key < count; key += 2) {
        granted = key == 1; /* for the list of what left, which keeps its room, and for no number */
        luffa_status status = luffa_remove_entry(current, spelled(key), key_len, &entry);
        granted = -1;
        if (status == LUFFA_OK && heard[key] == 0)
            break;
    }
    return current;
}

/* A cache that ends without memory tells each of its records once. */
static void end_many(uint32_t policy, size_t shards, uint64_t count) {
    for (long fail = 0, before = -1; refusals != before && failures == 0; fail += step) {
        luffa_cache *cache = filled(policy, shards, count);
        size_t entries = luffa_entries(cache), told_before = 0;
        for (uint64_t key = 0; key < count; key++)
            told_before += heard[key] != 0;
        CHECK(told_before + entries < count || shards > 1 || key_len == LONG);
        before = refusals;
        granted = fail;
        luffa_destroy(cache);
        granted = -1;
        for (uint64_t key = 0; key < count; key++)
            CHECK(heard[key] == 1 && freed[key] == (key % 3 == 0));
    }
}

/* A call that finds a record of which nobody was told tells it first, and then does all that it is to do. */
static void tell_first(uint32_t policy, int is_making) {
    luffa_cache *cache = filled(policy, 1, SOME);
    int is_made = 0;
    if (is_making)
        CHECK(luffa_get_or_insert(cache, 0, spelled(SOME), key_len, make, &is_made, NULL) == LUFFA_OK && is_made);
    CHECK(luffa_clear(cache) == LUFFA_OK && luffa_entries(cache) == 0);
    for (uint64_t key = 0; key < SOME + (uint64_t)is_making; key++)
        CHECK(heard[key] == 1);
    luffa_destroy(cache);
}

int main(int count, char **words) {
    if (count > 1)
        step = atol(words[1]);
    for (uint32_t policy = LUFFA_FIFO; policy <= LUFFA_SIEVE; policy++) {
        key_len = policy % 2 == 0 ? 8 : LONG;
        repeat(policy);
        tell_first(policy, 0);
        tell_first(policy, 1);
        for (only_one = 0; only_one < 2; only_one++) {
            end_many(policy, 1, MANY);
            end_many(policy, 17, SOME);
            end_many(policy, 65, SOME);
        }
        for (int how = 0; how < 4; how++)
            for (long fail = 0, before = -1; refusals != before && failures == 0; fail += step) {
                before = refusals;
                only_one = how & 1;
                run(policy, fail, how & 2);
            }
    }
    printf("%ld requests refused, %ld records told\n", refusals, told);
    return ended("oom");
}
