/* slots.h: shards behind locks, and which key belongs to which of them. Private to luffapricot.c. */
#ifndef LUFFA_SLOTS_H
#define LUFFA_SLOTS_H

#include "luffapricot.h"
#include "shard.h"
#include <pthread.h>
#include <sched.h>
#include <stdatomic.h>
#include <stdlib.h>
#include <string.h>
#include <time.h>
#include <unistd.h>

enum { LINE = 128, BATCH = 16, SPINS = 100 };

/*
 * A value that the cache was given in place of bytes. `uses` counts the record, until its departure has been told, and
 * the entries of it; `departures` how often it is still to be told. With the last use the value ends: `free_value` is
 * called once the lock is free.
 */
struct owned {
    void *value;
    void (*free_value)(void *context, void *value);
    void *context;
    size_t uses;
    size_t departures;
    struct owned *next;
    struct owned *previous;
};

/* A call that has asked for a missing key, and the number under which the shard keeps the answer for it. */
struct asking {
    size_t number;
    struct asking *next;
};

/*
 * A shard and its lock, on lines of their own. A call holds the lock for less than a microsecond mostly, so whoever
 * finds it taken spins for a while and then yields. Callers that wait for a fetch sleep: `waiting` counts them, and
 * `ends` the times that fetches ended while they waited, which changes under both locks.
 */
struct slot {
    _Alignas(LINE) atomic_int is_locked;
    bool is_unlocked; /* no lock is taken: there is one call at a time */
    luffa_shard shard;
    luffa_cache *cache;
    uint64_t hits;
    uint64_t misses;
    struct owned *ended; /* values whose last use has ended under this lock */
    struct owned *owned; /* all others */
    struct asking *asking;
    bool is_listening; /* whether the shard keeps what leaves to be told */
    size_t waiting;
    uint64_t ends;
    pthread_mutex_t sleep;
    pthread_cond_t have_ended;
};

struct luffa_cache {
    struct slot *slots;
    size_t shards;
    luffa_hash hash;
    void *hash_context;
    luffa_listener listener;
    void *listener_context;
    uint64_t seeds[2];
    atomic_size_t capacity;
};

/* Tells the processor that this thread spins, where it has an instruction for that. */
static inline void spin(void) {
#if defined(__x86_64__)
    __builtin_ia32_pause();
#elif defined(__aarch64__)
    __asm__ __volatile__("yield");
#endif
}

static __attribute__((noinline, cold)) void wait_for_lock(struct slot *slot) {
    unsigned turns = 0;
    do
        while (atomic_load_explicit(&slot->is_locked, memory_order_relaxed) != 0)
            if (++turns % SPINS == 0)
                sched_yield();
            else
                spin();
    while (atomic_exchange_explicit(&slot->is_locked, 1, memory_order_acquire) != 0);
}

static inline void lock(struct slot *slot) {
    if (!slot->is_unlocked && atomic_exchange_explicit(&slot->is_locked, 1, memory_order_acquire) != 0)
        wait_for_lock(slot);
}

static __attribute__((noinline, cold)) void free_values(struct owned *ended) {
    while (ended != NULL) {
        struct owned *next = ended->next;
        if (ended->free_value != NULL)
            ended->free_value(ended->context, ended->value);
        free(ended);
        ended = next;
    }
}

/* Values that have ended meanwhile are freed once the lock is free. */
static inline void unlock(struct slot *slot) {
    struct owned *ended = slot->ended;
    slot->ended = NULL;
    atomic_store_explicit(&slot->is_locked, 0, memory_order_release);
    if (ended != NULL)
        free_values(ended);
}

static inline uint64_t folded(uint64_t a, uint64_t b) {
    unsigned __int128 product = (unsigned __int128)a * b;
    return (uint64_t)product ^ (uint64_t)(product >> 64);
}

static inline uint64_t word_at(const uint8_t *bytes) {
    uint64_t word;
    memcpy(&word, bytes, sizeof word);
    return word;
}

static inline uint32_t half_at(const uint8_t *bytes) {
    uint32_t half;
    memcpy(&half, bytes, sizeof half);
    return half;
}

/* A hash by folded products of 64 bits, as foldhash and wyhash have. Whoever doesn't know the seeds can't make keys
 * collide. Each byte is read at least once, and some twice. */
static inline uint64_t default_hash(const luffa_cache *cache, const uint8_t *key, size_t len) {
    uint64_t state = cache->seeds[0] ^ len, first = 0, second = 0;
    if (len >= 8) {
        const uint8_t *end = key + len;
        for (; end - key > 16; key += 16)
            state = folded(word_at(key) ^ state, word_at(key + 8) ^ cache->seeds[1]);
        first = word_at(len > 16 ? end - 16 : key);
        second = word_at(end - 8);
    } else if (len >= 4) {
        first = half_at(key);
        second = half_at(key + len - 4);
    } else if (len > 0) {
        first = key[0] | (uint64_t)key[len / 2] << 8 | (uint64_t)key[len - 1] << 16;
    }
    state = folded(first ^ state, second ^ cache->seeds[1]);
    return folded(state, 0x9E3779B97F4A7C15u);
}

static inline uint64_t hash_of(const luffa_cache *cache, const void *key, size_t len) {
    return cache->hash ? cache->hash(cache->hash_context, key, len) : default_hash(cache, key, len);
}

/* Where a key belongs. */
struct place {
    struct slot *slot;
    luffa_hashed hash;
};

/* Finds the shard of a key, and locks it. */
static inline __attribute__((always_inline)) struct place lock_of(const luffa_cache *cache, const void *key,
                                                                  size_t key_len) {
    uint64_t hash = hash_of(cache, key, key_len);
    size_t shards = cache->shards;
    struct slot *slot = &cache->slots[(shards & (shards - 1)) == 0 ? hash & (shards - 1) : hash % shards];
    lock(slot);
    return (struct place){slot, {hash}};
}

/* What a shard gets of a capacity: an equal part, and the first ones one more if some is left over. */
static size_t share_of(size_t capacity, size_t shards, size_t index) {
    return capacity / shards + (index < capacity % shards);
}

static void seed(uint64_t seeds[2]) {
    if (getentropy(seeds, 2 * sizeof *seeds) != 0) {
        seeds[0] = (uint64_t)(uintptr_t)seeds ^ (uint64_t)time(NULL) << 20;
        seeds[1] = folded(seeds[0] ^ (uint64_t)getpid(), 0xD1342543DE82EF95u);
    }
    seeds[1] |= 1;
}

#endif
