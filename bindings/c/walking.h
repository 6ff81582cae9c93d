/* walking.h: walks over all records, with no lock held while a callback runs. Private to luffapricot.c. */
#ifndef LUFFA_WALKING_H
#define LUFFA_WALKING_H

#include "telling.h"

/* A walk: what is called with each record, and what was removed so far. */
struct walk {
    luffa_each each;
    luffa_which which;
    void *context;
    uint64_t removed;
};

/* Calls back with some of the records that a number lists. The lock is held when it begins, and not when it returns. */
static luffa_status walk_some(struct slot *slot, size_t number, size_t from, size_t to, struct walk *walk) {
    luffa_record records[BATCH] = {{0}};
    size_t places[BATCH], shown = 0;
    bool is_chosen[BATCH] = {false};
    luffa_status status = LUFFA_OK;
    for (size_t i = from; i < to; i++)
        if (luffa_shard_show_listed(&slot->shard, number, i, &records[shown]) == LUFFA_OK) {
            start_use(&records[shown]);
            places[shown++] = i;
        }
    unlock(slot);
    for (size_t i = 0; i < shown; i++)
        if (walk->which != NULL)
            is_chosen[i] = walk->which(walk->context, &records[i]) != 0;
        else
            walk->each(walk->context, &records[i]);
    lock(slot);
    for (size_t i = 0; i < shown; i++) {
        luffa_status removed =
            is_chosen[i] ? luffa_shard_remove_listed(&slot->shard, number, places[i]) : LUFFA_MISSING;
        walk->removed += removed == LUFFA_OK;
        if (removed == LUFFA_NO_MEMORY)
            status = removed;
        if (records[i].owner != 0)
            end_use(slot, owned_by(&records[i]));
    }
    unlock_and_tell(slot);
    return status;
}

static luffa_status walk_slot(struct slot *slot, struct walk *walk) {
    size_t number, count;
    luffa_status first;
    lock(slot);
    first = luffa_shard_list(&slot->shard, &number, &count);
    if (first == LUFFA_OK) {
        for (size_t from = 0; from < count; from += BATCH) {
            luffa_status status = walk_some(slot, number, from, count - from < BATCH ? count : from + BATCH, walk);
            first = first == LUFFA_OK ? status : first;
            lock(slot);
        }
        release(slot, number);
    }
    unlock(slot);
    return first;
}

/* The first refusal counts, and the other shards are walked all the same. */
static luffa_status walk_all(luffa_cache *cache, struct walk *walk) {
    luffa_status first = LUFFA_OK;
    for (size_t i = 0; i < cache->shards; i++) {
        luffa_status status = walk_slot(&cache->slots[i], walk);
        first = first == LUFFA_OK ? status : first;
    }
    return first;
}

#endif
