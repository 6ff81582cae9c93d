/* fetching.h: waiting for the value that another call makes, and making one. Private to luffapricot.c. */
#ifndef LUFFA_FETCHING_H
#define LUFFA_FETCHING_H

#include "telling.h"

/* Wakes the callers that wait for a fetch. The lock is held. */
static void wake(struct slot *slot) {
    if (slot->waiting == 0)
        return;
    pthread_mutex_lock(&slot->sleep);
    slot->ends++;
    pthread_cond_broadcast(&slot->have_ended);
    pthread_mutex_unlock(&slot->sleep);
}

/* How many entries with a value the shard keeps for calls that asked for its key. The lock is held. */
static size_t answers_with(struct slot *slot, const struct owned *owned) {
    luffa_record record;
    size_t answers = 0;
    for (const struct asking *asking = slot->asking; asking != NULL; asking = asking->next)
        answers +=
            luffa_shard_answered(&slot->shard, asking->number, &record) == LUFFA_OK && owned_by(&record) == owned;
    return answers;
}

/* Keeps the number of a call that asks for a missing key, until take_answer has its answer. The lock is held. */
static void start_asking(struct slot *slot, struct asking *asking, size_t number) {
    *asking = (struct asking){number, slot->asking};
    slot->asking = asking;
}

/* Takes the answer of a call that asked for a missing key, once there is one. The lock is held. */
static luffa_status take_answer(struct slot *slot, const struct asking *asking, luffa_entry *entry) {
    luffa_record record;
    luffa_status status = luffa_shard_answered(&slot->shard, asking->number, &record);
    if (status == LUFFA_WAIT)
        return status;
    struct asking **link = &slot->asking;
    while (*link != asking)
        link = &(*link)->next;
    *link = asking->next;
    if (status == LUFFA_OK) {
        if (record.owner != 0)
            record.value = owned_by(&record)->value; /* its use was counted by the insert */
        give_counted(slot, &record, entry);
    } else
        release(slot, asking->number);
    return status;
}

/* Waits for the answer. The lock is held when it begins, and not when it returns. */
static luffa_status wait_for(struct slot *slot, const struct asking *asking, luffa_entry *entry) {
    luffa_status status;
    slot->waiting++;
    while ((status = take_answer(slot, asking, entry)) == LUFFA_WAIT) {
        uint64_t ends = slot->ends;
        unlock(slot);
        pthread_mutex_lock(&slot->sleep);
        while (slot->ends == ends)
            pthread_cond_wait(&slot->have_ended, &slot->sleep);
        pthread_mutex_unlock(&slot->sleep);
        lock(slot);
    }
    slot->waiting--;
    unlock(slot);
    return status;
}

/* A fetch that a call leads: of which key, and its number. */
struct lead {
    struct place at;
    const void *key;
    size_t key_len;
    uint64_t fetch;
};

/* Ends a fetch with what was made. The lock is held when it begins and when it returns. */
static luffa_status complete(const struct lead *lead, const luffa_made *made) {
    struct slot *slot = lead->at.slot;
    luffa_terms terms = {made->weight, made->expires, made->expires != 0 ? LUFFA_EXPIRES : 0};
    for (;;) {
        luffa_status status = luffa_shard_complete(&slot->shard, (luffa_at){made->now}, lead->at.hash, lead->key,
                                                   lead->key_len, lead->fetch, made->value, made->value_len, &terms);
        if (status != LUFFA_UNTOLD)
            return status;
        luffa_status told = unlock_and_tell(slot);
        lock(slot);
        if (told != LUFFA_OK)
            return told;
    }
}

/* Makes the value of a key and ends its fetch with it. */
static luffa_status make_value(const struct lead *lead, uint64_t now, const struct asking *asking, luffa_make make,
                               void *context, luffa_entry *entry) {
    struct slot *slot = lead->at.slot;
    luffa_made made = {.weight = 1, .now = now};
    bool is_made = make(context, lead->key, lead->key_len, &made) == 0;
    lock(slot);
    luffa_status status = is_made ? complete(lead, &made) : LUFFA_NO_MEMORY;
    if (status != LUFFA_OK && status != LUFFA_MISSING) /* the shard has room for the key since the fetch began */
        luffa_shard_cancel(&slot->shard, lead->at.hash, lead->key, lead->key_len, lead->fetch);
    wake(slot);
    status = take_answer(slot, asking, entry);
    unlock_and_tell(slot);
    if (made.free_value != NULL)
        made.free_value((void *)(uintptr_t)made.value);
    return status;
}

#endif
