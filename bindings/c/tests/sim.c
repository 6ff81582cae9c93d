/*
 * sim POLICY CAPACITY SHARDS: carries out the lines of foyer-sim over a luffa_cache, whose hash of a key is the key,
 * and prints the same. tests/replay has the lines with their answers. It takes the file luffapricot.c whole, since a
 * fetch that stays open from line to line is a call of shard.h.
 */
#include "../luffapricot.c"
#include <stdarg.h>
#include <stdio.h>

enum { MOST_DIGITS = 20 };

/* A text that grows. */
struct text {
    char *bytes;
    size_t len;
    size_t room;
};

struct waiting {
    uint64_t key;
    uint64_t token;
    struct asking *asking;
};

static luffa_cache *cache;
static luffa_entry *handles;
static size_t handed_out;
static struct waiting *waiting;
static size_t waits;
static struct text left;
static struct text answers;
static uint64_t now;

/* A place more behind `count` of them. */
static void *grown(void *items, size_t count, size_t size) {
    if ((count & (count - 1)) != 0) /* there is room up to the next power of two */
        return items;
    void *more = realloc(items, (count ? 2 * count : 1) * size);
    if (more == NULL)
        abort();
    return more;
}

static size_t hand_out(const luffa_entry *entry) {
    handles = grown(handles, handed_out, sizeof *handles);
    handles[handed_out] = *entry;
    return handed_out++;
}

/* What the library has in the frame of a call that waits. The lock is held. */
static struct asking *new_asking(struct slot *slot, size_t number) {
    struct asking *asking = malloc(sizeof *asking);
    if (asking == NULL)
        abort();
    start_asking(slot, asking, number);
    return asking;
}

static void wait_too(struct waiting it) {
    waiting = grown(waiting, waits, sizeof *waiting);
    waiting[waits++] = it;
}

__attribute__((format(printf, 2, 3))) static void add(struct text *text, const char *format, ...) {
    va_list list;
    enum { ENOUGH = 128 };
    if (text->room - text->len < ENOUGH) {
        text->room = 2 * text->room + ENOUGH;
        text->bytes = realloc(text->bytes, text->room);
        if (text->bytes == NULL)
            abort();
    }
    va_start(list, format);
    text->len += (size_t)vsnprintf(text->bytes + text->len, ENOUGH, format, list);
    va_end(list);
}

static uint64_t key_is_hash(void *context, const void *key, size_t key_len) {
    (void)context;
    uint64_t number;
    memcpy(&number, key, key_len);
    return number;
}

static void hear(void *context, int event, const void *key, size_t key_len, const void *value, size_t value_len) {
    static const char *const EVENTS[] = {"evict", "replace", "remove", "clear"};
    uint64_t numbers[2];
    (void)context;
    memcpy(&numbers[0], key, key_len);
    memcpy(&numbers[1], value, value_len);
    add(&left, "%s%s %llu=%llu", left.len ? ", " : "", EVENTS[event], (unsigned long long)numbers[0],
        (unsigned long long)numbers[1]);
}

static uint64_t value_of(const luffa_entry *entry) {
    uint64_t value;
    memcpy(&value, entry->value, sizeof value);
    return value;
}

static void print_refusal(luffa_status status) { printf("F%u", status); }

/* What a lookup or a removal returned. */
static void print_found(luffa_status status, const luffa_entry *entry) {
    if (status == LUFFA_OK) {
        printf("h%zu %llu", hand_out(entry), (unsigned long long)value_of(entry));
    } else if (status == LUFFA_MISSING) {
        printf("none");
    } else {
        print_refusal(status);
    }
}

static void print_done(luffa_status status) {
    if (status == LUFFA_OK)
        printf("ok");
    else
        print_refusal(status);
}

static void print_yes(luffa_status status) {
    if (status == LUFFA_OK || status == LUFFA_MISSING)
        printf(status == LUFFA_OK ? "yes" : "no");
    else
        print_refusal(status);
}

static struct slot *slot_at(uint64_t key) { return &cache->slots[key % cache->shards]; }

/* The tokens of a key that were answered, each with what it got, into `answers`. */
static void collect_answers(uint64_t key, const char *before) {
    size_t kept = 0;
    answers.len = 0;
    add(&answers, "%s", "");
    for (size_t i = 0; i < waits; i++) {
        struct waiting it = waiting[i];
        luffa_status status = LUFFA_WAIT;
        luffa_entry entry;
        if (it.key == key) {
            lock(slot_at(key));
            status = take_answer(slot_at(key), it.asking, &entry);
            unlock(slot_at(key));
        }
        if (status == LUFFA_WAIT) {
            waiting[kept++] = it;
            continue;
        }
        free(it.asking);
        bool is_entry = status == LUFFA_OK;
        add(&answers, "%st%llu=%c%zu", before, (unsigned long long)it.token, is_entry ? 'h' : 'F',
            is_entry ? hand_out(&entry) : status);
        before = " ";
    }
    waits = kept;
}

static void insert_line(const uint64_t *n, size_t count, uint32_t flags) {
    luffa_terms terms = {count > 2 ? n[2] : 1, count > 3 ? n[3] : 0, flags | (count > 3 ? LUFFA_EXPIRES : 0)};
    luffa_entry entry;
    luffa_status status = luffa_insert_entry(cache, now, &n[0], 8, &n[1], 8, &terms, &entry);
    if (status != LUFFA_OK) {
        print_refusal(status);
        return;
    }
    collect_answers(n[0], " "); /* whoever waited has the lower numbers */
    printf("h%zu%s", hand_out(&entry), answers.bytes);
}

static void drop_line(uint64_t number) {
    if (number >= handed_out || handles[number].shard == NULL) {
        printf("not held");
        return;
    }
    luffa_release(&handles[number]);
    printf("ok");
}

static void fetch_line(uint64_t key) {
    struct slot *slot = slot_at(key);
    luffa_record record;
    luffa_fetch fetch;
    luffa_entry entry;
    lock(slot);
    luffa_status status = luffa_shard_fetch(&slot->shard, (luffa_at){now}, (luffa_hashed){key}, (const uint8_t *)&key,
                                            sizeof key, &record, &fetch);
    bool is_missing = status == LUFFA_LEAD || status == LUFFA_WAIT;
    if (is_missing)
        wait_too((struct waiting){key, fetch.token, new_asking(slot, record.number)});
    if (status == LUFFA_OK)
        give(slot, &record, &entry);
    unlock(slot);
    if (!is_missing) {
        print_found(status, &entry);
        return;
    }
    if (status == LUFFA_LEAD)
        printf("lead t%llu f%llu", (unsigned long long)fetch.token, (unsigned long long)fetch.fetch);
    else
        printf("wait t%llu", (unsigned long long)fetch.token);
}

static void end_line(uint64_t key, uint64_t fetch, const uint64_t *value) {
    struct slot *slot = slot_at(key);
    const luffa_terms terms = {.weight = 1};
    const uint8_t *bytes = (const uint8_t *)&key;
    lock(slot);
    const luffa_hashed hash = {key};
    luffa_status status = value == NULL ? luffa_shard_cancel(&slot->shard, hash, bytes, sizeof key, fetch)
                                        : luffa_shard_complete(&slot->shard, (luffa_at){now}, hash, bytes, sizeof key,
                                                               fetch, (const uint8_t *)value, 8, &terms);
    unlock_and_tell(slot);
    if (status == LUFFA_MISSING)
        printf("lost");
    else if (status != LUFFA_OK)
        print_refusal(status);
    else {
        collect_answers(key, "");
        printf("%s", answers.bytes);
    }
}

static void high_line(uint64_t num, uint64_t den) {
    luffa_policy policy = luffa_config_default(LUFFA_LRU).policy;
    policy.high_priority_pool = (luffa_ratio){(uint32_t)num, (uint32_t)den};
    print_done(luffa_reconfigure(cache, &policy));
}

/* Carries a line out. Returns whether it is one. */
static bool carry_out(const char *word, const uint64_t *n, size_t count) {
    luffa_entry entry;
    if (strcmp(word, "insert") == 0 && count >= 2 && count <= 4)
        insert_line(n, count, 0);
    else if (strcmp(word, "phantom") == 0 && (count == 2 || count == 3))
        insert_line(n, count, LUFFA_PHANTOM);
    else if (strcmp(word, "get") == 0 && count == 1)
        print_found(luffa_get_entry(cache, now, n, 8, &entry), &entry);
    else if (strcmp(word, "remove") == 0 && count == 1)
        print_found(luffa_remove_entry(cache, n, 8, &entry), &entry);
    else if (strcmp(word, "contains") == 0 && count == 1)
        print_yes(luffa_contains(cache, now, n, 8));
    else if (strcmp(word, "touch") == 0 && count == 1)
        print_yes(luffa_touch(cache, now, n, 8));
    else if (strcmp(word, "drop") == 0 && count == 1)
        drop_line(n[0]);
    else if (strcmp(word, "clear") == 0 && count == 0)
        print_done(luffa_clear(cache));
    else if (strcmp(word, "evict") == 0 && count == 0)
        print_done(luffa_evict_all(cache, now));
    else if (strcmp(word, "resize") == 0 && count == 1)
        print_done(luffa_resize(cache, now, n[0]));
    else if (strcmp(word, "high") == 0 && count == 2 && n[0] <= UINT32_MAX && n[1] <= UINT32_MAX)
        high_line(n[0], n[1]);
    else if (strcmp(word, "fetch") == 0 && count == 1)
        fetch_line(n[0]);
    else if (strcmp(word, "done") == 0 && count == 3)
        end_line(n[0], n[1], &n[2]);
    else if (strcmp(word, "cancel") == 0 && count == 2)
        end_line(n[0], n[1], NULL);
    else if (strcmp(word, "at") == 0 && count == 1) {
        now = n[0];
        printf("ok");
    } else
        return false;
    return true;
}

/* Reads a number of at most 20 digits that fits 64 bits. */
static bool number_of(const char *word, uint64_t *number) {
    *number = 0;
    if (strlen(word) > MOST_DIGITS)
        return false;
    for (; *word >= '0' && *word <= '9'; word++)
        if (__builtin_mul_overflow(*number, 10, number) || __builtin_add_overflow(*number, *word - '0', number))
            return false;
    return *word == 0;
}

static void tell_line(char *line) {
    const char *words[8];
    uint64_t numbers[8];
    size_t count = 0;
    bool is_well = true;
    for (char *at = line, *word; is_well && (word = strtok_r(at, " ", &at)) != NULL; count++) {
        if (count < 8)
            words[count] = word;
        is_well = count == 0 || (count < 8 && number_of(word, &numbers[count - 1]));
    }
    if (count == 0)
        return;
    left.len = 0;
    if (!is_well || !carry_out(words[0], numbers, count - 1))
        printf("bad line");
    luffa_stats stats = luffa_get_stats(cache);
    printf(" | %.*s | usage %llu entries %llu\n", left.len ? (int)left.len : 1, left.len ? left.bytes : "-",
           (unsigned long long)stats.usage, (unsigned long long)stats.entries);
}

int main(int argc, char **argv) {
    static const char *const POLICIES[] = {"fifo", "lru", "lfu", "s3fifo", "sieve"};
    char *line = NULL;
    size_t room = 0;
    uint32_t policy = 0;
    if (argc != 4)
        return 2;
    while (policy < 5 && strcmp(argv[1], POLICIES[policy]) != 0)
        policy++;
    luffa_config config = luffa_config_default(policy);
    config.capacity = strtoull(argv[2], NULL, 10);
    config.shards = strtoull(argv[3], NULL, 10);
    config.hash = key_is_hash;
    config.listener = hear;
    if (luffa_create(&config, &cache) != LUFFA_OK)
        return 1;
    while (getline(&line, &room, stdin) != -1) {
        line[strcspn(line, "\n")] = 0;
        tell_line(line);
    }
    luffa_destroy(cache);
    free(line);
    free(handles);
    for (size_t i = 0; i < waits; i++)
        free(waiting[i].asking);
    free(waiting);
    free(left.bytes);
    free(answers.bytes);
    return 0;
}
