/*
 * What the files of the extension share.
 *
 * A table finds the node of a key, which holds the key and its value. The luffa_cache decides what leaves: its key is
 * the address of the node, and its hash is made of the Python key's, by which the policies remember keys. A node stays
 * in the table while the cache has a record of it or a call uses it.
 *
 * The hash, the comparison and the end of an object may be Python code, which may call the cache or let other threads
 * run. So a call uses a node across such code, and what the listener hears is given back after the call of the cache.
 */
#ifndef LUFFAPRICOT_CACHE_H
#define LUFFAPRICOT_CACHE_H

#define PY_SSIZE_T_CLEAN
#include <Python.h>
#include <stddef.h>
#include <structmember.h>

#include "luffapricot.h"

#ifdef Py_LIMITED_API
#define PyTuple_GET_SIZE PyTuple_Size
#define PyTuple_GET_ITEM PyTuple_GetItem
#define PyTuple_SET_ITEM (void)PyTuple_SetItem
#endif

#define LIKELY(CONDITION) __builtin_expect(!!(CONDITION), 1)

/* A place in a list, from the oldest to the newest. */
typedef struct chain {
    struct chain *next;
    struct chain *previous;
} chain;

typedef struct node {
    chain chain; /* in the list if there is a record of it, or the next one of those that left */
    PyObject *key;
    PyObject *value; /* NULL before the first insert */
    Py_hash_t hash;
    uint32_t uses;         /* calls that use it */
    uint32_t records : 31; /* how many records of it the cache has: 2 for a moment when one replaces another */
    uint32_t is_number : 1;
} node;

/* A missing value that one thread makes, and for which others may wait. */
typedef struct fetch {
    struct fetch *next; /* the next open one of the cache */
    node *node;
    unsigned long maker;      /* the thread that makes the value */
    PyThread_type_lock ended; /* held while it is open; NULL if nobody has waited */
    size_t callers;           /* who makes it or waits */
    PyObject *value;          /* what it ended with; NULL if no value was made */
    char is_open;
} fetch;

/* The nodes by key: each is in the first free place from the one of its hash on. */
typedef struct {
    node **places;
    size_t mask;    /* the number of places less 1 */
    unsigned shift; /* 64 less the bits of a place's number */
    size_t count;
    size_t moves; /* counts what may have moved a node */
} table;

typedef struct {
    PyObject *error;        /* luffapricot.Error */
    PyObject *missing;      /* "__missing__" */
    PyObject *keyword_mark; /* between the positional arguments of a key and the named ones */
    PyObject *method_type;  /* types.MethodType */
    PyTypeObject *cache_type;
    PyTypeObject *cached_type;
} module_state;

typedef struct {
    PyObject_HEAD luffa_cache *cache; /* NULL if it is closed */
    table table;
    chain list;     /* of the nodes with a record: by insert, for LRU by use */
    node *left;     /* nodes that are out of the table, to be given back */
    node *spare;    /* memory for the next node, or NULL */
    fetch *fetches; /* the open ones */
    module_state *state;
    PyObject *weigher; /* or NULL */
    PyObject *timer;   /* or NULL */
    uint64_t ttl;      /* nanoseconds, or 0 */
    uint64_t hits;
    uint64_t misses;
    size_t running;  /* functions that make a value now */
    char has_expiry; /* a record may expire, so the time matters */
    char is_lru;
} cache_object;

/* The hash of a key, or -1 and an exception. */
static inline Py_hash_t hash_of(PyObject *key) {
#ifndef Py_LIMITED_API
    PyTypeObject *type = Py_TYPE(key);
    if (type == &PyLong_Type || type == &PyUnicode_Type)
        return type->tp_hash(key);
#endif
    return PyObject_Hash(key);
}

/* Whether a key is an int of few bits: no other such int has its hash. That of -1 is that of -2. */
static inline int is_number(PyObject *key, Py_hash_t hash) {
#if defined(Py_LIMITED_API)
    (void)key;
    (void)hash;
    return 0;
#elif PY_VERSION_HEX >= 0x030C0000
    return Py_TYPE(key) == &PyLong_Type && hash != -2 && PyUnstable_Long_IsCompact((PyLongObject *)key);
#else
    return Py_TYPE(key) == &PyLong_Type && hash != -2 && (size_t)(Py_SIZE(key) + 1) <= 2;
#endif
}

/* Whether a lookup would find a node. */
static inline int is_there(const cache_object *self, node *it, uint64_t now) {
    return luffa_contains(self->cache, now, &it, sizeof it) == LUFFA_OK;
}

/* table.c: finding nodes. */
int search(cache_object *self, PyObject *key, Py_hash_t hash, node **found);
int table_begin(table *self);
int table_add(table *self, node *it);
void table_remove(table *self, const node *it);

/* nodes.c: the nodes and their records. */
node *add_node(cache_object *self, PyObject *key, Py_hash_t hash);
node *use_node(cache_object *self, PyObject *key);
void done_with(cache_object *self, node *it);
void give_back(cache_object *self);
void lose_all(cache_object *self);
uint64_t hash_node(void *context, const void *key, size_t key_len);
void hear(void *context, int event, const void *key, size_t key_len, const void *value, size_t value_len);
int put(cache_object *self, node *it, PyObject *value, size_t weight, uint64_t now, uint64_t ttl);
int renew(cache_object *self, node *it, uint64_t now, uint64_t ttl);
int keep(cache_object *self, node *it, PyObject *value, size_t weight);
fetch *fetch_of(const cache_object *self, const node *it);
void end_fetch(cache_object *self, fetch *open, PyObject *value);

/* making.c: get_or_insert. */
PyObject *get_or_make(cache_object *self, PyObject *key, PyObject *make);

/* calls.c: the calls of _Cache. */
PyObject *cache_subscript(cache_object *self, PyObject *key);
int cache_ass_subscript(cache_object *self, PyObject *key, PyObject *value);
int cache_contains(cache_object *self, PyObject *key);
Py_ssize_t cache_length(cache_object *self);
PyObject *ended(cache_object *self, luffa_status status);
extern PyMethodDef cache_methods[];

/* walks.c: the calls that go over the list of nodes. */
PyObject *cache_popitem(cache_object *self, PyObject *unused);
PyObject *cache_expire(cache_object *self, PyObject *unused);
PyObject *cache_item_list(cache_object *self, PyObject *unused);

/* cache.c: how a cache is made and ends. */
int free_records(cache_object *self);

/* reading.c: arguments, times and refusals. */
PyObject *refused(const cache_object *self, luffa_status status);
int set_closed(void);
int ask_time(cache_object *self, uint64_t *now);
int read_size(PyObject *number, size_t *size);
int read_ttl(PyObject *seconds, uint64_t *ttl);
int read_policy(const char *name, PyObject *changes, luffa_config *made);
int read_words(const char *call, const char *const *names, Py_ssize_t least, Py_ssize_t most, PyObject *const *args,
               Py_ssize_t count, PyObject *words, PyObject **found);
int weigh(const cache_object *self, PyObject *key, PyObject *value, size_t *weight);

/* Whether a cache is closed; then there is an exception. */
static inline int is_closed(const cache_object *self) { return !LIKELY(self->cache != NULL) && set_closed(); }

/* The first place where the node of a hash may be. Numbers in a row have places of their own mostly (Fibonacci
 * hashing). */
static inline size_t place_of(const table *self, Py_hash_t hash) {
    return (uint64_t)hash * 0x9E3779B97F4A7C15u >> self->shift;
}

/* Finds the node of a key, or NULL. Returns 0, or -1 and an exception. It may run Python code, but none after the look
 * at the last node. */
static inline int find(cache_object *self, PyObject *key, Py_hash_t hash, node **found) {
    node *it = *found = self->table.places[place_of(&self->table, hash)];
    if (LIKELY(it != NULL && it->hash == hash && (it->key == key || (it->is_number && is_number(key, hash)))))
        return 0;
    return it == NULL ? 0 : search(self, key, hash, found);
}

/* The time in nanoseconds, 0 while no record may expire. Returns 0, or -1 and an exception, also if the cache is
 * closed. It may run Python code. */
static inline int read_time(cache_object *self, uint64_t *now) {
    *now = 0;
    return LIKELY(!self->has_expiry && self->cache != NULL) ? 0 : ask_time(self, now);
}

static inline void unlink_node(node *it) {
    if (it->chain.next == NULL)
        return;
    it->chain.previous->next = it->chain.next;
    it->chain.next->previous = it->chain.previous;
    it->chain.next = NULL;
}

/* Makes a node the newest of the list. */
static inline void link_last(cache_object *self, node *it) {
    unlink_node(it);
    it->chain = (chain){&self->list, self->list.previous};
    it->chain.previous->next = self->list.previous = &it->chain;
}

/* The value of a node that a lookup finds (a new reference), or NULL; then an exception may be set. */
static inline PyObject *touch(cache_object *self, node *it, uint64_t now) {
    luffa_status status = luffa_touch(self->cache, now, &it, sizeof it);
    if (!LIKELY(status == LUFFA_OK))
        return status == LUFFA_MISSING ? NULL : refused(self, status);
    self->hits++;
    if (self->is_lru)
        link_last(self, it);
    Py_INCREF(it->value);
    return it->value;
}

extern PyType_Spec cache_spec;
extern PyType_Spec cached_spec;
extern PyModuleDef module_def;

#endif
