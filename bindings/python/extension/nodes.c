/* The nodes of a cache, their records, and the fetches of their values. */
#include "cache.h"

/* Spreads the hash of a Python object, which for an int is that int: over 32 bits if it has no more, since LFU divides
 * it, and processors divide 64 bits slowly. tests/sizes turns it round. */
uint64_t hash_node(void *context, const void *key, size_t key_len) {
    const node *it;
    (void)context;
    (void)key_len;
    memcpy(&it, key, sizeof it);
    uint64_t hash = (uint64_t)it->hash;
    if (hash <= UINT32_MAX) {
        uint32_t low = (uint32_t)hash;
        low = (low ^ low >> 16) * 0x45D9F3Bu;
        low = (low ^ low >> 16) * 0x45D9F3Bu;
        return low ^ low >> 16;
    }
    hash = (hash ^ hash >> 32) * 0xD6E8FEB86659FD93u;
    hash = (hash ^ hash >> 32) * 0xD6E8FEB86659FD93u;
    return hash ^ hash >> 32;
}

/* Takes a node out of the table that no record and no call needs. */
static void leave(cache_object *self, node *it) {
    table_remove(&self->table, it);
    it->chain.next = (chain *)self->left;
    self->left = it;
}

/* Gives back the nodes that left, of which one is kept for the next key. It may run Python code. */
static void give_back_all(cache_object *self) {
    while (self->left != NULL) {
        node *it = self->left;
        PyObject *its_key = it->key, *its_value = it->value;
        self->left = (node *)it->chain.next;
        if (self->spare == NULL)
            self->spare = it;
        else
            PyMem_Free(it);
        Py_DECREF(its_key);
        Py_XDECREF(its_value);
    }
}

/* Gives back the nodes that left. It may run Python code, and keeps an exception. */
void give_back(cache_object *self) {
    PyObject *type, *value, *trace;
    if (self->left == NULL)
        return;
    if (PyErr_Occurred() == NULL) {
        give_back_all(self);
        return;
    }
    PyErr_Fetch(&type, &value, &trace);
    give_back_all(self);
    PyErr_Restore(type, value, trace);
}

/* The last record of a node left. */
static void lose_records(cache_object *self, node *it) {
    it->records = 0;
    unlink_node(it);
    if (it->uses == 0)
        leave(self, it);
}

/* A record of a node left. No Python code runs here. */
void hear(void *context, int event, const void *key, size_t key_len, const void *value, size_t value_len) {
    node *it;
    (void)event;
    (void)key_len;
    (void)value;
    (void)value_len;
    memcpy(&it, key, sizeof it);
    if (--it->records == 0)
        lose_records(context, it);
}

/* The cache ended. Without memory it didn't tell of its records. */
void lose_all(cache_object *self) {
    while (self->list.next != &self->list)
        lose_records(self, (node *)self->list.next);
    give_back(self);
}

/* A call is done with a node. */
void done_with(cache_object *self, node *it) {
    if (--it->uses == 0 && it->records == 0)
        leave(self, it);
    give_back(self);
}

/* Makes the node of a key that has none. It is used until done_with. NULL and an exception if there is no memory. */
node *add_node(cache_object *self, PyObject *key, Py_hash_t hash) {
    node *it = self->spare != NULL ? self->spare : PyMem_Malloc(sizeof *it);
    self->spare = NULL;
    if (it == NULL || (*it = (node){.key = key, .hash = hash, .uses = 1, .is_number = is_number(key, hash)},
                       table_add(&self->table, it)) < 0) {
        PyMem_Free(it);
        PyErr_NoMemory();
        return NULL;
    }
    Py_INCREF(key);
    return it;
}

/* The node of a key, which is made if there is none. It is used until done_with. NULL and an exception if it fails. */
node *use_node(cache_object *self, PyObject *key) {
    node *it;
    Py_hash_t hash = hash_of(key);
    if (hash == -1 || find(self, key, hash, &it) < 0)
        return NULL;
    if (is_closed(self)) /* by the comparison of a key */
        return NULL;
    if (it == NULL)
        return add_node(self, key, hash);
    it->uses++;
    return it;
}

/* The open fetch of a node, or NULL. */
fetch *fetch_of(const cache_object *self, const node *it) {
    fetch *open = self->fetches;
    while (open != NULL && open->node != it)
        open = open->next;
    return open;
}

/* Ends a fetch, and wakes those who wait for it. */
void end_fetch(cache_object *self, fetch *open, PyObject *value) {
    fetch **at = &self->fetches;
    while (*at != open)
        at = &(*at)->next;
    *at = open->next;
    Py_XINCREF(value);
    open->value = value;
    open->is_open = 0;
    if (open->ended != NULL)
        PyThread_release_lock(open->ended);
}

/* When a time to live ends that begins now: 0 for never. */
static uint64_t end_of(uint64_t now, uint64_t ttl) {
    return ttl == 0 ? 0 : ttl > UINT64_MAX - now ? UINT64_MAX : now + ttl;
}

/* Gives the record of a node that a lookup finds another time to live, by an insert. Returns whether there is one, or
 * -1 and an exception. */
int renew(cache_object *self, node *it, uint64_t now, uint64_t ttl) {
    it->records++;
    luffa_status status = luffa_set_expires(self->cache, now, &it, sizeof it, end_of(now, ttl));
    if (status == LUFFA_OK) {
        link_last(self, it);
        return 1;
    }
    if (--it->records == 0)
        unlink_node(it);
    if (status == LUFFA_MISSING)
        return 0;
    refused(self, status);
    return -1;
}

/* Inserts a value at a time, which ends the fetch of its key. Returns 0, or -1 and an exception. */
int put(cache_object *self, node *it, PyObject *value, size_t weight, uint64_t now, uint64_t ttl) {
    it->records++;
    luffa_status status = luffa_insert(self->cache, now, &it, sizeof it, NULL, 0, weight, end_of(now, ttl));
    if (status != LUFFA_OK) {
        if (--it->records == 0)
            unlink_node(it);
        refused(self, status);
        return -1;
    }
    if (it->records > 0)
        link_last(self, it);
    fetch *open = fetch_of(self, it);
    if (open != NULL)
        end_fetch(self, open, value);
    PyObject *old = it->value;
    Py_INCREF(value);
    it->value = value;
    Py_XDECREF(old);
    return 0;
}

/* Inserts a value that was made for a missing key, unless the key was inserted meanwhile. Returns 0, or -1 and an
 * exception. */
int keep(cache_object *self, node *it, PyObject *value, size_t weight) {
    uint64_t now;
    if (read_time(self, &now) < 0)
        return -1;
    if (it->records > 0 && is_there(self, it, now))
        return 0;
    return put(self, it, value, weight, now, self->ttl);
}
