/* The table of nodes by key. */
#include "cache.h"

enum { LEAST = 8 };

static void insert_into(table *self, node *it) {
    size_t at = place_of(self, it->hash);
    while (self->places[at] != NULL)
        at = (at + 1) & self->mask;
    self->places[at] = it;
}

/* Gives the table this many places, a power of two. Returns 0, or -1 if there is no memory. */
static int rehash(table *self, size_t size) {
    table made = {.mask = size - 1, .shift = (unsigned)__builtin_clzll(size) + 1, .count = self->count};
    made.moves = self->moves + 1;
    made.places = size > PY_SSIZE_T_MAX / sizeof(node *) ? NULL : PyMem_Calloc(size, sizeof(node *));
    if (made.places == NULL)
        return -1;
    for (size_t i = 0; self->places != NULL && i <= self->mask; i++)
        if (self->places[i] != NULL)
            insert_into(&made, self->places[i]);
    PyMem_Free(self->places);
    *self = made;
    return 0;
}

int table_begin(table *self) { return rehash(self, LEAST); }

/* Adds a node whose key isn't there. Returns 0, or -1 if there is no memory. */
int table_add(table *self, node *it) {
    if (3 * (self->count + 1) > 2 * (self->mask + 1) && rehash(self, 2 * (self->mask + 1)) < 0)
        return -1;
    insert_into(self, it);
    self->count++;
    return 0;
}

/* Removes a node that is there, and moves those after it that would no longer be found. */
void table_remove(table *self, const node *it) {
    size_t mask = self->mask, hole = place_of(self, it->hash);
    while (self->places[hole] != it)
        hole = (hole + 1) & mask;
    for (size_t at = (hole + 1) & mask; self->places[at] != NULL; at = (at + 1) & mask) {
        size_t home = place_of(self, self->places[at]->hash);
        if (((at - home) & mask) >= ((at - hole) & mask)) {
            self->places[hole] = self->places[at];
            hole = at;
        }
    }
    self->places[hole] = NULL;
    self->count--;
    self->moves++;
    if (mask >= LEAST && 8 * self->count < mask)
        rehash(self, (mask + 1) / 2); /* without memory it stays as it is */
}

/* Whether a node has this key: 1, 0, or -1 and an exception. -2 if the comparison may have moved nodes. */
static int has_key(const table *self, const node *it, PyObject *key) {
    PyObject *its = it->key;
    size_t moves = self->moves;
#ifndef Py_LIMITED_API
    PyTypeObject *type = Py_TYPE(its);
    if (Py_TYPE(key) == type && (type == &PyLong_Type || type == &PyUnicode_Type)) { /* which runs no Python code */
        PyObject *answer = type->tp_richcompare(its, key, Py_EQ);
        Py_XDECREF(answer);
        return answer == NULL ? -1 : answer == Py_True;
    }
#endif
    Py_INCREF(its);
    int is_equal = PyObject_RichCompareBool(its, key, Py_EQ);
    Py_DECREF(its);
    return is_equal >= 0 && self->moves != moves ? -2 : is_equal;
}

/* Finds as `find` does, if that isn't at the first look. */
int search(cache_object *self, PyObject *key, Py_hash_t hash, node **found) {
    const table *nodes = &self->table;
    node *it;
    for (size_t at = place_of(nodes, hash); (it = nodes->places[at]) != NULL; at = (at + 1) & nodes->mask) {
        if (it->key == key)
            break;
        if (it->hash != hash)
            continue;
        if (it->is_number && is_number(key, hash))
            break;
        int is_equal = has_key(nodes, it, key);
        if (is_equal == -1)
            return -1;
        if (is_equal == 1)
            break;
        if (is_equal == -2)
            at = place_of(nodes, hash) - 1; /* from the beginning */
    }
    *found = it;
    return 0;
}
