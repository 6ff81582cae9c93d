/* The calls that go over the list of nodes. */
#include "cache.h"

/* Removes the first record of the list, and puts its key and value into the pair if a lookup would find it. No Python
 * code runs here. */
static luffa_status take_first(cache_object *self, uint64_t now, PyObject *pair, int *is_found) {
    node *it = (node *)self->list.next;
    if ((*is_found = is_there(self, it, now))) {
        Py_INCREF(it->key);
        Py_INCREF(it->value);
        PyTuple_SET_ITEM(pair, 0, it->key);
        PyTuple_SET_ITEM(pair, 1, it->value);
    }
    luffa_status status = luffa_remove(self->cache, &it, sizeof it);
    if (status != LUFFA_MISSING)
        return status;
    return self->list.next == &it->chain ? LUFFA_NO_MEMORY : LUFFA_OK; /* it was to be told that it left before */
}

/* Raises KeyError from None, as MutableMapping.popitem does. */
static void set_empty(void) {
    PyObject *type, *error, *trace;
    PyErr_SetString(PyExc_KeyError, "the cache is empty");
    PyErr_Fetch(&type, &error, &trace);
    PyErr_NormalizeException(&type, &error, &trace);
    PyException_SetCause(error, NULL);
    PyErr_Restore(type, error, trace);
}

PyObject *cache_popitem(cache_object *self, PyObject *unused) {
    uint64_t now;
    int is_found = 0;
    luffa_status status = LUFFA_OK;
    PyObject *pair = PyTuple_New(2);
    (void)unused;
    if (pair == NULL || read_time(self, &now) < 0) {
        Py_XDECREF(pair);
        return NULL;
    }
    while (!is_found && status == LUFFA_OK && self->list.next != &self->list)
        status = take_first(self, now, pair, &is_found);
    give_back(self);
    if (is_found && status == LUFFA_OK)
        return pair;
    Py_DECREF(pair);
    if (status != LUFFA_OK)
        return refused(self, status);
    set_empty();
    return NULL;
}

/* The nodes with a record that a lookup finds, or those that it doesn't, in an array. They are used. */
static node **gather(cache_object *self, int are_there, Py_ssize_t *count) {
    uint64_t now;
    *count = 0;
    node **nodes = read_time(self, &now) < 0 ? NULL : PyMem_Malloc((self->table.count + 1) * sizeof *nodes);
    if (nodes == NULL)
        return PyErr_Occurred() ? NULL : (node **)PyErr_NoMemory();
    for (chain *at = self->list.next; at != &self->list; at = at->next) {
        node *it = (node *)at;
        if (is_there(self, it, now) != are_there)
            continue;
        it->uses++;
        nodes[(*count)++] = it;
    }
    return nodes;
}

static void done_with_all(cache_object *self, node **nodes, Py_ssize_t count) {
    for (Py_ssize_t i = 0; i < count; i++)
        done_with(self, nodes[i]);
    PyMem_Free(nodes);
}

PyObject *cache_expire(cache_object *self, PyObject *unused) {
    Py_ssize_t count;
    luffa_status status = LUFFA_OK;
    (void)unused;
    node **nodes = gather(self, 0, &count);
    if (nodes == NULL)
        return NULL;
    for (Py_ssize_t i = 0; i < count && (status == LUFFA_OK || status == LUFFA_MISSING); i++)
        status = luffa_remove(self->cache, &nodes[i], sizeof *nodes);
    done_with_all(self, nodes, count);
    return ended(self, status == LUFFA_MISSING ? LUFFA_OK : status);
}

/* Fills a list with the pairs of these nodes. */
static PyObject *pairs_of(node *const *nodes, Py_ssize_t count) {
    PyObject *items = PyList_New(count);
    for (Py_ssize_t i = 0; items != NULL && i < count; i++) {
        PyObject *pair = PyTuple_Pack(2, nodes[i]->key, nodes[i]->value);
        if (pair == NULL || PyList_SetItem(items, i, pair) < 0)
            Py_CLEAR(items);
    }
    return items;
}

/* The keys that a lookup would find, each with its value, in a list from the oldest to the newest. */
PyObject *cache_item_list(cache_object *self, PyObject *unused) {
    Py_ssize_t count;
    (void)unused;
    node **nodes = gather(self, 1, &count);
    if (nodes == NULL)
        return NULL;
    PyObject *items = pairs_of(nodes, count); /* a request for memory may run Python code, which may close the cache */
    done_with_all(self, nodes, count);
    if (items != NULL && is_closed(self))
        Py_CLEAR(items);
    return items;
}
