/* get_or_insert: one thread makes a missing value, and the others wait for it. */
#include "cache.h"

/* A call is done with a fetch. */
static void leave_fetch(fetch *it) {
    if (--it->callers > 0)
        return;
    if (it->ended != NULL)
        PyThread_free_lock(it->ended);
    Py_XDECREF(it->value);
    PyMem_Free(it);
}

/* Waits for the end of a fetch, whose lock it takes for a moment. Returns 0, or -1 and an exception, such as one of a
 * signal that came meanwhile. */
static int wait_for_end(fetch *it) {
    if (it->ended == NULL) {
        if ((it->ended = PyThread_allocate_lock()) == NULL) {
            PyErr_NoMemory();
            return -1;
        }
        PyThread_acquire_lock(it->ended, WAIT_LOCK);
    }
    for (;;) {
        PyLockStatus status;
        Py_BEGIN_ALLOW_THREADS;
        status = PyThread_acquire_lock_timed(it->ended, -1, 1);
        Py_END_ALLOW_THREADS;
        if (status == PY_LOCK_ACQUIRED)
            break;
        if (PyErr_CheckSignals() < 0)
            return -1;
    }
    PyThread_release_lock(it->ended);
    return 0;
}

/* Waits for a value that another thread makes. Returns a new reference, or NULL and an exception. */
static PyObject *wait_for_value(cache_object *self, fetch *it) {
    if (it->maker == PyThread_get_thread_ident()) {
        PyErr_SetString(PyExc_RuntimeError, "the function that makes a value asks for its own key");
        return NULL;
    }
    it->callers++;
    PyObject *value = NULL;
    if (wait_for_end(it) == 0) {
        value = it->value;
        Py_XINCREF(value);
        self->hits += value != NULL;
        self->misses += value == NULL;
        if (value == NULL)
            refused(self, LUFFA_CANCELLED);
    }
    leave_fetch(it);
    return value;
}

/* Inserts what was made, unless the key was inserted meanwhile. Returns 0, or -1 and an exception. */
static int put_made(cache_object *self, fetch *open, PyObject *value) {
    size_t weight;
    uint64_t now;
    if (!open->is_open)
        return 0;
    if (weigh(self, open->node->key, value, &weight) < 0 || read_time(self, &now) < 0)
        return -1;
    return open->is_open ? put(self, open->node, value, weight, now, self->ttl) : 0;
}

/* Makes the value of a node. If its key is inserted meanwhile, that value is the result. Returns a new reference, or
 * NULL and an exception. */
static PyObject *make_value(cache_object *self, node *it, PyObject *make) {
    fetch *open = PyMem_Malloc(sizeof *open);
    if (open == NULL)
        return PyErr_NoMemory();
    *open = (fetch){.next = self->fetches, .node = it, .callers = 1, .is_open = 1};
    open->maker = PyThread_get_thread_ident();
    self->fetches = open;
    self->misses++;
    self->running++; /* so that nobody closes the cache */
    PyObject *made = PyObject_CallFunctionObjArgs(make, it->key, NULL), *value = NULL;
    int is_made = made != NULL && put_made(self, open, made) == 0;
    self->running--;
    if (open->is_open)
        end_fetch(self, open, NULL);
    if (is_made) {
        value = open->value;
        Py_INCREF(value);
    }
    leave_fetch(open);
    Py_XDECREF(made);
    return value;
}

PyObject *get_or_make(cache_object *self, PyObject *key, PyObject *make) {
    uint64_t now;
    if (read_time(self, &now) < 0)
        return NULL;
    node *it = use_node(self, key);
    if (it == NULL)
        return NULL;
    PyObject *value = touch(self, it, now);
    if (value == NULL && !PyErr_Occurred()) {
        fetch *open = fetch_of(self, it);
        value = open != NULL ? wait_for_value(self, open) : make_value(self, it, make);
    }
    done_with(self, it);
    return value;
}
