/* The calls of _Cache. */
#include "cache.h"

/* Looks a key up, which counts as a use. Returns the value (a new reference), or NULL; then an exception may be set. */
static PyObject *look_up(cache_object *self, PyObject *key) {
    node *it;
    uint64_t now;
    Py_hash_t hash;
    if (read_time(self, &now) < 0 || (hash = hash_of(key)) == -1 || find(self, key, hash, &it) < 0)
        return NULL;
    if (is_closed(self)) /* by the hash or the comparison of a key */
        return NULL;
    PyObject *value = it == NULL ? NULL : touch(self, it, now);
    if (value == NULL && !PyErr_Occurred())
        self->misses++;
    return value;
}

/* Raises KeyError. A key that is a tuple is one argument of it. */
static void set_missing(PyObject *key) {
    PyObject *args = PyTuple_Pack(1, key);
    if (args != NULL)
        PyErr_SetObject(PyExc_KeyError, args);
    Py_XDECREF(args);
}

PyObject *cache_subscript(cache_object *self, PyObject *key) {
    PyObject *value = look_up(self, key);
    if (value == NULL && !PyErr_Occurred())
        value = PyObject_CallMethodObjArgs((PyObject *)self, self->state->missing, key, NULL);
    return value;
}

static PyObject *cache_missing(cache_object *self, PyObject *key) {
    (void)self;
    set_missing(key);
    return NULL;
}

/* The node of a key, and whether a lookup would find it, which counts as no use. NULL if there is none; then an
 * exception may be set. */
static node *node_of(cache_object *self, PyObject *key, int *is_found) {
    node *it;
    uint64_t now;
    Py_hash_t hash;
    if (read_time(self, &now) < 0 || (hash = hash_of(key)) == -1 || find(self, key, hash, &it) < 0)
        return NULL;
    if (is_closed(self))
        return NULL;
    *is_found = it != NULL && is_there(self, it, now);
    return it;
}

/* Removes a key, also if it is expired. Returns its value (a new reference) unless it is, or NULL; then an exception
 * may be set. */
static PyObject *take_out(cache_object *self, PyObject *key) {
    int is_found;
    PyObject *value = NULL;
    node *it = node_of(self, key, &is_found);
    if (it == NULL)
        return NULL;
    if (is_found) {
        value = it->value;
        Py_INCREF(value);
    }
    luffa_status status = luffa_remove(self->cache, &it, sizeof it);
    if (status != LUFFA_OK && status != LUFFA_MISSING) {
        Py_CLEAR(value);
        refused(self, status);
    }
    give_back(self);
    return value;
}

/* Inserts a value, with this weight if there is one. Returns 0, or -1 and an exception. */
static int insert(cache_object *self, PyObject *key, PyObject *value, const size_t *given, uint64_t ttl) {
    size_t weight = 1;
    uint64_t now;
    if (is_closed(self))
        return -1;
    if (given != NULL)
        weight = *given;
    else if (weigh(self, key, value, &weight) < 0)
        return -1;
    if (ttl > 0)
        self->has_expiry = 1;
    node *it = read_time(self, &now) < 0 ? NULL : use_node(self, key);
    if (it == NULL)
        return -1;
    int status = put(self, it, value, weight, now, ttl);
    done_with(self, it);
    return status;
}

int cache_ass_subscript(cache_object *self, PyObject *key, PyObject *value) {
    if (value != NULL)
        return insert(self, key, value, NULL, self->ttl);
    PyObject *taken = take_out(self, key);
    if (taken == NULL && !PyErr_Occurred())
        set_missing(key);
    Py_XDECREF(taken);
    return taken == NULL ? -1 : 0;
}

int cache_contains(cache_object *self, PyObject *key) {
    int is_found;
    if (node_of(self, key, &is_found) == NULL)
        return PyErr_Occurred() ? -1 : 0;
    return is_found;
}

Py_ssize_t cache_length(cache_object *self) { return is_closed(self) ? -1 : (Py_ssize_t)luffa_entries(self->cache); }

static PyObject *or_default(PyObject *value, PyObject *other) {
    if (value != NULL || PyErr_Occurred())
        return value;
    other = other == NULL ? Py_None : other;
    Py_INCREF(other);
    return other;
}

static const char *const KEY_AND_DEFAULT[] = {"key", "default"};

static PyObject *cache_get(cache_object *self, PyObject *const *args, Py_ssize_t count, PyObject *words) {
    PyObject *found[2];
    if (read_words("get", KEY_AND_DEFAULT, 1, 2, args, count, words, found) < 0)
        return NULL;
    return or_default(look_up(self, found[0]), found[1]);
}

static PyObject *cache_peek(cache_object *self, PyObject *const *args, Py_ssize_t count, PyObject *words) {
    PyObject *found[2];
    int is_found;
    if (read_words("peek", KEY_AND_DEFAULT, 1, 2, args, count, words, found) < 0)
        return NULL;
    node *it = node_of(self, found[0], &is_found);
    PyObject *value = it == NULL || !is_found ? NULL : it->value;
    Py_XINCREF(value);
    return or_default(value, found[1]);
}

static PyObject *cache_pop(cache_object *self, PyObject *const *args, Py_ssize_t count, PyObject *words) {
    PyObject *found[2];
    if (read_words("pop", KEY_AND_DEFAULT, 1, 2, args, count, words, found) < 0)
        return NULL;
    PyObject *value = take_out(self, found[0]);
    if (value == NULL && found[1] == NULL && !PyErr_Occurred())
        set_missing(found[0]);
    return or_default(value, found[1]);
}

static PyObject *cache_setdefault(cache_object *self, PyObject *const *args, Py_ssize_t count, PyObject *words) {
    PyObject *found[2];
    uint64_t now;
    size_t weight;
    if (read_words("setdefault", KEY_AND_DEFAULT, 1, 2, args, count, words, found) < 0)
        return NULL;
    node *it = read_time(self, &now) < 0 ? NULL : use_node(self, found[0]);
    if (it == NULL)
        return NULL;
    PyObject *value = touch(self, it, now), *other = found[1] == NULL ? Py_None : found[1];
    if (value == NULL && !PyErr_Occurred()) {
        self->misses++;
        if (weigh(self, found[0], other, &weight) == 0 && keep(self, it, other, weight) == 0) {
            value = it->value;
            Py_INCREF(value);
        }
    }
    done_with(self, it);
    return value;
}

static PyObject *cache_insert(cache_object *self, PyObject *const *args, Py_ssize_t count, PyObject *words) {
    static const char *const NAMES[] = {"key", "value", "weight", "ttl"};
    PyObject *found[4];
    size_t size;
    uint64_t ttl;
    if (read_words("insert", NAMES, 2, 4, args, count, words, found) < 0)
        return NULL;
    PyObject *weight = found[2] == Py_None ? NULL : found[2];
    if ((weight != NULL && read_size(weight, &size) < 0) || read_ttl(found[3], &ttl) < 0)
        return NULL;
    if (insert(self, found[0], found[1], weight == NULL ? NULL : &size, ttl == 0 ? self->ttl : ttl) < 0)
        return NULL;
    Py_RETURN_NONE;
}

static PyObject *cache_touch(cache_object *self, PyObject *const *args, Py_ssize_t count, PyObject *words) {
    static const char *const NAMES[] = {"key", "ttl"};
    PyObject *found[2];
    uint64_t now, ttl;
    Py_hash_t hash;
    node *it;
    int is_found = 0;
    if (read_words("touch", NAMES, 1, 2, args, count, words, found) < 0 || read_ttl(found[1], &ttl) < 0)
        return NULL;
    ttl = ttl == 0 ? self->ttl : ttl;
    if (ttl > 0)
        self->has_expiry = 1;
    if (read_time(self, &now) < 0 || (hash = hash_of(found[0])) == -1 || find(self, found[0], hash, &it) < 0)
        return NULL;
    if (is_closed(self)) /* by the hash or the comparison of a key */
        return NULL;
    if (it != NULL) {
        it->uses++;
        is_found = renew(self, it, now, ttl);
        done_with(self, it);
    }
    return is_found < 0 ? NULL : PyBool_FromLong(is_found);
}

static PyObject *cache_get_or_insert(cache_object *self, PyObject *const *args, Py_ssize_t count, PyObject *words) {
    static const char *const NAMES[] = {"key", "make"};
    PyObject *found[2];
    if (read_words("get_or_insert", NAMES, 2, 2, args, count, words, found) < 0)
        return NULL;
    return get_or_make(self, found[0], found[1]);
}

/* What a call over all records returns. */
PyObject *ended(cache_object *self, luffa_status status) {
    give_back(self);
    if (status != LUFFA_OK)
        return refused(self, status);
    Py_RETURN_NONE;
}

static PyObject *cache_clear(cache_object *self, PyObject *unused) {
    (void)unused;
    return is_closed(self) ? NULL : ended(self, luffa_clear(self->cache));
}

static PyObject *cache_resize(cache_object *self, PyObject *number) {
    size_t capacity;
    uint64_t now;
    if (read_size(number, &capacity) < 0 || read_time(self, &now) < 0)
        return NULL;
    return ended(self, luffa_resize(self->cache, now, capacity));
}

/* Hits, misses, usage, entries and capacity. */
static PyObject *cache_counts(cache_object *self, PyObject *unused) {
    (void)unused;
    if (is_closed(self))
        return NULL;
    luffa_stats stats = luffa_get_stats(self->cache);
    return Py_BuildValue("KKKKK", (unsigned long long)self->hits, (unsigned long long)self->misses,
                         (unsigned long long)stats.usage, (unsigned long long)stats.entries,
                         (unsigned long long)luffa_capacity(self->cache));
}

static PyObject *cache_close(cache_object *self, PyObject *unused) {
    (void)unused;
    if (self->running > 0) {
        PyErr_SetString(PyExc_RuntimeError, "get_or_insert() is running");
        return NULL;
    }
    free_records(self);
    Py_RETURN_NONE;
}

#define FAST(CALL) (PyCFunction)(void (*)(void)) CALL, METH_FASTCALL | METH_KEYWORDS

PyMethodDef cache_methods[] = {
    {"get", FAST(cache_get), "get($self, key, default=None)\n--\n\nThe value of a key, or a default."},
    {"peek", FAST(cache_peek),
     "peek($self, key, default=None)\n--\n\nThe value of a key, or a default. It counts as no use, hit or miss."},
    {"insert", FAST(cache_insert),
     "insert($self, key, value, weight=None, ttl=None)\n--\n\nInserts a value with a weight and a time to live in "
     "seconds. None: as the cache has them; float('inf') never ends."},
    {"touch", FAST(cache_touch),
     "touch($self, key, ttl=None)\n--\n\nLets a time to live in seconds begin for a key, and returns whether a lookup "
     "finds it. None: as the cache has it; float('inf') never ends. It counts as an insert, and as no hit or miss."},
    {"get_or_insert", FAST(cache_get_or_insert),
     "get_or_insert($self, key, make)\n--\n\nThe value of a key, which make(key) makes if it is missing. Of several "
     "threads one makes it and the others wait. If make raises an exception, its caller gets that, and those who wait "
     "get Error (F15). If the key is inserted meanwhile, that value is the result for all."},
    {"pop", FAST(cache_pop), "Removes a key and returns its value, or a default."},
    {"popitem", (PyCFunction)cache_popitem, METH_NOARGS,
     "popitem($self)\n--\n\nRemoves the first key of an iteration, and returns it with its value."},
    {"setdefault", FAST(cache_setdefault),
     "setdefault($self, key, default=None)\n--\n\nThe value of a key, which is inserted if it is missing."},
    {"clear", (PyCFunction)cache_clear, METH_NOARGS, "clear($self)\n--\n\nRemoves all keys."},
    {"resize", (PyCFunction)cache_resize, METH_O,
     "resize($self, capacity, /)\n--\n\nSets the capacity and evicts down to it."},
    {"expire", (PyCFunction)cache_expire, METH_NOARGS,
     "expire($self)\n--\n\nRemoves what is expired, by a look at each key."},
    {"close", (PyCFunction)cache_close, METH_NOARGS,
     "close($self)\n--\n\nFrees the cache. Later calls raise ValueError."},
    {"__missing__", (PyCFunction)cache_missing, METH_O,
     "__missing__($self, key, /)\n--\n\nWhat self[key] returns for a missing key, in a subclass; here it raises "
     "KeyError."},
    {"_item_list", (PyCFunction)cache_item_list, METH_NOARGS, NULL},
    {"_counts", (PyCFunction)cache_counts, METH_NOARGS, NULL},
    {NULL, NULL, 0, NULL},
};
