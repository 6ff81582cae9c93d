/* The type _Cache: how a cache is made and ends. */
#include "cache.h"

static module_state *state_of(PyTypeObject *type) {
    PyObject *module;
    for (; type != NULL; type = PyType_GetSlot(type, Py_tp_base)) { /* a subclass has no module */
        if ((module = PyType_GetModule(type)) != NULL && PyModule_GetDef(module) == &module_def)
            return PyModule_GetState(module);
        PyErr_Clear();
    }
    PyErr_SetString(PyExc_TypeError, "the type has no module");
    return NULL;
}

static PyObject *cache_new(PyTypeObject *type, PyObject *args, PyObject *words) {
    (void)args;
    (void)words;
    module_state *state = state_of(type);
    cache_object *self = state == NULL ? NULL : (cache_object *)PyType_GenericAlloc(type, 0);
    if (self == NULL)
        return NULL;
    self->state = state;
    self->list = (chain){&self->list, &self->list};
    if (table_begin(&self->table) < 0) {
        Py_CLEAR(self);
        return PyErr_NoMemory();
    }
    return (PyObject *)self;
}

/* Stores a callable, or NULL for None. Returns 0, or -1 and an exception. */
static int read_callable(const char *name, PyObject *given, PyObject **place) {
    if (given == NULL || given == Py_None)
        return 0;
    if (!PyCallable_Check(given)) {
        PyErr_Format(PyExc_TypeError, "the %s must be callable", name);
        return -1;
    }
    Py_INCREF(given);
    *place = given;
    return 0;
}

static int create(cache_object *self, luffa_config *config) {
    config->is_unlocked = 1; /* the interpreter has a lock */
    config->hash = hash_node;
    config->listener = hear;
    config->listener_context = self;
    luffa_status status = luffa_create(config, &self->cache);
    if (status == LUFFA_NO_SHARDS)
        PyErr_SetString(PyExc_ValueError, "the number of shards must be at least 1");
    else if (status >= LUFFA_ZERO_DENOMINATOR && status <= LUFFA_NO_BUCKETS)
        PyErr_SetString(PyExc_ValueError, luffa_strerror(status));
    else if (status != LUFFA_OK)
        refused(self, status);
    return status == LUFFA_OK ? 0 : -1;
}

static int cache_init(cache_object *self, PyObject *args, PyObject *words) {
    static char *names[] = {"capacity", "policy", "changes", "shards", "ttl", "weigher", "timer", NULL};
    PyObject *capacity, *changes = NULL, *shards = NULL, *ttl = NULL, *weigher = NULL, *timer = NULL;
    const char *policy = "s3fifo";
    uint64_t life;
    luffa_config config;
    if (!PyArg_ParseTupleAndKeywords(args, words, "O|sO!OOOO", names, &capacity, &policy, &PyDict_Type, &changes,
                                     &shards, &ttl, &weigher, &timer))
        return -1;
    if (read_policy(policy, changes, &config) < 0)
        return -1;
    config.shards = 1;
    if (read_size(capacity, &config.capacity) < 0 || (shards != NULL && read_size(shards, &config.shards) < 0) ||
        read_ttl(ttl, &life) < 0)
        return -1;
    if (self->cache != NULL || self->weigher != NULL || self->timer != NULL) { /* also by the code of the ttl */
        PyErr_SetString(PyExc_RuntimeError, "the cache was made before");
        return -1;
    }
    if (create(self, &config) < 0)
        return -1;
    self->ttl = life;
    self->has_expiry = self->ttl > 0;
    self->is_lru = config.policy.kind == LUFFA_LRU;
    if (read_callable("weigher", weigher, &self->weigher) < 0)
        return -1;
    return read_callable("timer", timer, &self->timer);
}

static int cache_traverse(cache_object *self, visitproc visit, void *arg) {
    Py_VISIT(Py_TYPE(self));
    Py_VISIT(self->weigher);
    Py_VISIT(self->timer);
    for (size_t i = 0; self->table.places != NULL && i <= self->table.mask; i++)
        if (self->table.places[i] != NULL) {
            Py_VISIT(self->table.places[i]->key);
            Py_VISIT(self->table.places[i]->value);
        }
    return 0;
}

/* Frees the cache, whose records leave. */
int free_records(cache_object *self) {
    luffa_cache *cache = self->cache;
    self->cache = NULL;
    luffa_destroy(cache);
    lose_all(self);
    return 0;
}

static int cache_gc_clear(cache_object *self) {
    free_records(self);
    Py_CLEAR(self->weigher);
    Py_CLEAR(self->timer);
    return 0;
}

static void cache_dealloc(cache_object *self) {
    PyTypeObject *type = Py_TYPE(self);
    PyObject_GC_UnTrack(self);
    cache_gc_clear(self);
    PyMem_Free(self->table.places);
    PyMem_Free(self->spare);
    ((freefunc)PyType_GetSlot(type, Py_tp_free))(self);
    Py_DECREF(type);
}

static PyType_Slot cache_slots[] = {
    {Py_tp_new, cache_new},
    {Py_tp_init, cache_init},
    {Py_tp_dealloc, cache_dealloc},
    {Py_tp_traverse, cache_traverse},
    {Py_tp_clear, cache_gc_clear},
    {Py_tp_methods, cache_methods},
    {Py_mp_length, cache_length},
    {Py_mp_subscript, cache_subscript},
    {Py_mp_ass_subscript, cache_ass_subscript},
    {Py_sq_contains, cache_contains},
    {0, NULL},
};

PyType_Spec cache_spec = {"luffapricot._Cache", sizeof(cache_object), 0,
                          Py_TPFLAGS_DEFAULT | Py_TPFLAGS_BASETYPE | Py_TPFLAGS_HAVE_GC, cache_slots};
