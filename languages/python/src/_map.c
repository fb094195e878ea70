/* _map.c - the map of samvolip_map.h as a type of Python, and the module. samvolip/__init__.py makes a MutableMapping of it.

   A call of one key keeps the interpreter's lock, since to let go of it and take it again costs more than the call, unless it has to
   wait or renews the map. What may take long lets go of it: batches and calls of the whole map, from the beginning or after some
   milliseconds. No call of the map waits for a thread that needs the interpreter's lock.

   No key and no value goes to the map that it would refuse for its range: key_of and value_of raise first. */
#include "entries.h"
#include <string.h>

/* A batch makes so many calls between two looks at signals. */
enum { PART = 1 << 17 };

typedef struct Map {
    PyObject_HEAD
    samvolip_map *map; /* NULL until __init__ opens it */
} Map;

/* Where there is no such lock: between these two lines this thread alone is at work with an object. */
#ifdef Py_GIL_DISABLED
#define ALONE_WITH(object) Py_BEGIN_CRITICAL_SECTION(object)
#define ALONE_NO_MORE Py_END_CRITICAL_SECTION()
#else
#define ALONE_WITH(object) {
#define ALONE_NO_MORE }
#endif

/* ---- what is given ------------------------------------------------------------------------- */

/* The map, or NULL with an exception. */
static inline samvolip_map *map_of(PyObject *self)
{
    samvolip_map *map = ((Map *)self)->map;
    if (!map)
        PyErr_SetString(PyExc_ValueError, "the map isn't open: its __init__ wasn't called");
    return map;
}

static bool key_of(PyObject *given, uint64_t *key) { return number_of(given, &a_key, key); }
static bool value_of(PyObject *given, uint64_t *value) { return number_of(given, &a_value, value); }

/* Whether there may be such a key: none that isn't a whole number, or out of range. As a dict says, -1 with an exception if it is
   unhashable. */
static int may_be_key(PyObject *given, uint64_t *key)
{
    if (!PyLong_Check(given) && PyObject_Hash(given) == -1)
        return -1;
    switch (read_number(given, a_key.most, key)) {
    case READ: return 1;
    case RAISED:
        if (!PyErr_ExceptionMatches(PyExc_TypeError))
            return -1;
        PyErr_Clear();
        return 0;
    default: return 0;
    }
}

/* ---- what is told -------------------------------------------------------------------------- */

/* The value that was at a key, or None. */
static inline PyObject *found(int code, uint64_t value)
{
    if (code == SAMVOLIP_PRESENT)
        return PyLong_FromUnsignedLongLong(value);
    if (code < 0)
        return refuse(code);
    Py_RETURN_NONE;
}

static PyObject *whether(int code) { return code < 0 ? refuse(code) : PyBool_FromLong(code); }

/* What a call of the whole map returned. */
static PyObject *nothing(int code) { return found(code < 0 ? code : SAMVOLIP_ABSENT, 0); }

static PyObject *no_key(PyObject *key)
{
    PyErr_SetObject(PyExc_KeyError, key);
    return NULL;
}

/* ---- calls of one key ---------------------------------------------------------------------- */

static PyObject *map_get(PyObject *self, PyObject *const *args, Py_ssize_t count)
{
    samvolip_map *map = map_of(self);
    uint64_t key, value;
    if (!map || !takes("get", count, 1, 2) || !key_of(args[0], &key))
        return NULL;
    int code = samvolip_map_get(map, key, &value);
    if (code == SAMVOLIP_ABSENT && count == 2)
        return Py_NewRef(args[1]);
    return found(code, value);
}

static PyObject *map_subscript(PyObject *self, PyObject *given)
{
    samvolip_map *map = map_of(self);
    uint64_t key, value;
    if (!map || !key_of(given, &key))
        return NULL;
    int code = samvolip_map_get(map, key, &value);
    return code == SAMVOLIP_ABSENT ? no_key(given) : found(code, value);
}

static int map_contains(PyObject *self, PyObject *given)
{
    samvolip_map *map = map_of(self);
    uint64_t key;
    int may_be = map ? may_be_key(given, &key) : -1;
    if (may_be <= 0)
        return may_be;
    int code = samvolip_map_contains(map, key);
    return code < 0 ? (refuse(code), -1) : code;
}

/* m[k] = v, or del m[k] where nothing is given to put. */
static int map_ass_subscript(PyObject *self, PyObject *given, PyObject *put)
{
    samvolip_map *map = map_of(self);
    uint64_t key, value = 0;
    if (!map || !key_of(given, &key) || (put && !value_of(put, &value)))
        return -1;
    int code = put ? samvolip_map_put(map, key, value, NULL) : samvolip_map_remove(map, key, NULL);
    if (code < 0)
        refuse(code);
    else if (!put && code == SAMVOLIP_ABSENT)
        no_key(given);
    else
        return 0;
    return -1;
}

/* The writes of a key and a value that find what was there before. Without a value, where `least` is 1, it is `usual`. */
typedef int change(samvolip_map *map, uint64_t key, uint64_t value, uint64_t *before);

static inline int make(change *call, const char *name, Py_ssize_t least, uint64_t usual, PyObject *self, PyObject *const *args,
                       Py_ssize_t count, uint64_t *before)
{
    samvolip_map *map = map_of(self);
    uint64_t key, value = usual;
    if (!map || !takes(name, count, least, 2) || !key_of(args[0], &key) || (count == 2 && !value_of(args[1], &value)))
        return SAMVOLIP_E_OPTIONS;
    int code = call(map, key, value, before);
    if (code < 0)
        refuse(code);
    return code;
}

#define WRITE(name, least, usual)                                                                                                     \
    static PyObject *map_##name(PyObject *self, PyObject *const *args, Py_ssize_t count)                                              \
    {                                                                                                                                 \
        uint64_t before;                                                                                                              \
        int code = make(samvolip_map_##name, #name, least, usual, self, args, count, &before);                                        \
        return code < 0 ? NULL : found(code, before);                                                                                 \
    }
WRITE(put, 2, 0)
WRITE(put_if_absent, 2, 0)
WRITE(replace, 2, 0)
WRITE(fetch_max, 2, 0)
WRITE(fetch_min, 2, 0)
WRITE(add, 1, 1)

static PyObject *map_setdefault(PyObject *self, PyObject *const *args, Py_ssize_t count)
{
    uint64_t there;
    int code = make(samvolip_map_get_or_insert, "setdefault", 1, 0, self, args, count, &there);
    return code < 0 ? NULL : PyLong_FromUnsignedLongLong(there);
}

static PyObject *map_replace_if(PyObject *self, PyObject *const *args, Py_ssize_t count)
{
    samvolip_map *map = map_of(self);
    uint64_t key, old, value;
    if (!map || !takes("replace_if", count, 3, 3) || !key_of(args[0], &key) || !value_of(args[1], &old) || !value_of(args[2], &value))
        return NULL;
    return whether(samvolip_map_replace_if(map, key, old, value));
}

static PyObject *map_remove_if(PyObject *self, PyObject *const *args, Py_ssize_t count)
{
    samvolip_map *map = map_of(self);
    uint64_t key, value;
    if (!map || !takes("remove_if", count, 2, 2) || !key_of(args[0], &key) || !value_of(args[1], &value))
        return NULL;
    return whether(samvolip_map_remove_if(map, key, value));
}

static PyObject *map_remove(PyObject *self, PyObject *given)
{
    samvolip_map *map = map_of(self);
    uint64_t key, before;
    if (!map || !key_of(given, &key))
        return NULL;
    int code = samvolip_map_remove(map, key, &before);
    return found(code, before);
}

static PyObject *map_pop(PyObject *self, PyObject *const *args, Py_ssize_t count)
{
    samvolip_map *map = map_of(self);
    uint64_t key, before;
    if (!map || !takes("pop", count, 1, 2) || !key_of(args[0], &key))
        return NULL;
    int code = samvolip_map_remove(map, key, &before);
    if (code == SAMVOLIP_ABSENT)
        return count == 2 ? Py_NewRef(args[1]) : no_key(args[0]);
    return found(code, before);
}

/* Reads a value or None, for which `is_some` is false. */
static bool some_value_of(PyObject *given, uint64_t *value, bool *is_some)
{
    *is_some = given != Py_None;
    return !*is_some || value_of(given, value);
}

static PyObject *map_compare_exchange(PyObject *self, PyObject *const *args, Py_ssize_t count)
{
    samvolip_map *map = map_of(self);
    uint64_t key, expected, next;
    bool expects, leaves;
    samvolip_reply reply;
    if (!map || !takes("compare_exchange", count, 3, 3) || !key_of(args[0], &key) || !some_value_of(args[1], &expected, &expects)
        || !some_value_of(args[2], &next, &leaves))
        return NULL;
    int code = samvolip_map_compare_exchange(map, key, expects ? &expected : NULL, leaves ? &next : NULL, &reply);
    return code < 0 ? refuse(code) : found((int)reply.had, reply.before);
}

/* ---- batches ------------------------------------------------------------------------------- */

/* Calls for many keys. */
typedef struct batch {
    samvolip_map *map;
    words keys, values; /* values.at: NULL if `value` is that of all */
    uint64_t value, *into; /* where gets write what they find */
} batch;

/* Makes one call of a batch. */
typedef int each(const batch *all, size_t i);

static inline uint64_t value_at(const batch *all, size_t i) { return all->values.at ? all->values.at[i] : all->value; }
static int put_one(const batch *all, size_t i) { return samvolip_map_put(all->map, all->keys.at[i], value_at(all, i), NULL); }
static int add_one(const batch *all, size_t i) { return samvolip_map_add(all->map, all->keys.at[i], value_at(all, i), NULL); }

static int get_one(const batch *all, size_t i)
{
    int code = samvolip_map_get(all->map, all->keys.at[i], &all->into[i]);
    if (code == SAMVOLIP_ABSENT)
        all->into[i] = all->value;
    return code;
}

/* Reads one value for all keys, or as many as there are keys. */
static bool values_of(PyObject *given, batch *all)
{
    if (!PyByteArray_Check(given))
        return value_of(given, &all->value);
    if (!words_of(given, &a_value, &all->values))
        return false;
    if (all->values.count == all->keys.count)
        return true;
    PyErr_Format(PyExc_ValueError, "there are %zu keys, and %zu values", all->keys.count, all->values.count);
    return false;
}

/* Makes the calls of a batch, until one is refused or a signal's handler raises. */
static bool run(const batch *all, each *call)
{
    int code = SAMVOLIP_OK;
    for (size_t from = 0, count = all->keys.count; from < count;) {
        size_t to = count - from > PART ? from + PART : count;
        void *state = count > FEW ? let_go() : NULL;
        while (from < to && (code = call(all, from)) >= 0)
            from++;
        take_back(state);
        if (code < 0)
            PyErr_Format(exception_of(code), "keys[%zu] is %llu: %s; the %zu calls before it were made", from,
                         (unsigned long long)all->keys.at[from], meaning(code), from);
        if (code < 0 || PyErr_CheckSignals() < 0)
            return false;
    }
    return true;
}

static PyObject *run_writes(PyObject *self, PyObject *const *args, Py_ssize_t count, const char *name, each *call)
{
    batch all = {.map = map_of(self)};
    if (!all.map || !takes(name, count, 2, 2) || !words_of(args[0], &a_key, &all.keys) || !values_of(args[1], &all) || !run(&all, call))
        return NULL;
    Py_RETURN_NONE;
}

static PyObject *map_put_words(PyObject *self, PyObject *const *args, Py_ssize_t count)
{
    return run_writes(self, args, count, "put_many", put_one);
}
static PyObject *map_add_words(PyObject *self, PyObject *const *args, Py_ssize_t count)
{
    return run_writes(self, args, count, "add_many", add_one);
}

static PyObject *map_get_words(PyObject *self, PyObject *const *args, Py_ssize_t count)
{
    static const kind a_default = {"the default", "defaults", "the default is from 0 to 2**64 - 1", UINT64_MAX};
    batch all = {.map = map_of(self)};
    if (!all.map || !takes("get_many", count, 2, 2) || !words_of(args[0], &a_key, &all.keys)
        || !number_of(args[1], &a_default, &all.value))
        return NULL;
    PyObject *made = PyByteArray_FromStringAndSize(NULL, (Py_ssize_t)(all.keys.count * sizeof *all.into));
    if (!made)
        return NULL;
    all.into = (uint64_t *)(void *)PyByteArray_AsString(made);
    if (run(&all, get_one))
        return made;
    Py_DECREF(made);
    return NULL;
}

/* ---- the whole map ------------------------------------------------------------------------- */

static Py_ssize_t map_length(PyObject *self)
{
    samvolip_map *map = map_of(self);
    uint64_t size = 0;
    int code = SAMVOLIP_OK;
    if (!map)
        return -1;
    void *state = let_go();
    code = samvolip_map_size(map, &size);
    take_back(state);
    return code < 0 ? (refuse(code), -1) : (Py_ssize_t)size;
}

static PyObject *map_size_estimate(PyObject *self, PyObject *unused)
{
    samvolip_map *map = map_of(self);
    uint64_t size;
    (void)unused;
    if (!map)
        return NULL;
    int code = samvolip_map_size_estimate(map, &size);
    return found(code < 0 ? code : SAMVOLIP_PRESENT, size);
}

static PyObject *map_clear(PyObject *self, PyObject *unused)
{
    samvolip_map *map = map_of(self);
    int code;
    (void)unused;
    if (!map)
        return NULL;
    void *state = let_go();
    code = samvolip_map_clear(map, NULL, NULL);
    take_back(state);
    return nothing(code);
}

static PyObject *map_renew(PyObject *self, PyObject *const *args, Py_ssize_t count)
{
    samvolip_map *map = map_of(self);
    uint64_t room = 0;
    static const kind a_room = {"the room", "rooms", "the room is from 0 to 2**64 - 1", UINT64_MAX};
    int code;
    if (!map || !takes("renew", count, 0, 1) || (count == 1 && !number_of(args[0], &a_room, &room)))
        return NULL;
    void *state = let_go();
    code = samvolip_map_renew(map, room);
    take_back(state);
    return nothing(code);
}

static PyObject *map_leave(PyObject *self, PyObject *unused)
{
    samvolip_map *map = map_of(self);
    (void)unused;
    if (!map)
        return NULL;
    samvolip_map_leave(map);
    Py_RETURN_NONE;
}

static PyObject *map_look(PyObject *self, PyObject *unused)
{
    samvolip_map *map = map_of(self);
    samvolip_map_figures at;
    int code;
    (void)unused;
    if (!map)
        return NULL;
    void *state = let_go();
    code = samvolip_map_look(map, &at);
    take_back(state);
    if (code < 0)
        return refuse(code);
    return Py_BuildValue("KKKKKKKK", at.renewals, at.refused, at.write_stop, at.read_stop, at.all_stops, at.slots, at.keys, at.own_threads);
}

/* All entries of one moment, as words: a key, its value, and so on. */
static PyObject *map_snapshot_words(PyObject *self, PyObject *unused)
{
    samvolip_map *map = map_of(self);
    uint64_t count = 0;
    PyObject *made = NULL;
    int code = map ? samvolip_map_size_estimate(map, &count) : SAMVOLIP_OK;
    (void)unused;
    if (!map || code < 0)
        return map ? refuse(code) : NULL;
    do {
        size_t room = count + count / 8 + 64; /* others may add keys */
        Py_XDECREF(made);
        made = PyByteArray_FromStringAndSize(NULL, (Py_ssize_t)(room * sizeof(samvolip_entry)));
        if (!made)
            return NULL;
        samvolip_entry *entries = (samvolip_entry *)(void *)PyByteArray_AsString(made);
        void *state = let_go();
        code = samvolip_map_snapshot(map, entries, room, &count);
        take_back(state);
    } while (code == SAMVOLIP_E_ROOM);
    if (code < 0) {
        Py_DECREF(made);
        return refuse(code);
    }
    PyByteArray_Resize(made, (Py_ssize_t)(count * sizeof(samvolip_entry))); /* smaller, so it isn't refused */
    return made;
}

/* ---- beginning and end --------------------------------------------------------------------- */

/* The options of __init__, in their order; as kinds of whole numbers they have the range that a message says. */
enum { OPTIONS = 5 };
static const kind option_kinds[OPTIONS] = {
    {"room", "", "room: for at most 178956970 keys", UINT64_MAX},
    {"memory", "", "memory: from 0 to 2**64 - 1", UINT64_MAX},
    {"growth", "", "growth: from 2 to 64 times", UINT32_MAX},
    {"threads", "", "threads: at most 240", UINT32_MAX},
    {"keys", "", "keys: from 0 to 2", UINT32_MAX},
};

/* Raises which option is wrong, and what was given. */
static void refuse_options(const samvolip_map_options *options, PyObject *args)
{
    const char *why = samvolip_map_wrong_option(options);
    for (Py_ssize_t i = 0; i < OPTIONS && i < PyTuple_Size(args); i++)
        if (strncmp(why, option_kinds[i].one, strlen(option_kinds[i].one)) == 0) {
            PyErr_Format(PyExc_ValueError, "%s, not %S", why, PyTuple_GetItem(args, i));
            return;
        }
    PyErr_SetString(PyExc_ValueError, why);
}

/* Opens a map; NULL with an exception. */
static samvolip_map *open_map(PyObject *args)
{
    uint64_t read[OPTIONS] = {0};
    for (Py_ssize_t i = 0; i < OPTIONS && i < PyTuple_Size(args); i++)
        if (!number_of(PyTuple_GetItem(args, i), &option_kinds[i], &read[i]))
            return NULL;
    samvolip_map_options options = {read[0], read[1], (uint32_t)read[2], (uint32_t)read[3], (uint32_t)read[4]};
    samvolip_map *map = NULL;
    void *state = let_go();
    int code = samvolip_map_open(&options, &map);
    take_back(state);
    if (code == SAMVOLIP_E_OPTIONS)
        refuse_options(&options, args);
    else if (code < 0)
        refuse(code);
    else
        samvolip_map_lets_go(map, let_go, take_back);
    return code < 0 ? NULL : map;
}

/* __init__(room, memory, growth, threads, keys) */
static int map_init(PyObject *itself, PyObject *args, PyObject *named)
{
    Map *self = (Map *)itself;
    if (named && PyDict_Size(named) > 0) {
        PyErr_SetString(PyExc_TypeError, "the options of the map itself have no names");
        return -1;
    }
    samvolip_map *map = open_map(args);
    if (!map)
        return -1;
    bool is_open;
    ALONE_WITH(itself);
    is_open = self->map;
    if (!is_open)
        self->map = map;
    ALONE_NO_MORE;
    if (!is_open)
        return 0;
    samvolip_map_free(map);
    PyErr_SetString(PyExc_ValueError, "the map is open");
    return -1;
}

static void map_dealloc(PyObject *self)
{
    PyTypeObject *type = Py_TYPE(self);
    samvolip_map_free(((Map *)self)->map);
    ((freefunc)PyType_GetSlot(type, Py_tp_free))(self);
    Py_DECREF(type);
}

/* A method's text begins with its parameters, as inspect.signature reads them. */
#define TEXT(name, parameters, text) #name "($self" parameters ", /)\n--\n\n" text
#define FAST(name, function, parameters, text) {#name, (PyCFunction)(void (*)(void))(function), METH_FASTCALL, TEXT(name, parameters, text)}
static PyMethodDef map_methods[] = {
    FAST(get, map_get, ", key, default=None", "The value at a key, or the default."),
    FAST(put, map_put, ", key, value", "Puts a value at a key. What was there, or None."),
    FAST(put_if_absent, map_put_if_absent, ", key, value", "Puts a value at a key that has none. What was there: None if it did."),
    FAST(replace, map_replace, ", key, value", "Puts a value at a key that has one. What was there: None if it didn't."),
    FAST(replace_if, map_replace_if, ", key, old, value", "Puts a value in place of the old one. Whether it did."),
    {"remove", map_remove, METH_O, TEXT(remove, ", key", "Takes a key out. What was there, or None.")},
    FAST(remove_if, map_remove_if, ", key, value", "Takes a key out that has this value. Whether it did."),
    FAST(add, map_add, ", key, value=1", "Adds a value to what is at a key, or to 0. What was there, or None."),
    FAST(fetch_max, map_fetch_max, ", key, value", "Leaves the greater of two values. What was there, or None."),
    FAST(fetch_min, map_fetch_min, ", key, value", "Leaves the smaller of two values. What was there, or None."),
    FAST(compare_exchange, map_compare_exchange, ", key, expected, next",
         "Puts next in place of expected; None is no value, of both.\n\n"
         "What was there, or None: it did it if that is what was expected."),
    FAST(setdefault, map_setdefault, ", key, value=0", "The value at a key; if there is none, this one, which is put there."),
    FAST(pop, map_pop, ", key, default=...", "Takes a key out. What was there; else the default, or KeyError without one."),
    {"clear", map_clear, METH_NOARGS, TEXT(clear, "", "Removes all keys, in one step.")},
    {"size_estimate", map_size_estimate, METH_NOARGS,
     TEXT(size_estimate, "", "About how many keys there are; exact while nobody writes.")},
    FAST(renew, map_renew, ", room=0", "Lays the map anew, with room for so many keys, or as its options say."),
    {"leave", map_leave, METH_NOARGS,
     TEXT(leave, "", "Gives back what this thread has of the map, before the thread ends. It may call again.")},
    {"_snapshot_words", map_snapshot_words, METH_NOARGS, TEXT(_snapshot_words, "", "All entries of one moment, as words.")},
    FAST(_put_words, map_put_words, ", keys, values", "put_many, of words."),
    FAST(_add_words, map_add_words, ", keys, values", "add_many, of words."),
    FAST(_get_words, map_get_words, ", keys, default", "get_many, of words."),
    {"_look", map_look, METH_NOARGS, TEXT(_look, "", "The figures.")},
    {NULL, NULL, 0, NULL},
};

static PyType_Slot map_slots[] = {
    {Py_tp_doc, "The calls of a concurrent map, for samvolip.Map."},
    {Py_tp_init, map_init},
    {Py_tp_dealloc, map_dealloc},
    {Py_tp_methods, map_methods},
    {Py_mp_subscript, map_subscript},
    {Py_mp_ass_subscript, map_ass_subscript},
    {Py_mp_length, map_length},
    {Py_sq_contains, map_contains},
    {0, NULL},
};

static PyType_Spec map_spec = {"samvolip._map.Base", sizeof(Map), 0, Py_TPFLAGS_DEFAULT | Py_TPFLAGS_BASETYPE, map_slots};

/* ---- walks --------------------------------------------------------------------------------- */

/* An iterator: Walk(map, shows). */
typedef struct Walk {
    PyObject_HEAD
    PyObject *over; /* the map, which lives as long */
    samvolip_map_walk *walk; /* NULL: it is at its end */
    int shows;
    size_t steps;
} Walk;

enum { KEYS, VALUES, ITEMS };

static PyObject *walk_new(PyTypeObject *type, PyObject *args, PyObject *named)
{
    PyObject *base = PyType_GetModuleState(type), *over = NULL;
    int shows;
    (void)named;
    if (!PyArg_ParseTuple(args, "O!i", *(PyObject **)(void *)base, &over, &shows) || !map_of(over))
        return NULL;
    Walk *self = (Walk *)((allocfunc)PyType_GetSlot(type, Py_tp_alloc))(type, 0);
    if (!self)
        return NULL;
    self->over = Py_NewRef(over);
    self->shows = shows;
    int code = samvolip_map_walk_begin(map_of(over), &self->walk);
    if (code >= 0)
        return (PyObject *)self;
    Py_DECREF(self);
    return refuse(code);
}

static int walk_clear(PyObject *itself)
{
    Walk *self = (Walk *)itself;
    if (self->walk)
        samvolip_map_walk_end(self->walk);
    self->walk = NULL;
    Py_CLEAR(self->over);
    return 0;
}

static int walk_traverse(PyObject *self, visitproc visit, void *arg)
{
    Py_VISIT(Py_TYPE(self));
    Py_VISIT(((Walk *)self)->over);
    return 0;
}

static void walk_dealloc(PyObject *self)
{
    PyTypeObject *type = Py_TYPE(self);
    PyObject_GC_UnTrack(self);
    walk_clear(self);
    ((freefunc)PyType_GetSlot(type, Py_tp_free))(self);
    Py_DECREF(type);
}

static PyObject *walk_next(PyObject *itself)
{
    Walk *self = (Walk *)itself;
    uint64_t key, value;
    size_t step;
    int code = SAMVOLIP_ABSENT;
    ALONE_WITH(itself);
    step = self->steps++;
    ALONE_NO_MORE;
    if (!goes_on(step)) /* list(m) and the like make all steps in one call */
        return NULL;
    ALONE_WITH(itself);
    if (self->walk)
        code = samvolip_map_walk_next(self->walk, &key, &value);
    if (code == SAMVOLIP_ABSENT)
        walk_clear(itself);
    ALONE_NO_MORE;
    if (code < 0)
        return refuse(code);
    if (code == SAMVOLIP_ABSENT)
        return NULL;
    if (self->shows != ITEMS)
        return PyLong_FromUnsignedLongLong(self->shows == KEYS ? key : value);
    PyObject *pair = PyTuple_New(2);
    if (pair && (PyTuple_SetItem(pair, 0, PyLong_FromUnsignedLongLong(key)) < 0 ||
                 PyTuple_SetItem(pair, 1, PyLong_FromUnsignedLongLong(value)) < 0))
        Py_CLEAR(pair);
    return pair;
}

static PyType_Slot walk_slots[] = {
    {Py_tp_doc, "A walk over the keys (0), the values (1) or the items (2) of a map."},
    {Py_tp_new, walk_new},
    {Py_tp_dealloc, walk_dealloc},
    {Py_tp_traverse, walk_traverse},
    {Py_tp_clear, walk_clear},
    {Py_tp_iter, PyObject_SelfIter},
    {Py_tp_iternext, walk_next},
    {0, NULL},
};

static PyType_Spec walk_spec = {"samvolip._map.Walk", sizeof(Walk), 0, Py_TPFLAGS_DEFAULT | Py_TPFLAGS_HAVE_GC, walk_slots};

/* ---- the module ---------------------------------------------------------------------------- */

/* The module's state is the type of maps. */
static PyObject **state_of(PyObject *module) { return PyModule_GetState(module); }

static int add_number(PyObject *module, const char *name, uint64_t number)
{
    PyObject *made = PyLong_FromUnsignedLongLong(number);
    int code = made ? PyModule_AddObjectRef(module, name, made) : -1;
    Py_XDECREF(made);
    return code;
}

static int fill(PyObject *module)
{
    PyObject *base = PyType_FromModuleAndSpec(module, &map_spec, NULL), *walk = PyType_FromModuleAndSpec(module, &walk_spec, NULL);
    *state_of(module) = base;
    int code = base && walk && PyModule_AddObjectRef(module, "Base", base) == 0 && PyModule_AddObjectRef(module, "Walk", walk) == 0
            && add_number(module, "KEY_MAX", SAMVOLIP_KEY_MAX) == 0 && add_number(module, "VALUE_MAX", SAMVOLIP_VALUE_MAX) == 0
            && add_number(module, "VERSION", SAMVOLIP_VERSION) == 0 ? 0 : -1;
    Py_XDECREF(walk);
    return code;
}

static int traverse(PyObject *module, visitproc visit, void *arg)
{
    Py_VISIT(*state_of(module));
    return 0;
}

static int clear(PyObject *module)
{
    Py_CLEAR(*state_of(module));
    return 0;
}

#define FUNCTION(name, parameters, text) \
    {#name, (PyCFunction)(void (*)(void))name, METH_FASTCALL, #name "($module, " parameters ", /)\n--\n\n" text}
static PyMethodDef functions[] = {
    FUNCTION(read_words, "numbers, are_values", "Whole numbers as words; are_values says what they are, else keys."),
    FUNCTION(check_signs, "words, are_values", "Refuses words that are negative numbers."),
    FUNCTION(column, "entries, of_values", "All keys, or all values, as words."),
    FUNCTION(most_common, "entries, n", "The n pairs with the greatest values, or all if n is None."),
    FUNCTION(are_equal, "entries, other", "Whether entries are those of others, or of a dict."),
    {"dict_of", dict_of, METH_O, "dict_of($module, entries, /)\n--\n\nThe entries as a dict."},
    {NULL, NULL, 0, NULL},
};

static PyModuleDef_Slot parts[] = {
    {Py_mod_exec, fill},
#ifdef Py_GIL_DISABLED
    {Py_mod_gil, Py_MOD_GIL_NOT_USED},
#endif
    {0, NULL},
};

static PyModuleDef definition = {
    PyModuleDef_HEAD_INIT, "_map", "The map of samvolip_map.h; samvolip.Map is what to use.", sizeof(PyObject *),
    functions, parts, traverse, clear, NULL,
};

PyMODINIT_FUNC PyInit__map(void) { return PyModuleDef_Init(&definition); }
