/* entries.c - what becomes of all entries of one moment, as entries.h has it: columns, a dict, the most common, whether two are equal. */
#include "entries.h"
#include <string.h>

typedef struct entries {
    const samvolip_entry *at;
    size_t count;
} entries;

/* Words as entries; false with an exception. */
static bool entries_of(PyObject *given, entries *read)
{
    words all;
    if (!all_words(given, &all))
        return false;
    *read = (entries){(const samvolip_entry *)(const void *)all.at, all.count / 2};
    return true;
}

/* ---- columns ------------------------------------------------------------------------------- */

typedef struct picking {
    const samvolip_entry *from;
    uint64_t *to;
    bool of_values;
} picking;

static void pick(void *work, size_t from, size_t to)
{
    picking *all = work;
    for (size_t i = from; i < to; i++)
        all->to[i] = all->of_values ? all->from[i].number : all->from[i].key;
}

PyObject *column(PyObject *module, PyObject *const *args, Py_ssize_t count)
{
    entries all;
    (void)module;
    if (!takes("column", count, 2, 2) || !entries_of(args[0], &all))
        return NULL;
    PyObject *made = PyByteArray_FromStringAndSize(NULL, (Py_ssize_t)(all.count * sizeof(uint64_t)));
    if (!made)
        return NULL;
    picking work = {all.at, (uint64_t *)(void *)PyByteArray_AsString(made), PyObject_IsTrue(args[1])};
    if (!in_parts(all.count, pick, &work))
        Py_CLEAR(made);
    return made;
}

/* ---- a dict -------------------------------------------------------------------------------- */

/* The key and the value of an entry; false with an exception. */
static bool make_pair(const samvolip_entry *entry, PyObject **key, PyObject **value)
{
    *key = PyLong_FromUnsignedLongLong(entry->key);
    *value = *key ? PyLong_FromUnsignedLongLong(entry->number) : NULL;
    if (!*value)
        Py_CLEAR(*key);
    return *value;
}

static bool put_into(PyObject *dict, const samvolip_entry *entry)
{
    PyObject *key, *value;
    if (!make_pair(entry, &key, &value))
        return false;
    bool is_well = PyDict_SetItem(dict, key, value) == 0;
    Py_DECREF(key);
    Py_DECREF(value);
    return is_well;
}

PyObject *dict_of(PyObject *module, PyObject *given)
{
    entries all;
    (void)module;
    PyObject *made = entries_of(given, &all) ? PyDict_New() : NULL;
    for (size_t i = 0; made && i < all.count; i++)
        if (!put_into(made, &all.at[i]) || !goes_on(i))
            Py_CLEAR(made);
    return made;
}

/* ---- in order ------------------------------------------------------------------------------ */

/* Entries are sorted digit by digit, from the lowest on. */
enum { DIGIT_BITS = 8, DIGIT_VALUES = 1 << DIGIT_BITS, DIGITS = 64 / DIGIT_BITS };

typedef struct sorting {
    const samvolip_entry *from;
    samvolip_entry *to;
    bool by_value;
    unsigned digit;                      /* by which they are placed */
    size_t places[DIGITS][DIGIT_VALUES]; /* how many entries have this digit; then where the next one goes */
} sorting;

static inline unsigned digit_of(const sorting *all, const samvolip_entry *entry, unsigned digit)
{
    uint64_t rank = all->by_value ? ~entry->number : entry->key; /* the greatest value is first */
    return (unsigned)(rank >> digit * DIGIT_BITS) % DIGIT_VALUES;
}

static void copy_and_count(void *work, size_t from, size_t to)
{
    sorting *all = work;
    for (size_t i = from; i < to; i++) {
        all->to[i] = all->from[i];
        for (unsigned digit = 0; digit < DIGITS; digit++)
            all->places[digit][digit_of(all, &all->from[i], digit)]++;
    }
}

static void place(void *work, size_t from, size_t to)
{
    sorting *all = work;
    for (size_t i = from; i < to; i++)
        all->to[all->places[all->digit][digit_of(all, &all->from[i], all->digit)]++] = all->from[i];
}

/* Makes places of counts. False if all entries have the same digit. */
static bool make_places(size_t *places, size_t count)
{
    size_t sum = 0;
    for (unsigned digit = 0; digit < DIGIT_VALUES; digit++) {
        if (places[digit] == count)
            return false;
        size_t here = places[digit];
        places[digit] = sum;
        sum += here;
    }
    return true;
}

/* The entries in the order of their keys, or of their values from the greatest on; those that have the same stay as they are. It is to be
   freed. NULL with an exception. */
static samvolip_entry *sorted(const entries *given, bool by_value)
{
    size_t size = (given->count + 1) * sizeof(samvolip_entry);
    samvolip_entry *one = malloc(size), *other = malloc(size);
    sorting *all = calloc(1, sizeof *all);
    if (one && other && all) {
        *all = (sorting){.from = given->at, .to = one, .by_value = by_value};
        bool is_well = in_parts(given->count, copy_and_count, all);
        for (; is_well && all->digit < DIGITS; all->digit++)
            if (make_places(all->places[all->digit], given->count)) {
                all->from = one;
                all->to = other;
                is_well = in_parts(given->count, place, all);
                other = one;
                one = all->to;
            }
        if (!is_well) {
            free(one);
            one = NULL;
        }
    } else {
        refuse(SAMVOLIP_E_OUT_OF_MEMORY);
        free(one);
        one = NULL;
    }
    free(all);
    free(other);
    return one;
}

/* ---- the most common ----------------------------------------------------------------------- */

static bool append(PyObject *list, const samvolip_entry *entry)
{
    PyObject *key, *value, *pair = PyTuple_New(2);
    if (!pair || !make_pair(entry, &key, &value)) {
        Py_XDECREF(pair);
        return false;
    }
    PyTuple_SetItem(pair, 0, key);
    PyTuple_SetItem(pair, 1, value);
    PyObject_GC_UnTrack(pair); /* there is no cycle in it, so the collector needn't look */
    bool is_well = PyList_Append(list, pair) == 0;
    Py_DECREF(pair);
    return is_well;
}

/* How many are asked for; false with an exception. */
static bool read_most(PyObject *given, size_t count, size_t *most)
{
    *most = count;
    if (given == Py_None)
        return true;
    Py_ssize_t read = PyNumber_AsSsize_t(given, NULL); /* the nearest to a large one */
    if (read == -1 && PyErr_Occurred())
        return false;
    if (read < 0 || (size_t)read < count)
        *most = read < 0 ? 0 : (size_t)read;
    return true;
}

PyObject *most_common(PyObject *module, PyObject *const *args, Py_ssize_t count)
{
    entries all;
    size_t most;
    (void)module;
    if (!takes("most_common", count, 2, 2) || !entries_of(args[0], &all) || !read_most(args[1], all.count, &most))
        return NULL;
    samvolip_entry *in_order = sorted(&all, true);
    PyObject *made = in_order ? PyList_New(0) : NULL;
    for (size_t i = 0; made && i < most; i++)
        if (!append(made, &in_order[i]) || !goes_on(i))
            Py_CLEAR(made);
    free(in_order);
    return made;
}

/* ---- whether they are equal ---------------------------------------------------------------- */

typedef struct comparing {
    const samvolip_entry *one, *other;
    bool is_equal;
} comparing;

static void compare(void *work, size_t from, size_t to)
{
    comparing *all = work;
    all->is_equal = all->is_equal && memcmp(all->one + from, all->other + from, (to - from) * sizeof *all->one) == 0;
}

/* 1 or 0, or -1 with an exception. */
static int equal_entries(const entries *one, PyObject *given)
{
    entries other;
    if (!entries_of(given, &other))
        return -1;
    if (one->count != other.count)
        return 0;
    samvolip_entry *first = sorted(one, false), *second = first ? sorted(&other, false) : NULL;
    comparing work = {first, second, true};
    bool is_well = second && in_parts(one->count, compare, &work);
    free(first);
    free(second);
    return is_well ? work.is_equal : -1;
}

/* What a dict has at a key, without its __missing__; NULL, with or without an exception. */
static PyObject *item_of(PyObject *dict, PyObject *key)
{
    PyObject *found;
#ifdef Py_GIL_DISABLED
    PyDict_GetItemRef(dict, key, &found);
#else
    found = PyDict_GetItemWithError(dict, key);
    Py_XINCREF(found);
#endif
    return found;
}

/* Whether what is found is a value; -1 with an exception. */
static int is_value(PyObject *found, uint64_t value)
{
    uint64_t number;
    if (PyLong_CheckExact(found))
        return read_number(found, a_value.most, &number) == READ && number == value;
    PyObject *made = PyLong_FromUnsignedLongLong(value);
    int is_it = made ? PyObject_RichCompareBool(found, made, Py_EQ) : -1;
    Py_XDECREF(made);
    return is_it;
}

/* Whether a dict has an entry; -1 with an exception. */
static int has_entry(PyObject *dict, const samvolip_entry *entry)
{
    PyObject *key = PyLong_FromUnsignedLongLong(entry->key), *found = key ? item_of(dict, key) : NULL;
    int is_there = found ? is_value(found, entry->number) : PyErr_Occurred() ? -1 : 0;
    Py_XDECREF(found);
    Py_XDECREF(key);
    return is_there;
}

static int equal_dict(const entries *all, PyObject *dict)
{
    int is_equal = (size_t)PyDict_Size(dict) == all->count;
    for (size_t i = 0; is_equal > 0 && i < all->count; i++) {
        is_equal = has_entry(dict, &all->at[i]);
        if (is_equal > 0 && !goes_on(i))
            is_equal = -1;
    }
    return is_equal;
}

PyObject *are_equal(PyObject *module, PyObject *const *args, Py_ssize_t count)
{
    entries all;
    (void)module;
    if (!takes("are_equal", count, 2, 2) || !entries_of(args[0], &all))
        return NULL;
    int is_equal = PyDict_Check(args[1]) ? equal_dict(&all, args[1]) : equal_entries(&all, args[1]);
    return is_equal < 0 ? NULL : PyBool_FromLong(is_equal);
}
