/* shared.c - the interpreter's lock, whole numbers that are given, and words, as shared.h has them. */
#include "shared.h"

/* ---- the interpreter's lock ---------------------------------------------------------------- */

/* Whether this thread has let go of it, in a call of a map. */
static _Thread_local bool has_let_go;

void *let_go(void)
{
    if (has_let_go)
        return NULL;
    has_let_go = true;
    return PyEval_SaveThread();
}

/* NULL: it was let go of before, and whoever did so takes it back. */
void take_back(void *state)
{
    if (!state)
        return;
    PyEval_RestoreThread(state);
    has_let_go = false;
}

bool breathe(void)
{
    take_back(let_go());
    return PyErr_CheckSignals() == 0;
}

bool in_parts(size_t count, part_of *some, void *work)
{
    enum { PART = 1 << 20 };
    for (size_t from = 0, to; from < count; from = to) {
        to = count - from > PART ? from + PART : count;
        void *state = count > FEW ? let_go() : NULL;
        some(work, from, to);
        take_back(state);
        if (PyErr_CheckSignals() < 0)
            return false;
    }
    return true;
}

/* ---- whole numbers ------------------------------------------------------------------------- */

enum reading read_index(PyObject *given, uint64_t most, uint64_t *number)
{
    PyObject *index = PyIndex_Check(given) ? PyNumber_Index(given) : NULL;
    if (!index)
        return PyErr_Occurred() ? RAISED : NO_NUMBER;
    enum reading how = read_number(index, most, number);
    Py_DECREF(index);
    return how;
}

static PyObject *name_of_type(PyObject *given) { return PyObject_GetAttrString((PyObject *)Py_TYPE(given), "__name__"); }

/* A number as people read it, or NULL without an exception: some are too long to be shown. */
static PyObject *shown(PyObject *given)
{
    PyObject *text = PyObject_Str(given);
    PyErr_Clear();
    return text;
}

bool refuse_number(enum reading how, PyObject *given, const kind *as)
{
    PyObject *name = how == NO_NUMBER ? name_of_type(given) : how == OUT_OF_RANGE ? shown(given) : NULL;
    if (name && how == NO_NUMBER)
        PyErr_Format(PyExc_TypeError, "%s is a whole number, not %S", as->one, name);
    else if (name)
        PyErr_Format(PyExc_OverflowError, "%s, not %S", as->range, name);
    else if (how == OUT_OF_RANGE)
        PyErr_SetString(PyExc_OverflowError, as->range);
    Py_XDECREF(name);
    return false;
}

/* The same of one of many. */
static bool refuse_element(enum reading how, PyObject *given, const kind *as, size_t place)
{
    PyObject *name = how == NO_NUMBER ? name_of_type(given) : how == OUT_OF_RANGE ? shown(given) : NULL;
    if (name && how == NO_NUMBER)
        PyErr_Format(PyExc_TypeError, "%s[%zu] is of type %S: %s is a whole number", as->many, place, name, as->one);
    else if (name)
        PyErr_Format(PyExc_OverflowError, "%s[%zu] is %S: %s", as->many, place, name, as->range);
    else if (how == OUT_OF_RANGE)
        PyErr_Format(PyExc_OverflowError, "%s[%zu] is too long to be shown: %s", as->many, place, as->range);
    Py_XDECREF(name);
    return false;
}

bool refuse_count(const char *name, Py_ssize_t count, Py_ssize_t least, Py_ssize_t most)
{
    if (least < most)
        PyErr_Format(PyExc_TypeError, "%s() takes %zd or %zd arguments, not %zd", name, least, most, count);
    else
        PyErr_Format(PyExc_TypeError, "%s() takes %zd arguments, not %zd", name, most, count);
    return false;
}

/* ---- words --------------------------------------------------------------------------------- */

bool all_words(PyObject *given, words *read)
{
    if (!PyByteArray_Check(given)) {
        PyErr_SetString(PyExc_TypeError, "words lie in a bytearray");
        return false;
    }
    *read = (words){(const uint64_t *)(const void *)PyByteArray_AsString(given), (size_t)PyByteArray_Size(given) / sizeof *read->at};
    return true;
}

/* A look for the first word past `most`. */
typedef struct look {
    words in;
    uint64_t most;
    size_t found; /* in.count if there is none */
} look;

static void look_on(void *work, size_t from, size_t to)
{
    look *all = work;
    for (size_t i = from; i < to && all->found == all->in.count; i++)
        if (all->in.at[i] > all->most)
            all->found = i;
}

static bool look_at_all(PyObject *given, uint64_t most, look *all)
{
    *all = (look){.most = most};
    if (!all_words(given, &all->in))
        return false;
    all->found = all->in.count;
    return in_parts(all->in.count, look_on, all);
}

bool words_of(PyObject *given, const kind *as, words *read)
{
    look all;
    if (!look_at_all(given, as->most, &all))
        return false;
    *read = all.in;
    if (all.found == all.in.count)
        return true;
    PyErr_Format(PyExc_OverflowError, "%s[%zu] is %llu: %s", as->many, all.found, (unsigned long long)all.in.at[all.found], as->range);
    return false;
}

/* The kind that an argument of the module's functions stands for. */
static const kind *kind_of(PyObject *given) { return PyObject_IsTrue(given) ? &a_value : &a_key; }

PyObject *check_signs(PyObject *module, PyObject *const *args, Py_ssize_t count)
{
    look all;
    (void)module;
    if (!takes("check_signs", count, 2, 2) || !look_at_all(args[0], INT64_MAX, &all))
        return NULL;
    if (all.found == all.in.count)
        Py_RETURN_NONE;
    const kind *as = kind_of(args[1]);
    PyErr_Format(PyExc_OverflowError, "%s[%zu] is %lld: %s", as->many, all.found, (long long)all.in.at[all.found], as->range);
    return NULL;
}

/* Reads what is left of an iterator to the end of a bytearray; false with an exception. */
static bool read_all(PyObject *iterator, const kind *as, PyObject *into)
{
    size_t count = 0, room = 0;
    bool is_well = true;
    for (PyObject *one; is_well && (one = PyIter_Next(iterator)); count++) {
        uint64_t number;
        if (count == room) {
            room += BREATH;
            is_well = PyByteArray_Resize(into, (Py_ssize_t)(room * sizeof number)) == 0;
        }
        enum reading how = read_number(one, as->most, &number);
        if (is_well && how == READ)
            ((uint64_t *)(void *)PyByteArray_AsString(into))[count] = number;
        is_well = is_well && (how == READ || refuse_element(how, one, as, count)) && goes_on(count);
        Py_DECREF(one);
    }
    return is_well && !PyErr_Occurred() && PyByteArray_Resize(into, (Py_ssize_t)(count * sizeof(uint64_t))) == 0;
}

PyObject *read_words(PyObject *module, PyObject *const *args, Py_ssize_t count)
{
    (void)module;
    PyObject *iterator = takes("read_words", count, 2, 2) ? PyObject_GetIter(args[0]) : NULL;
    PyObject *made = iterator ? PyByteArray_FromStringAndSize(NULL, 0) : NULL;
    if (made && !read_all(iterator, kind_of(args[1]), made))
        Py_CLEAR(made);
    Py_XDECREF(iterator);
    return made;
}

/* ---- refusals ------------------------------------------------------------------------------ */

const char *meaning(int code)
{
    switch (code) {
    case SAMVOLIP_E_OUT_OF_MEMORY: return "the map gets no memory: the system refuses it, or its option memory does";
    case SAMVOLIP_E_SUM_RANGE: return "the sum is past 2**60 - 1";
    default: return samvolip_map_strerror(code);
    }
}

PyObject *exception_of(int code)
{
    switch (code) {
    case SAMVOLIP_E_OUT_OF_MEMORY: return PyExc_MemoryError;
    case SAMVOLIP_E_SUM_RANGE: return PyExc_OverflowError;
    default: return PyExc_RuntimeError;
    }
}

PyObject *refuse(int code)
{
    PyErr_SetString(exception_of(code), meaning(code));
    return NULL;
}
