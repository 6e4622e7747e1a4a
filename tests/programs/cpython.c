/* CPython: PyMem_SetAllocator for its three domains, so that its own allocator of small objects has nothing to do. */
#include <Python.h>

#include "harness.h"

const char program_name[] = "cpython";

const char *program_version(void) { return PY_VERSION; }

static const char script[] =
    "import re, json, collections, heapq\n"
    "class Node:\n"
    "    def __init__(self, value, below): self.value, self.below = value, below\n"
    "    def __eq__(self, other): return self.value == other.value\n"
    "said = []\n"
    "nodes = [Node(i, [str(i) * (i % 7)]) for i in range(12000)]\n"
    "said.append(sum(len(n.below[0]) for n in nodes))\n"
    "del nodes[::3]\n"
    "counts = collections.Counter(w for n in nodes for w in n.below)\n"
    "said.append(sorted(counts.items())[:9])\n"
    "text = json.dumps([{'id': i, 'name': 'n%d' % i, 'list': list(range(i % 9))} for i in range(1500)], indent=1)\n"
    "said.append((len(text), json.loads(text)[77], len(re.sub(r'(\\d+)', lambda m: m[1][::-1], text))))\n"
    "queue = []\n"
    "for i in range(4000): heapq.heappush(queue, (i * 7919 % 4001, str(i)))\n"
    "said.append([heapq.heappop(queue) for i in range(2000)][-3:])\n"
    "said.append((2 ** 3000 % 10 ** 40, bytes(range(256)).hex()[:20], 'x'.join(map(str, range(3000)))[-9:]))\n"
    "def squares(n):\n"
    "    try:\n"
    "        for i in range(n): yield i * i\n"
    "    finally: said.append('ended')\n"
    "said.append(sum(squares(3000)))\n"
    "cycles = []\n"
    "for i in range(3000): a = [i]; a.append(a); cycles.append(a)\n"
    "del cycles, a\n"
    "said.append({k: v for k, v in zip('abc' * 9, range(27))})\n"
    "answer = '\\n'.join(map(repr, said))\n";

static void *take(void *unused, size_t n) { return (void)unused, hook_malloc(n != 0 ? n : 1); }
static void *change(void *unused, void *p, size_t n) { return (void)unused, hook_realloc(p, n != 0 ? n : 1); }
static void give_back(void *unused, void *p) { (void)unused, hook_free(p); }

static void *zeros(void *unused, size_t count, size_t each) {
    (void)unused;
    return count != 0 && each != 0 ? hook_calloc(count, each) : hook_calloc(1, 1);
}

static bool begin(void) {
    PyMemAllocatorEx it = {NULL, take, zeros, change, give_back};
    static const PyMemAllocatorDomain domains[] = {PYMEM_DOMAIN_RAW, PYMEM_DOMAIN_MEM, PYMEM_DOMAIN_OBJ};
    PyConfig config;
    for (size_t k = 0; k < 3; k++) PyMem_SetAllocator(domains[k], &it);
    PyConfig_InitIsolatedConfig(&config);
    config.site_import = 0;
    config.use_hash_seed = 1;
    config.write_bytecode = 0;
    /* else it looks where this program lies */
    PyStatus status = PyConfig_SetString(&config, &config.program_name, L"/usr/bin/python3");
    if (!PyStatus_Exception(status)) status = Py_InitializeFromConfig(&config);
    PyConfig_Clear(&config);
    return !PyStatus_Exception(status);
}

static bool work(void) {
    PyObject *globals = PyDict_New(), *done = NULL;
    const char *answer = NULL;
    if (globals != NULL && PyDict_SetItemString(globals, "__builtins__", PyEval_GetBuiltins()) == 0 &&
        PyDict_SetItemString(globals, "__name__", Py_None) == 0)
        done = PyRun_String(script, Py_file_input, globals, globals);
    PyObject *said = done != NULL ? PyDict_GetItemString(globals, "answer") : NULL;
    if (said != NULL) answer = PyUnicode_AsUTF8(said);
    if (answer != NULL) say_bytes(answer, strlen(answer));
    PyErr_Clear();
    Py_XDECREF(done);
    Py_XDECREF(globals);
    return answer != NULL;
}

bool program_work(const char *file) {
    (void)file;
    if (!begin()) return false;
    const bool all = work();
    return Py_FinalizeEx() == 0 && all;
}
