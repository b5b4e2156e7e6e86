/* Makes random calls from four threads, and looks at what a call may do to a program: `random [CALLS] [SEED]`, 20,000 calls without a
 * word. Texts are random bytes, random pieces of the language, and whole texts with a few bytes changed; definitions have random
 * kinds and values; pages are as small as nothing; and in one of eight calls an allocation is refused.
 *
 * Whatever a call may read or write ends at a page of memory that nothing may touch, so an access beyond the end stops the
 * program. Each result that lacks room has to fit into the room that the call names. A refused call has to leave the page alone.
 * At the end everything that was allocated has to be free.
 *
 * Compiled with `-fsanitize=address -pthread` and linked with `-Wl,--wrap=malloc,--wrap=realloc,--wrap=free`. The library itself
 * has no instruments of the sanitizer, but its allocations are the sanitizer's. Status 1: something isn't as it has to be. */
#define _GNU_SOURCE
#include "yettuvam.h"

#include <pthread.h>
#include <stdatomic.h>
#include <stdio.h>
#include <stdlib.h>
#include <string.h>
#include <sys/mman.h>

void *__real_malloc(size_t size);
void *__real_realloc(void *old, size_t size);
void __real_free(void *old);
void *__wrap_malloc(size_t size);
void *__wrap_realloc(void *old, size_t size);
void __wrap_free(void *old);

enum { THREADS = 4, MEMORY_PAGE = 4096, MOST_MODULES = 4, MOST_DEFINITIONS = 6, MOST_IMPORTS = 3, MOST_TEXT = 2 * MEMORY_PAGE };
/* The most room of a page: what these texts become fits into less. */
enum { MOST_OUT = 4 * MEMORY_PAGE, MOST_FIELDS = MEMORY_PAGE / sizeof(struct yettuvam_field) };
enum { STATUSES = YETTUVAM_NO_ROOM + 1 };

/* ---- Allocations */

static atomic_long held;

/* The number of allocations until one is refused; below 0 none is. */
static _Thread_local long until_refused = -1;

static bool is_refused(void) {
    return until_refused >= 0 && until_refused-- == 0;
}

void *__wrap_malloc(size_t size) {
    void *made = is_refused() ? NULL : __real_malloc(size);
    if (made != NULL) held++;
    return made;
}

void *__wrap_realloc(void *old, size_t size) {
    void *made = is_refused() ? NULL : __real_realloc(old, size);
    if (made != NULL && old == NULL) held++;
    return made;
}

void __wrap_free(void *old) {
    if (old != NULL) held--;
    __real_free(old);
}

/* ---- Random values */

struct thread {
    pthread_t id;
    uint64_t state;
    long calls;
    long statuses[STATUSES];
    long refusals;
    const char *wrong;
    /* The ends of blocks of memory, each before a page that nothing may touch. */
    char *text_ends[1 + MOST_MODULES];
    char *name_ends[1 + MOST_MODULES + MOST_DEFINITIONS + MOST_IMPORTS];
    char *out_end, *fields_end, *list_ends[3];
};

static uint64_t next(struct thread *thread) {
    uint64_t state = thread->state;
    state ^= state << 13;
    state ^= state >> 7;
    state ^= state << 17;
    thread->state = state;
    return state * 2685821657736338717u;
}

/* A number below a limit. */
static size_t below(struct thread *thread, size_t limit) {
    return (size_t)((next(thread) >> 20) % limit);
}

static const char *const pieces[] = {
    "#define_import_path ", "#import ", "#if ", "#ifdef ", "#ifndef ", "#else", "#else if ", "#else ifdef ", "#endif", "#define ", "#{", "}", "#", "::", " as ",
    "{", "(", ")", ";", ",", ":", " ", "\n", "\n", "\r\n", "\t", "\"", "//", "/*", "*/", "@", "@fragment ", "@binding(auto) ", "@group(0) ", "->", "=", "==", "<=", ">",
    "fn ", "virtual fn ", "override fn ", "struct ", "const ", "var<uniform> ", "let ", "var ", "return ", "if ", "for ", "loop ", "switch ", "enable ", "requires ",
    "diagnostic(off, x)", "f16", "f32", "i32", "u32", "vec4f", "array<f32, 3>", "mat4x4f", "texture_2d<f32>", "sampler", "main", "a", "b", "c", "a::f", "b::f", "c::g", "f", "g", "A", "B",
    "SCALE", "1", "2u", "-3", "4.5", "0x10", "true", "false", "+", "*", "&&", "|", "X_naga_oil_mod_X", "ME", "\xc3\xa4", "\xf0\x9f\x8c\x8a", "\xef\xbb\xbf", "\xff", "\0x"};

static const char *const wholes[] = {
    "#import a::f\n#import b as n\n@fragment\nfn main() -> @location(0) vec4f {\n    return vec4f(f(f32(#{SCALE})) + n::g(2.0));\n}\n",
    "#define_import_path a\n#import b::{g, K as k}\nstruct A { x: f32, y: array<vec4f, 3> }\nvirtual fn f(x: f32) -> f32 {\n    var sum = x;\n    for (var i = 0; i < 3; i++) { if i > 1 { sum += g(k); } }\n    return sum;\n}\n",
    "#define_import_path b\nconst K: f32 = 3.0;\n@group(0) @binding(auto) var<uniform> b: vec4f;\n#ifdef A\nfn g(x: f32) -> f32 { return x + b.x; }\n#else\nfn g(x: f32) -> f32 { return x * K; }\n#endif\n",
    "#define_import_path c\n#import a\noverride fn a::f(x: f32) -> f32 { return a::f(x) * 0.5; }\n",
    "enable f16;\n#define A 3\n#if A > 2\n#import a\na::f(#A) /* far */ + \"text\"\n#else if B == true\n#{B}\n#endif\n"};

static const char *const names[] = {"", "a", "b", "c", "A", "B", "SCALE", "a.wgsl", "\xc3\xa4", "A B", "a::f"};

#define COUNT(list) (sizeof(list) / sizeof(list)[0])

/* Puts bytes so that they end at an end of memory. */
static char *put(char *end, const char *bytes, size_t len) {
    memcpy(end - len, bytes, len);
    return end - len;
}

/* A text, and its length. */
static char *random_text(struct thread *thread, char *end, size_t *len) {
    static _Thread_local char text[MOST_TEXT];
    size_t at = 0;
    switch (below(thread, 16)) {
    case 0:
        for (size_t left = below(thread, 64); left > 0; left--) text[at++] = (char)next(thread);
        break;
    case 1:
        for (size_t left = below(thread, 64); left > 0; left--) text[at++] = (char)(next(thread) & 0x7f);
        break;
    case 2:
    case 3:
    case 4:
        for (size_t left = below(thread, 60); left > 0; left--) {
            const char *piece = pieces[below(thread, COUNT(pieces))];
            size_t piece_len = piece[0] == '\0' ? 1 : strlen(piece);
            memcpy(text + at, piece, piece_len);
            at += piece_len;
        }
        break;
    default: {
        const char *whole = wholes[below(thread, COUNT(wholes))];
        at = strlen(whole);
        memcpy(text, whole, at);
        if (below(thread, 3) == 0) at = below(thread, at + 1);
        for (size_t left = below(thread, 3) == 0 ? below(thread, 4) : 0; left > 0 && at > 0; left--) {
            const char *piece = pieces[below(thread, COUNT(pieces))];
            text[below(thread, at)] = piece[0];
        }
    }
    }
    *len = at;
    return put(end, text, at);
}

static char *random_name(struct thread *thread, char *end, size_t *len) {
    const char *name = below(thread, 100) == 0 ? "\xff" : names[below(thread, COUNT(names))];
    *len = strlen(name);
    return put(end, name, *len);
}

static struct yettuvam_source random_source(struct thread *thread, size_t index) {
    struct yettuvam_source source;
    source.path = random_name(thread, thread->name_ends[index], &source.path_len);
    source.text = random_text(thread, thread->text_ends[index], &source.text_len);
    return source;
}

static int64_t random_value(struct thread *thread, uint32_t kind) {
    if (below(thread, 40) == 0) return (int64_t)next(thread);
    int64_t value = (int64_t)below(thread, 5);
    return kind == YETTUVAM_BOOL ? value & 1 : kind == YETTUVAM_INT ? value - 2 : value;
}

/* Most definitions have a known kind. */
static struct yettuvam_definition random_definition(struct thread *thread, size_t index) {
    struct yettuvam_definition definition;
    memset(&definition, 0, sizeof definition);
    definition.name = random_name(thread, thread->name_ends[1 + MOST_MODULES + index], &definition.name_len);
    definition.kind = below(thread, 40) == 0 ? (uint32_t)next(thread) : (uint32_t)(YETTUVAM_BOOL + below(thread, 3));
    definition.value = random_value(thread, definition.kind);
    return definition;
}

/* ---- Calls */

struct call {
    size_t which;
    bool allows_defines;
    struct yettuvam_task task;
};

static struct call random_call(struct thread *thread) {
    struct call call;
    memset(&call, 0, sizeof call);
    call.which = below(thread, 4);
    call.allows_defines = below(thread, 2) == 0;
    struct yettuvam_task *task = &call.task;
    task->shader = random_source(thread, 0);
    task->modules_len = below(thread, MOST_MODULES + 1);
    task->definitions_len = below(thread, MOST_DEFINITIONS + 1);
    task->imports_len = below(thread, MOST_IMPORTS + 1);
    struct yettuvam_source *modules = (struct yettuvam_source *)(void *)thread->list_ends[0] - task->modules_len;
    struct yettuvam_definition *definitions = (struct yettuvam_definition *)(void *)thread->list_ends[1] - task->definitions_len;
    struct yettuvam_name *imports = (struct yettuvam_name *)(void *)thread->list_ends[2] - task->imports_len;
    for (size_t i = 0; i < task->modules_len; i++) modules[i] = random_source(thread, 1 + i);
    for (size_t i = 0; i < task->definitions_len; i++) definitions[i] = random_definition(thread, i);
    for (size_t i = 0; i < task->imports_len; i++)
        imports[i].text = random_name(thread, thread->name_ends[1 + MOST_MODULES + MOST_DEFINITIONS + i], &imports[i].text_len);
    task->modules = modules;
    task->definitions = definitions;
    task->imports = imports;
    task->override_any = below(thread, 2) == 0;
    return call;
}

static uint32_t run(const struct call *call, struct yettuvam_page *page) {
    const struct yettuvam_task *task = &call->task;
    switch (call->which) {
    case 0: return yettuvam_preprocess(&task->shader, task->definitions, task->definitions_len, page);
    case 1: return yettuvam_metadata(&task->shader, call->allows_defines, page);
    default: return yettuvam_build(task, page);
    }
}

/* A page of this room, filled with a byte, whose end is the end of memory. */
static struct yettuvam_page page_with(struct thread *thread, size_t out_len, size_t fields_len) {
    struct yettuvam_page page;
    page.out = thread->out_end - out_len;
    page.out_len = out_len;
    page.fields = (struct yettuvam_field *)(void *)thread->fields_end - fields_len;
    page.fields_len = fields_len;
    page.bytes = page.count = (size_t)next(thread);
    memset(page.out, 0xa5, out_len);
    memset((void *)page.fields, 0xa5, fields_len * sizeof page.fields[0]);
    return page;
}

static bool is_filled(const void *bytes, size_t len) {
    for (size_t i = 0; i < len; i++)
        if (((const unsigned char *)bytes)[i] != 0xa5) return false;
    return true;
}

/* What is wrong with a page after a call with this status, or NULL. */
static const char *wrong_page(uint32_t status, const struct yettuvam_page *page) {
    bool is_written = status <= YETTUVAM_FAULTY;
    size_t bytes = is_written ? page->bytes : 0, count = is_written ? page->count : 0;
    if (status >= STATUSES) return "an unknown status";
    if (bytes > page->out_len || count > page->fields_len) return "more is written than there is room";
    if (!is_filled(page->out + bytes, page->out_len - bytes)) return "bytes after the result are changed";
    if (!is_filled(page->fields + count, (page->fields_len - count) * sizeof page->fields[0])) return "fields after the result are changed";
    if (status == YETTUVAM_FAULTY && (count != 1 || page->fields[0].kind < YETTUVAM_FAULT)) return "an error without its report";
    if (status == YETTUVAM_OK && (count == 0 || page->fields[0].kind != YETTUVAM_TEXT)) return "a result without a text";
    if (status == YETTUVAM_NO_ROOM && page->bytes <= page->out_len && page->count <= page->fields_len) return "no room where there is room";
    if ((status == YETTUVAM_NO_MEMORY || status == YETTUVAM_NOT_UTF8) && (page->bytes != 0 || page->count != 0)) return "counts of no result";
    for (size_t i = 0; i < count; i++)
        if (page->fields[i].at > bytes || page->fields[i].len > bytes - page->fields[i].at) return "a field beyond the result";
    return NULL;
}

/* Makes a random call on a random page, and again on a page with the room that it names. */
static const char *call_once(struct thread *thread) {
    struct call call = random_call(thread);
    size_t out_len = below(thread, 3) == 0 ? below(thread, 200) : MOST_OUT;
    size_t fields_len = below(thread, 3) == 0 ? below(thread, 4) : MOST_FIELDS;
    struct yettuvam_page page = page_with(thread, out_len, fields_len);
    bool refuses = below(thread, 8) == 0;
    until_refused = refuses ? (long)below(thread, 100) : -1;
    uint32_t status = run(&call, &page);
    bool was_refused = refuses && until_refused < 0;
    until_refused = -1;
    const char *wrong = wrong_page(status, &page);
    if (wrong != NULL) return wrong;
    thread->statuses[status]++;
    thread->refusals += was_refused;
    if (status == YETTUVAM_NO_MEMORY) return was_refused ? NULL : "out of memory, though none was refused";
    if (status == YETTUVAM_BAD_DEFINITION && page.count >= call.task.definitions_len) return "a bad definition that isn't there";
    if (status != YETTUVAM_NO_ROOM || page.bytes > MOST_OUT || page.count > MOST_FIELDS) return NULL;
    size_t bytes = page.bytes, count = page.count;
    page = page_with(thread, bytes, count);
    status = run(&call, &page);
    wrong = wrong_page(status, &page);
    if (wrong != NULL) return wrong;
    return status <= YETTUVAM_FAULTY && page.bytes == bytes && page.count == count ? NULL : "the room that was named isn't the result's";
}

static void *run_thread(void *argument) {
    struct thread *thread = argument;
    for (long i = 0; i < thread->calls && thread->wrong == NULL; i++) thread->wrong = call_once(thread);
    return NULL;
}

/* ---- Memory whose end nothing may pass */

static char *end_of_memory(size_t len) {
    char *start = mmap(NULL, len + MEMORY_PAGE, PROT_READ | PROT_WRITE, MAP_PRIVATE | MAP_ANONYMOUS, -1, 0);
    if (start == MAP_FAILED || mprotect(start + len, MEMORY_PAGE, PROT_NONE) != 0) abort();
    return start + len;
}

static void take_memory(struct thread *thread) {
    for (size_t i = 0; i < COUNT(thread->text_ends); i++) thread->text_ends[i] = end_of_memory(MOST_TEXT);
    for (size_t i = 0; i < COUNT(thread->name_ends); i++) thread->name_ends[i] = end_of_memory(MEMORY_PAGE);
    for (size_t i = 0; i < COUNT(thread->list_ends); i++) thread->list_ends[i] = end_of_memory(MEMORY_PAGE);
    thread->out_end = end_of_memory(MOST_OUT);
    thread->fields_end = end_of_memory(MEMORY_PAGE);
}

int main(int count, char **words) {
    static struct thread threads[THREADS];
    static const char *const status_names[STATUSES] = {"ok", "faulty", "no memory", "not UTF-8", "bad definition", "no room"};
    long calls = count > 1 ? atol(words[1]) : 20000;
    uint64_t seed = count > 2 ? (uint64_t)atoll(words[2]) : 1;
    long statuses[STATUSES] = {0}, refusals = 0;
    bool failed = false;
    long held_before = held;
    for (int i = 0; i < THREADS; i++) {
        threads[i].state = (seed * THREADS + (uint64_t)i) * 0x9e3779b97f4a7c15u + 1;
        threads[i].calls = calls / THREADS;
        take_memory(&threads[i]);
    }
    for (int i = 0; i < THREADS; i++)
        if (pthread_create(&threads[i].id, NULL, run_thread, &threads[i]) != 0) return 2;
    for (int i = 0; i < THREADS; i++) {
        pthread_join(threads[i].id, NULL);
        for (int status = 0; status < STATUSES; status++) statuses[status] += threads[i].statuses[status];
        refusals += threads[i].refusals;
        if (threads[i].wrong == NULL) continue;
        printf("thread %d: %s\n", i, threads[i].wrong);
        failed = true;
    }
    long left = held - held_before;
    if (left != 0) printf("%ld allocations are held at the end\n", left);
    printf("%ld calls, %ld refused allocations:", calls / THREADS * THREADS, refusals);
    for (int status = 0; status < STATUSES; status++) {
        printf("%s %ld %s", status == 0 ? "" : ",", statuses[status], status_names[status]);
        if (calls >= 10000 && statuses[status] == 0) failed = true;
    }
    printf("\n");
    return failed || left != 0;
}
