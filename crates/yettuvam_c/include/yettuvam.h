/* Shader composition: builds one WGSL shader of a file and modules, preprocesses a shader's text under definitions, and reads its
 * metadata.
 *
 * All memory is the caller's. A call reads its arguments and writes its result on the caller's page, so there is nothing to free,
 * and nothing is kept between calls. Calls from several threads are independent.
 * A call never aborts, whatever its arguments are. Out of memory is a status.
 *
 * Requirements: each pointer points to as many items as the length beside it says (a pointer is not null even where the
 * length is 0, as `data()` of an empty vector in C++ may be); a `bool` is true or false; while a call runs nothing else
 * writes what it reads, nor touches its page; the program's `malloc`, `realloc` and `free` come from one allocator.
 *
 * A call returns a number of `yettuvam_status`, and a field's `kind` is a number of `yettuvam_kind`: both are of 32 bits,
 * which an enum in C need not be. C99 and C++11, and later. */
#ifndef YETTUVAM_H
#define YETTUVAM_H

#include <stdbool.h>
#include <stddef.h>
#include <stdint.h>

#ifdef __cplusplus
extern "C" {
#endif

/* The status of a call. Only the first two write to the page's `out` and `fields`. */
enum yettuvam_status {
    /* The result is on the page. */
    YETTUVAM_OK = 0,
    /* A text has an error: the page has one field, the error's report. */
    YETTUVAM_FAULTY = 1,
    /* Out of memory. The call has freed what it allocated. */
    YETTUVAM_NO_MEMORY = 2,
    /* A path, a text, the name of a definition or of an import isn't UTF-8. */
    YETTUVAM_NOT_UTF8 = 3,
    /* A definition has an unknown kind, or a value that its kind can't hold: `count` is the index of the first such one. */
    YETTUVAM_BAD_DEFINITION = 4,
    /* The page lacks room: `bytes` and `count` are the room that the result needs. */
    YETTUVAM_NO_ROOM = 5
};

/* The kind of a field. A field without a place or a value has 0 there. */
enum yettuvam_kind {
    /* The text: built, preprocessed, or for metadata the text with an empty line in place of each directive. */
    YETTUVAM_TEXT = 1,
    /* The name of an imported module, with the place of its first use. The items that are used of the module follow. */
    YETTUVAM_IMPORT = 2,
    YETTUVAM_ITEM = 3,
    /* The import path that the text defines. */
    YETTUVAM_PATH = 4,
    /* A definition: its name and its value. True is 1. */
    YETTUVAM_BOOL = 5,
    YETTUVAM_INT = 6,
    YETTUVAM_UINT = 7,
    /* A name on which the preprocessed text may depend. Definitions that agree on these names give the same text. */
    YETTUVAM_RECORDED = 8,
    /* The directives of the text, as they are written at the start of a shader. */
    YETTUVAM_DIRECTIVES = 9,
    /* The report of an error: its message, a line with its place, and notes. `place` is in bytes. */
    YETTUVAM_FAULT = 10,
    /* The report of an error whose `place` is the index of a line, from 0. */
    YETTUVAM_FAULT_LINE = 11,
    /* The report of an error without a place. */
    YETTUVAM_FAULT_WHOLE = 12
};

/* A text in UTF-8, and the path by which reports name it. */
struct yettuvam_source {
    const char *path;
    size_t path_len;
    const char *text;
    size_t text_len;
};

/* A name with its value, of kind YETTUVAM_BOOL (0 is false), YETTUVAM_INT (an int32_t) or YETTUVAM_UINT (a uint32_t). */
struct yettuvam_definition {
    const char *name;
    size_t name_len;
    uint32_t kind;
    int64_t value;
};

/* The name of a module, its import path. */
struct yettuvam_name {
    const char *text;
    size_t text_len;
};

/* A shader to build: its file; files of modules, in any order; definitions, of which the last with a name counts; modules that the
 * shader imports besides those of its text; and whether any imported function can be overridden, and not only virtual ones.
 * Whether or not the shader reaches it, a module defines an import path of its own, imports modules that are there, has no
 * `#define` and no decorated name, and takes numbers of `@binding(auto)`. Other errors are reported in modules that it reaches. */
struct yettuvam_task {
    struct yettuvam_source shader;
    const struct yettuvam_source *modules;
    size_t modules_len;
    const struct yettuvam_definition *definitions;
    size_t definitions_len;
    const struct yettuvam_name *imports;
    size_t imports_len;
    bool override_any;
};

/* A field of a result: the `len` bytes of the page's `out` from `at`, in UTF-8, without a 0 at the end. */
struct yettuvam_field {
    uint32_t kind;
    size_t at;
    size_t len;
    size_t place;
    int64_t value;
};

/* The memory for a result. A call sets `bytes` and `count`, to 0 without a result, and writes the first `bytes` of `out` and the
 * first `count` of `fields`. */
struct yettuvam_page {
    char *out;
    size_t out_len;
    struct yettuvam_field *fields;
    size_t fields_len;
    size_t bytes;
    size_t count;
};

/* Preprocesses the text under the definitions, of which the last with a name counts. Lines of conditions, of directives and of
 * arms that aren't taken become spaces, `#NAME` becomes its value, and an identifier that an import declares becomes the name of
 * the item in its module. Each line keeps its place. Fields: the text, then each import with its items, in order of first use. */
uint32_t yettuvam_preprocess(const struct yettuvam_source *source, const struct yettuvam_definition *definitions, size_t definitions_len, struct yettuvam_page *page);

/* Reads the text's metadata, whichever arms are taken. Fields: the text without its directives, its import path if it defines one,
 * each import with its items, its definitions by `#define` (an error where these aren't allowed) and the names that it records,
 * both in byte order, and its directives. */
uint32_t yettuvam_metadata(const struct yettuvam_source *source, bool allow_defines, struct yettuvam_page *page);

/* Builds the shader of a task over its modules: the WGSL that `yettuvam build` prints for the same files. Fields: the text. The
 * report of an error has no place of its own: it names the file, the line and the column. */
uint32_t yettuvam_build(const struct yettuvam_task *task, struct yettuvam_page *page);

#ifdef __cplusplus
}
#endif

#endif
