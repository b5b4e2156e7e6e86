/* Does each call while one allocation after another is refused, alone and with all behind it. Each answer has to be the one with
 * ample memory, or YETTUVAM_NO_MEMORY with an empty page, and behind each call everything is free again. Linked with
 * `-Wl,--wrap=malloc,--wrap=realloc,--wrap=free`. */
#include "yettuvam.h"

#include <stdio.h>
#include <stdlib.h>
#include <string.h>

void *__real_malloc(size_t size);
void *__real_realloc(void *old, size_t size);
void __real_free(void *old);
void *__wrap_malloc(size_t size);
void *__wrap_realloc(void *old, size_t size);
void __wrap_free(void *old);

/* How many are held, how many were asked for, and which one is refused, from 1; with `rest` those behind it too. */
static long held, asked, refused;
static bool rest;

static bool is_refused(void) {
    asked++;
    return refused != 0 && (asked == refused || (rest && asked > refused));
}

void *__wrap_malloc(size_t size) {
    void *made = is_refused() ? NULL : __real_malloc(size);
    held += made != NULL;
    return made;
}

void *__wrap_realloc(void *old, size_t size) {
    void *made = is_refused() ? NULL : __real_realloc(old, size);
    held += made != NULL && old == NULL;
    return made;
}

void __wrap_free(void *old) {
    held -= old != NULL;
    __real_free(old);
}

static const char text[] =
    "enable f16;\n#define_import_path lake\n#import noise::{ripple, swell as wave}\n#define LAYERS 3\n"
    "#if LAYERS > 2\nripple(#SCALE) + wave(1) /* far */\n#endif\n";

static const char shader[] = "#import lake::ripple\n@fragment\nfn main() -> @location(0) vec4f {\n    return vec4f(ripple(f32(#{SCALE})));\n}\n";
static const char module[] = "#define_import_path lake\nconst BASE = 3.0;\nfn ripple(at: f32) -> f32 { return at + BASE; }\n";

static char out[2000];
static struct yettuvam_field fields[40];

static uint32_t call(int which, struct yettuvam_page *page) {
    struct yettuvam_source source = {"lake.wgsl", 9, text, sizeof text - 1};
    struct yettuvam_definition definitions[] = {{"LAYERS", 6, YETTUVAM_UINT, 3}, {"SCALE", 5, YETTUVAM_INT, -4}};
    memset(out, 0, sizeof out);
    *page = (struct yettuvam_page){out, sizeof out, fields, 40, 7, 7};
    asked = 0;
    /* Without LAYERS there is a fault. */
    switch (which) {
    case 0: return yettuvam_preprocess(&source, definitions, 2, page);
    case 1: return yettuvam_preprocess(&source, definitions + 1, 1, page);
    case 2: return yettuvam_metadata(&source, true, page);
    default: break;
    }
    /* Without the module there is a fault. */
    struct yettuvam_source lake = {"lake.wgsl", 9, module, sizeof module - 1};
    struct yettuvam_task task = {{"main.wgsl", 9, shader, sizeof shader - 1}, &lake, which == 3, definitions, 2, NULL, 0, false};
    static const struct yettuvam_name none[1];
    task.imports = none;
    return yettuvam_build(&task, page);
}

int main(void) {
    static char ample[2000];
    long runs = 0;
    for (int which = 0; which < 5; which++) {
        struct yettuvam_page page;
        refused = 0;
        uint32_t want = call(which, &page);
        size_t bytes = page.bytes, count = page.count;
        long all = asked;
        memcpy(ample, out, sizeof out);
        for (int behind = 0; behind < 2; behind++) {
            rest = behind == 1;
            for (refused = 1; refused <= all; refused++, runs++) {
                uint32_t got = call(which, &page);
                bool is_empty = got == YETTUVAM_NO_MEMORY && page.bytes == 0 && page.count == 0;
                bool is_same = got == want && page.bytes == bytes && page.count == count && memcmp(out, ample, sizeof out) == 0;
                if ((is_empty || is_same) && held == 0) continue;
                printf("call %d, allocation %ld refused: status %u, %ld held\n", which, refused, got, held);
                return 1;
            }
        }
        printf("call %d: status %u, %zu bytes, %zu fields\n", which, want, bytes, count);
    }
    return runs > 30 ? 0 : 1;
}
