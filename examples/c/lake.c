/* The example of the README. */
#include "yettuvam.h"

#include <stdio.h>

static const char text[] = "#import noise::{ripple}\n#ifdef WAVES\nripple(#SCALE)\n#endif\n";
static char out[4096];
static struct yettuvam_field fields[64];

int main(void) {
    struct yettuvam_source source = {"lake.wgsl", 9, text, sizeof text - 1};
    struct yettuvam_definition definitions[] = {
        {"WAVES", 5, YETTUVAM_BOOL, true},
        {"SCALE", 5, YETTUVAM_UINT, 4},
    };
    struct yettuvam_page page = {out, sizeof out, fields, 64, 0, 0};
    uint32_t status = yettuvam_preprocess(&source, definitions, 2, &page);
    printf("status %u\n", status);
    for (size_t i = 0; i < page.count; i++)
        printf("%u at %zu: %.*s\n", fields[i].kind, fields[i].place, (int)fields[i].len, out + fields[i].at);
    return 0;
}
