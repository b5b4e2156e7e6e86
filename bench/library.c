/* Measures the static library: `library FILE TIMES` reads FILE's metadata and preprocesses it, so many times, and prints the least
 * milliseconds of the processor of each call. Status 1: no room, or a fault of the text. */
#include "yettuvam.h"

#include <stdio.h>
#include <stdlib.h>
#include <time.h>

enum { MOST_FIELDS = 1 << 20, MOST_DEFINITIONS = 1024 };

static double milliseconds(void) {
    struct timespec now;
    clock_gettime(CLOCK_PROCESS_CPUTIME_ID, &now);
    return (double)now.tv_sec * 1e3 + (double)now.tv_nsec / 1e6;
}

/* A page with room for what a text of so many bytes becomes. */
static struct yettuvam_page page_for(size_t bytes) {
    struct yettuvam_page page = {malloc(4 * bytes + 65536), 4 * bytes + 65536, malloc(MOST_FIELDS * sizeof(struct yettuvam_field)), MOST_FIELDS, 0, 0};
    if (page.out == NULL || page.fields == NULL) exit(1);
    return page;
}

static struct yettuvam_source read_file(const char *path) {
    FILE *file = fopen(path, "rb");
    if (file == NULL || fseek(file, 0, SEEK_END) != 0) exit(1);
    size_t length = (size_t)ftell(file);
    char *text = malloc(length + 1);
    rewind(file);
    if (text == NULL || fread(text, 1, length, file) != length) exit(1);
    fclose(file);
    struct yettuvam_source source = {"text", 4, text, length};
    return source;
}

/* The cleaned text and the definitions that metadata tells. */
static size_t told(const struct yettuvam_page *page, struct yettuvam_source *cleaned, struct yettuvam_definition *definitions) {
    size_t count = 0;
    for (size_t i = 0; i < page->count; i++) {
        const struct yettuvam_field *field = &page->fields[i];
        const char *part = page->out + field->at;
        if (field->kind == YETTUVAM_TEXT) {
            cleaned->text = part;
            cleaned->text_len = field->len;
        } else if (field->kind >= YETTUVAM_BOOL && field->kind <= YETTUVAM_UINT && count < MOST_DEFINITIONS) {
            struct yettuvam_definition definition = {part, field->len, field->kind, field->value};
            definitions[count++] = definition;
        }
    }
    return count;
}

int main(int count, char **words) {
    if (count != 3) return 2;
    struct yettuvam_source source = read_file(words[1]);
    struct yettuvam_page metadata = page_for(source.text_len);
    struct yettuvam_page text = page_for(source.text_len);
    static struct yettuvam_definition definitions[MOST_DEFINITIONS];
    double least_metadata = 1e12, least_text = 1e12;
    for (int left = atoi(words[2]); left > 0; left--) {
        double start = milliseconds();
        if (yettuvam_metadata(&source, true, &metadata) != YETTUVAM_OK) return 1;
        double between = milliseconds();
        struct yettuvam_source cleaned = {"text", 4, NULL, 0};
        size_t defined = told(&metadata, &cleaned, definitions);
        double second = milliseconds();
        if (yettuvam_preprocess(&cleaned, definitions, defined, &text) != YETTUVAM_OK) return 1;
        double end = milliseconds();
        if (between - start < least_metadata) least_metadata = between - start;
        if (end - second < least_text) least_text = end - second;
    }
    printf("%.3f %.3f\n", least_metadata, least_text);
    return 0;
}
