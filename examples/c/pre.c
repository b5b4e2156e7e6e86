/* Tells a shader's text to a program in C:
 *     pre FILE [NAME=NUMBER..]   prints what FILE becomes under the definitions, overwritten by its own
 *     pre                        prints what a small shader tells of itself
 * Status 1: a fault of the text, told on standard error. */
#include "yettuvam.h"

#include <stdio.h>
#include <stdlib.h>
#include <string.h>

/* Room for `bytes` bytes and `count` fields. */
static bool make_room(struct yettuvam_page *page, size_t bytes, size_t count) {
    char *out = realloc(page->out, bytes + 1);
    if (out == NULL) return false;
    page->out = out;
    page->out_len = bytes;
    struct yettuvam_field *fields = realloc(page->fields, (count + 1) * sizeof *fields);
    if (fields == NULL) return false;
    page->fields = fields;
    page->fields_len = count;
    return true;
}

/* The metadata of a text, on a page that is as large as it has to be. */
static uint32_t read_metadata(const struct yettuvam_source *source, struct yettuvam_page *page) {
    if (!make_room(page, 1024, 16)) return YETTUVAM_NO_MEMORY;
    uint32_t status = yettuvam_metadata(source, true, page);
    if (status != YETTUVAM_NO_ROOM) return status;
    if (!make_room(page, page->bytes, page->count)) return YETTUVAM_NO_MEMORY;
    return yettuvam_metadata(source, true, page);
}

/* The same of a preprocessed text. */
static uint32_t preprocess(const struct yettuvam_source *source, const struct yettuvam_definition *definitions, size_t count, struct yettuvam_page *page) {
    if (!make_room(page, 1024, 16)) return YETTUVAM_NO_MEMORY;
    uint32_t status = yettuvam_preprocess(source, definitions, count, page);
    if (status != YETTUVAM_NO_ROOM) return status;
    if (!make_room(page, page->bytes, page->count)) return YETTUVAM_NO_MEMORY;
    return yettuvam_preprocess(source, definitions, count, page);
}

/* Whether a call told what was asked for; else says why on standard error. */
static bool is_told(uint32_t status, const struct yettuvam_page *page) {
    switch (status) {
    case YETTUVAM_OK: return true;
    case YETTUVAM_FAULTY: fwrite(page->out + page->fields[0].at, 1, page->fields[0].len, stderr); break;
    case YETTUVAM_NO_MEMORY: fputs("error: out of memory\n", stderr); break;
    case YETTUVAM_NOT_UTF8: fputs("error: not UTF-8\n", stderr); break;
    case YETTUVAM_BAD_DEFINITION: fprintf(stderr, "error: bad definition %zu\n", page->count); break;
    default: fprintf(stderr, "error: status %u\n", status);
    }
    return false;
}

/* Prints the fields of a page, a line for each. */
static void print_fields(const struct yettuvam_page *page) {
    static const char *names[] = {"", "text", "import", "item", "path", "bool", "int", "uint", "recorded", "directives", "fault", "fault of a line", "fault of the whole"};
    for (size_t i = 0; i < page->count; i++) {
        const struct yettuvam_field *field = &page->fields[i];
        printf("%s at %zu, value %lld: %.*s\n", names[field->kind], field->place, (long long)field->value, (int)field->len, page->out + field->at);
    }
}

static int print_small(void) {
    static const char text[] = "#define_import_path lake\n#import noise::{ripple, swell as wave}\n#define LAYERS 3\nheight = wave(#LAYERS, #SCALE)";
    struct yettuvam_source source = {"lake.wgsl", 9, text, sizeof text - 1};
    struct yettuvam_page page = {0};
    bool told = is_told(read_metadata(&source, &page), &page);
    if (told) print_fields(&page);
    /* Without `LAYERS` this is a fault. */
    source.text = "#if LAYERS > 2\n#endif";
    source.text_len = strlen(source.text);
    uint32_t status = preprocess(&source, (struct yettuvam_definition[1]){0}, 0, &page);
    if (status == YETTUVAM_FAULTY) print_fields(&page);
    free(page.out);
    free(page.fields);
    return told && status == YETTUVAM_FAULTY ? 0 : 1;
}

/* A file's bytes, or NULL. */
static char *read_file(const char *path, size_t *len) {
    FILE *file = fopen(path, "rb");
    if (file == NULL) return NULL;
    char *text = NULL;
    size_t room = 0, got = 0;
    do {
        room = 2 * room + 4096;
        char *more = realloc(text, room);
        if (more == NULL) break;
        text = more;
        got += fread(text + got, 1, room - got, file);
    } while (got == room);
    fclose(file);
    *len = got;
    return text;
}

/* The definitions among the words, and behind them those of the text itself. */
static size_t all_definitions(char **words, const struct yettuvam_page *page, struct yettuvam_definition *definitions) {
    size_t count = 0;
    for (char **word = words; *word != NULL; word++) {
        const char *equals = strchr(*word, '=');
        if (equals == NULL) continue;
        definitions[count++] = (struct yettuvam_definition){*word, (size_t)(equals - *word), YETTUVAM_UINT, atoll(equals + 1)};
    }
    for (size_t i = 0; i < page->count; i++) {
        const struct yettuvam_field *field = &page->fields[i];
        if (field->kind < YETTUVAM_BOOL || field->kind > YETTUVAM_UINT) continue;
        definitions[count++] = (struct yettuvam_definition){page->out + field->at, field->len, field->kind, field->value};
    }
    return count;
}

/* What the text becomes, which stands on the second page. */
static bool preprocess_as_told(struct yettuvam_source source, char **words, size_t words_len, struct yettuvam_page *metadata, struct yettuvam_page *output) {
    if (!is_told(read_metadata(&source, metadata), metadata)) return false;
    struct yettuvam_definition *definitions = malloc((words_len + metadata->count + 1) * sizeof *definitions);
    if (definitions == NULL) return is_told(YETTUVAM_NO_MEMORY, metadata);
    size_t count = all_definitions(words, metadata, definitions);
    /* The first field is the text without its directives. */
    source.text = metadata->out + metadata->fields[0].at;
    source.text_len = metadata->fields[0].len;
    bool told = is_told(preprocess(&source, definitions, count, output), output);
    free(definitions);
    return told;
}

int main(int argc, char **argv) {
    if (argc < 2) return print_small();
    struct yettuvam_source source = {argv[1], strlen(argv[1]), NULL, 0};
    char *text = read_file(argv[1], &source.text_len);
    if (text == NULL) {
        fprintf(stderr, "cannot read %s\n", argv[1]);
        return 2;
    }
    source.text = text;
    struct yettuvam_page metadata = {0}, output = {0};
    bool told = preprocess_as_told(source, argv + 2, (size_t)(argc - 2), &metadata, &output);
    if (told) fwrite(output.out + output.fields[0].at, 1, output.fields[0].len, stdout);
    free(text);
    free(metadata.out);
    free(metadata.fields);
    free(output.out);
    free(output.fields);
    return told ? 0 : 1;
}
