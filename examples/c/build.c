/* Builds a shader in WGSL of files:
 *     build TOP [MODULE..] [NAME=NUMBER..] [+MODULE..]   prints the shader, with the modules after `+` besides those of its text
 * Status 1: an error in a text, reported on standard error, or one of the call; 2: a file can't be read. */
#include "yettuvam.h"

#include <stdio.h>
#include <stdlib.h>
#include <string.h>

enum { MOST = 64 };

static struct yettuvam_source files[MOST];
static struct yettuvam_definition definitions[MOST];
static struct yettuvam_name imports[MOST];
static size_t file_count, definition_count, import_count;

/* Reads a file whole. */
static bool read_source(const char *path, struct yettuvam_source *source) {
    FILE *file = fopen(path, "rb");
    if (file == NULL || fseek(file, 0, SEEK_END) != 0) return false;
    long size = ftell(file);
    char *text = size < 0 ? NULL : malloc((size_t)size + 1);
    rewind(file);
    if (text == NULL || fread(text, 1, (size_t)size, file) != (size_t)size) return false;
    fclose(file);
    *source = (struct yettuvam_source){path, strlen(path), text, (size_t)size};
    return true;
}

/* Takes a word of the command line. */
static bool take(const char *word) {
    const char *value = strchr(word, '=');
    if (word[0] == '+')
        imports[import_count++] = (struct yettuvam_name){word + 1, strlen(word + 1)};
    else if (value != NULL)
        definitions[definition_count++] = (struct yettuvam_definition){word, (size_t)(value - word), YETTUVAM_INT, atoll(value + 1)};
    else
        return read_source(word, &files[file_count++]);
    return true;
}

/* Builds on a page that is as large as it has to be. */
static uint32_t build(const struct yettuvam_task *task, struct yettuvam_page *page) {
    uint32_t status = yettuvam_build(task, page);
    if (status != YETTUVAM_NO_ROOM) return status;
    page->out_len = page->bytes;
    page->out = malloc(page->bytes);
    return page->out == NULL ? YETTUVAM_NO_MEMORY : yettuvam_build(task, page);
}

int main(int count, char **words) {
    for (int i = 1; i < count && i < MOST; i++)
        if (!take(words[i])) {
            fprintf(stderr, "cannot read %s\n", words[i]);
            return 2;
        }
    static char out[4096];
    static struct yettuvam_field field[1];
    struct yettuvam_page page = {out, sizeof out, field, 1, 0, 0};
    struct yettuvam_task task = {files[0], files + 1, file_count - 1, definitions, definition_count, imports, import_count, false};
    if (file_count == 0) return 2;
    uint32_t status = build(&task, &page);
    if (status > YETTUVAM_FAULTY) {
        fprintf(stderr, "error: status %u\n", status);
        return 1;
    }
    fwrite(page.out + field[0].at, 1, field[0].len, status == YETTUVAM_OK ? stdout : stderr);
    return (int)status;
}
