/* Measures what a call of the library takes besides the composer's own time: `call TIMES SHADER [MODULE..] [NAME=NUMBER..]` builds
 * the shader of the first file and prints microseconds of the processor, the least of the runs:
 * - of the whole call;
 * - of the same call with an import whose name isn't UTF-8. It reads, tests and copies all that the task names, and returns before
 *   it builds anything;
 * - of two copies of the result, which a call makes after the build, one of them to the page.
 * The last two together are what the call takes besides the composer. Status 1: the shader has an error, or a file can't be read. */
#include "yettuvam.h"

#include <stdio.h>
#include <stdlib.h>
#include <string.h>
#include <time.h>

enum { MOST_WORDS = 64, MOST_OUT = 1 << 20 };

static double microseconds(void) {
    struct timespec now;
    clock_gettime(CLOCK_THREAD_CPUTIME_ID, &now);
    return (double)now.tv_sec * 1e6 + (double)now.tv_nsec / 1e3;
}

static struct yettuvam_source read_source(const char *path) {
    FILE *file = fopen(path, "rb");
    if (file == NULL || fseek(file, 0, SEEK_END) != 0) exit(1);
    size_t length = (size_t)ftell(file);
    char *text = malloc(length + 1);
    rewind(file);
    if (text == NULL || fread(text, 1, length, file) != length) exit(1);
    fclose(file);
    struct yettuvam_source source = {path, strlen(path), text, length};
    return source;
}

static char out[MOST_OUT], copy[MOST_OUT];
static struct yettuvam_field field[1];

/* The least time of a call with a status. */
static double least_time(long times, const struct yettuvam_task *task, uint32_t wanted, size_t *bytes) {
    double least = 1e12;
    for (long left = times; left > 0; left--) {
        struct yettuvam_page page = {out, sizeof out, field, 1, 0, 0};
        double start = microseconds();
        uint32_t status = yettuvam_build(task, &page);
        double taken = microseconds() - start;
        if (status != wanted) {
            fprintf(stderr, "status %u: %.*s\n", status, (int)page.bytes, out);
            exit(1);
        }
        if (taken < least) least = taken;
        *bytes = page.bytes;
    }
    return least;
}

/* The least time of two copies. */
static double least_copies(long times, size_t bytes) {
    double least = 1e12;
    for (long left = times; left > 0; left--) {
        double start = microseconds();
        memcpy(copy, out, bytes);
        __asm__ volatile("" : : "r"(copy) : "memory");
        memcpy(out, copy, bytes);
        __asm__ volatile("" : : "r"(out) : "memory");
        double taken = microseconds() - start;
        if (taken < least) least = taken;
    }
    return least;
}

static struct yettuvam_source files[MOST_WORDS];
static struct yettuvam_definition definitions[MOST_WORDS];

int main(int count, char **words) {
    if (count < 3 || count > MOST_WORDS || strchr(words[2], '=') != NULL) return 2;
    long times = atol(words[1]);
    size_t file_count = 0, definition_count = 0, bytes = 0, none = 0;
    for (int i = 2; i < count; i++) {
        const char *value = strchr(words[i], '=');
        struct yettuvam_definition definition = {words[i], value == NULL ? 0 : (size_t)(value - words[i]), YETTUVAM_INT, value == NULL ? 0 : atol(value + 1)};
        if (value != NULL)
            definitions[definition_count++] = definition;
        else
            files[file_count++] = read_source(words[i]);
    }
    struct yettuvam_name bad_name = {"\xff", 1};
    struct yettuvam_task task = {files[0], files + 1, file_count - 1, definitions, definition_count, &bad_name, 0, false};
    double whole = least_time(times, &task, YETTUVAM_OK, &bytes);
    task.imports_len = 1;
    double arguments = least_time(times, &task, YETTUVAM_NOT_UTF8, &none);
    double copies = least_copies(times, bytes);
    printf("%.2f %.2f %.2f\n", whole, arguments, copies);
    return 0;
}
