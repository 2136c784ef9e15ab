/* Prints what `ats` prints for the same words, and ends with its status:
 *   check verify ROOT R QUERY PROOF      check both ROOT QUERY PROOF
 *   check fetch ROOT DOC FILE            check growth OLDROOT NEWROOT FILE
 *   check catalog ROOT R QUERY FILE      check catalog-root ROOTS
 * and check query QUERY prints the terms of a query, each with how often the query has it. */
#include "ats_reader.h"
#include <errno.h>
#include <inttypes.h>
#include <stdio.h>
#include <stdlib.h>
#include <string.h>

static struct ats_row rows[1000];
static struct ats_catalog_row catalog_rows[1000];
static uint8_t roots[4096][32];
static uint32_t docs[65536];
static struct ats_term terms[32];
static struct ats_verdict verdict;
static uint8_t *file;
static size_t file_size;

static int stop(int status, const char *line) {
    puts(line);
    return status;
}

/* Reads 64 lower-case hexadecimal digits. */
static int read_digits(const char *digits, size_t size, uint8_t root[32]) {
    static const char hex[] = "0123456789abcdef";
    if (size != 64) return 0;
    for (int i = 0; i < 64; i++) {
        const char *at = memchr(hex, digits[i], 16);
        if (!at) return 0;
        root[i / 2] = (uint8_t)(root[i / 2] << 4 | (at - hex));
    }
    return 1;
}

static int read_root(const char *digits, uint8_t root[32]) { return read_digits(digits, strlen(digits), root); }

static int read_number(const char *digits, uint32_t *number) {
    char *end;
    errno = 0;
    unsigned long n = strtoul(digits, &end, 10);
    *number = (uint32_t)n;
    return digits[0] >= '0' && digits[0] <= '9' && !*end && !errno && n <= UINT32_MAX;
}

/* Reads a file, up to one byte more than a proof, or a catalog's proof, may have: then the check says that it is too
 * long. */
static int read_up_to(size_t most, const char *name) {
    FILE *from = fopen(name, "rb");
    file = from ? malloc(most + 1) : NULL;
    if (!file) return 0;
    file_size = fread(file, 1, most + 1, from);
    return !ferror(from) && fclose(from) == 0;
}

static int read_file(const char *name) { return read_up_to((size_t)1 << 26, name); }

/* Where the line that begins here ends: at its line feed, or at the end of the file. */
static size_t line_end(size_t at) {
    const uint8_t *feed = memchr(file + at, '\n', file_size - at);
    return feed ? (size_t)(feed - file) : file_size;
}

/* Reads the roots that the lines of the file spell. Returns 0, or the number of the first bad line. */
static size_t read_roots(size_t *count) {
    size_t lines = 0;
    for (size_t at = 0; at < file_size; at = line_end(at) + 1) lines++;
    if (lines == 0) return 1;
    if (lines > 4096) return 4097;
    for (size_t at = 0; at < file_size; at = line_end(at) + 1, ++*count)
        if (!read_digits((const char *)file + at, line_end(at) - at, roots[*count])) return *count + 1;
    return 0;
}

/* Each command reads its words, calls the library, and prints what was accepted. It returns 0, or the status with which
 * to end before there is a verdict: 2 if a word is wrong, 3 if the file cannot be read, 4 if a line of it is bad. */
static int verify(char **words) {
    uint8_t root[32] = {0};
    uint32_t r;
    if (!read_root(words[0], root) || !read_number(words[1], &r)) return 2;
    if (!read_file(words[3])) return 3;
    ats_check(file, file_size, root, (const uint8_t *)words[2], strlen(words[2]), r, rows, 1000, &verdict);
    for (uint64_t i = 0; i < verdict.count; i++)
        printf("%" PRIu64 " %" PRIu64 " %" PRIu64 " %" PRIu64 "\n", i + 1, rows[i].doc, rows[i].lower, rows[i].upper);
    return 0;
}

static int both(char **words) {
    uint8_t root[32] = {0};
    if (!read_root(words[0], root)) return 2;
    if (!read_file(words[2])) return 3;
    ats_both(file, file_size, root, (const uint8_t *)words[1], strlen(words[1]), docs, 65536, &verdict);
    for (uint64_t i = 0; i < verdict.count; i++) printf("%" PRIu32 "\n", docs[i]);
    return 0;
}

static int fetch(char **words) {
    uint8_t root[32] = {0};
    uint32_t doc;
    if (!read_root(words[0], root) || !read_number(words[1], &doc)) return 2;
    if (!read_file(words[2])) return 3;
    ats_text(file, file_size, root, doc, &verdict);
    if (verdict.status == 0) {
        fwrite(file + verdict.first, 1, verdict.second, stdout);
        putchar('\n');
    }
    return 0;
}

static int growth(char **words) {
    uint8_t old_root[32] = {0}, new_root[32] = {0};
    if (!read_root(words[0], old_root) || !read_root(words[1], new_root)) return 2;
    if (!read_file(words[2])) return 3;
    ats_growth(file, file_size, old_root, new_root, &verdict);
    if (verdict.status == 0) printf("grown %" PRIu64 " %" PRIu64 "\n", verdict.first, verdict.second);
    return 0;
}

static int catalog(char **words) {
    uint8_t root[32] = {0};
    uint32_t r;
    if (!read_root(words[0], root) || !read_number(words[1], &r)) return 2;
    if (!read_up_to((size_t)1 << 28, words[3])) return 3;
    ats_catalog(file, file_size, root, (const uint8_t *)words[2], strlen(words[2]), r, catalog_rows, 1000, &verdict);
    for (uint64_t i = 0; verdict.status == 0 && i < verdict.count; i++) {
        const struct ats_catalog_row *row = catalog_rows + i;
        printf("%" PRIu64 " %" PRIu64 " %" PRIu64, i + 1, row->shard, row->doc);
        printf(" %" PRIu64 " %" PRIu64 "\n", row->lower, row->upper);
    }
    return 0;
}

static int catalog_root(char **words) {
    uint8_t root[32];
    size_t count = 0;
    if (!read_file(words[0])) return 3;
    size_t bad = read_roots(&count);
    if (bad) {
        printf("input: list line %zu\n", bad);
        return 4;
    }
    ats_catalog_root(roots[0], 32 * count, root, &verdict);
    for (int i = 0; verdict.status == 0 && i < 32; i++) printf("%02x%s", root[i], i < 31 ? "" : "\n");
    return 0;
}

static int query(char **words) {
    ats_query((const uint8_t *)words[0], strlen(words[0]), terms, 32, &verdict);
    for (uint64_t i = 0; i < verdict.count; i++)
        printf("%.*s %" PRIu32 "\n", (int)terms[i].size, (const char *)terms[i].word, terms[i].weight);
    return 0;
}

static const struct { const char *name; int words; int (*run)(char **words); } commands[] = {
    {"verify", 4, verify}, {"both", 3, both}, {"fetch", 3, fetch}, {"growth", 3, growth}, {"query", 1, query},
    {"catalog", 4, catalog}, {"catalog-root", 1, catalog_root},
};

/* Prints the line of the verdict, if it has one, and returns the status. */
static int finish(void) {
    uint8_t line[128];
    size_t size;
    if (verdict.status == 0) return 0;
    if (ats_line(&verdict, line, sizeof line, &size) != 0) return stop(6, "memory");
    printf("%.*s\n", (int)size, (const char *)line);
    return (int)verdict.status;
}

int main(int count, char **words) {
    int status = 2;
    uint32_t unicode[3];
    if (ats_version(unicode) != ATS_READER_VERSION) return stop(2, "the library is not that of ats_reader.h");
    for (size_t i = 0; i < sizeof commands / sizeof *commands; i++)
        if (count == commands[i].words + 2 && strcmp(words[1], commands[i].name) == 0)
            status = commands[i].run(words + 2);
    if (status == 2) return stop(2, "usage: check COMMAND ..: check.c begins with the commands");
    if (status == 3) return stop(3, "fault: shelf");
    return status == 0 ? finish() : status;
}
