// `insert LINES COUNT` reads rows, lines of twelve fields with tabs between them. With a third word it inserts them into a new SQLite
// database of that path, in one transaction, into a table with an index on the trace's id.
#include <sqlite3.h>
#include <stdio.h>
#include <stdlib.h>
#include <string.h>

enum { FIELDS = 12, BLOBS = 3 };

// What a column of the table is given: an id, a number or a text.
struct field {
    const char *bytes;
    int size;
    sqlite3_int64 number;
};

static const int is_number[FIELDS] = {[4] = 1, [5] = 1, [6] = 1, [7] = 1};

static void must(int holds, const char *what) {
    if (!holds) {
        fprintf(stderr, "insert: %s\n", what);
        exit(1);
    }
}

static char *whole_file(const char *path) {
    FILE *file = fopen(path, "rb");
    must(file != NULL, path);
    fseek(file, 0, SEEK_END);
    long size = ftell(file);
    rewind(file);
    char *bytes = malloc(size + 1);
    must(bytes != NULL && fread(bytes, 1, size, file) == (size_t)size, path);
    bytes[size] = 0;
    fclose(file);
    return bytes;
}

static int digit(char c) { return c <= '9' ? c - '0' : c - 'a' + 10; }

// Puts the bytes of an id in the place of its digits.
static int unhex(char *text, int size) {
    for (int at = 0; 2 * at < size; at++)
        text[at] = (char)(digit(text[2 * at]) << 4 | digit(text[2 * at + 1]));
    return size / 2;
}

static char *read_row(char *text, struct field *row) {
    for (int column = 0; column < FIELDS; column++) {
        char *end = text + strcspn(text, "\t\n");
        must(*end == (column + 1 < FIELDS ? '\t' : '\n'), "a line isn't twelve fields");
        row[column] = (struct field){text, (int)(end - text), is_number[column] ? strtoll(text, NULL, 10) : 0};
        if (column < BLOBS)
            row[column].size = unhex(text, row[column].size);
        text = end + 1;
    }
    return text;
}

static void bind(sqlite3_stmt *insertion, const struct field *row) {
    for (int column = 0; column < FIELDS; column++) {
        const struct field *it = &row[column];
        if (is_number[column])
            sqlite3_bind_int64(insertion, column + 1, it->number);
        else if (column >= BLOBS)
            sqlite3_bind_text(insertion, column + 1, it->bytes, it->size, SQLITE_STATIC);
        else if (it->size > 0)
            sqlite3_bind_blob(insertion, column + 1, it->bytes, it->size, SQLITE_STATIC);
        else
            sqlite3_bind_null(insertion, column + 1);
    }
}

static void run(sqlite3 *base, const char *statement) {
    must(sqlite3_exec(base, statement, NULL, NULL, NULL) == SQLITE_OK, statement);
}

static void insert(const char *path, struct field (*rows)[FIELDS], long count) {
    sqlite3 *base;
    sqlite3_stmt *insertion;
    remove(path);
    must(sqlite3_open(path, &base) == SQLITE_OK, path);
    run(base, "create table span (trace blob, id blob, parent blob, name text, kind int, start int, finish int, status int,"
              " message text, attributes text, resource text, scope text)");
    run(base, "create index span_by_trace on span (trace)");
    const char *statement = "insert into span values (?, ?, ?, ?, ?, ?, ?, ?, ?, ?, ?, ?)";
    must(sqlite3_prepare_v2(base, statement, -1, &insertion, NULL) == SQLITE_OK, statement);
    run(base, "begin");
    for (long number = 0; number < count; number++) {
        bind(insertion, rows[number]);
        must(sqlite3_step(insertion) == SQLITE_DONE, sqlite3_errmsg(base));
        sqlite3_reset(insertion);
    }
    run(base, "commit");
    sqlite3_finalize(insertion);
    must(sqlite3_close(base) == SQLITE_OK, "the database isn't closed");
}

int main(int count, char **words) {
    must(count == 3 || count == 4, "wanted: LINES COUNT [DATABASE]");
    long size = atol(words[2]);
    char *text = whole_file(words[1]);
    struct field(*rows)[FIELDS] = malloc(size * sizeof *rows);
    must(rows != NULL, "memory");
    for (long number = 0; number < size; number++)
        text = read_row(text, rows[number]);
    must(*text == 0, "more lines than were said");
    if (count == 4)
        insert(words[3], rows, size);
}
