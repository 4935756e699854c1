/* The statements of commits of sales, by SQLite's own library, over a book that the program made:
   twin BOOK ROWS
   A line of ROWS is a table and the values of a row, with tabs between, or `commit`: iN is an integer, tTEXT a text,
   n NULL. The lines up to a `commit` are one transaction: an INSERT for a row of `item`, `item_tax` and `second_related`;
   for one of `tally` and `tally_tax` an UPDATE, and an INSERT where there is none. Foreign keys are enforced, the log is a
   WAL, and each commit is synced, as by the program. Prints the nanoseconds of each transaction. */
#include <sqlite3.h>
#include <stdio.h>
#include <stdlib.h>
#include <string.h>
#include <time.h>

enum { WIDEST = 19 };

static sqlite3 *book;

/* A table, how many columns it has, and what changes a row of it, if rows are changed. */
static struct {
    const char *name;
    int width;
    const char *change;
    sqlite3_stmt *insertion, *update;
} tables[] = {
    {"item", WIDEST, NULL, NULL, NULL},
    {"item_tax", 5, NULL, NULL, NULL},
    {"second_related", 4, NULL, NULL, NULL},
    {"tally", 11,
     "UPDATE tally SET accepted = ?4, living = ?5, canx = ?6, memo_count = ?7, cash = ?8, "
     "credit = ?9, commission = ?10, memos = ?11 WHERE agent = ?1 AND airline = ?2 AND period = ?3",
     NULL, NULL},
    {"tally_tax", 4, "UPDATE tally_tax SET tax = ?4 WHERE agent = ?1 AND airline = ?2 AND period = ?3", NULL, NULL},
};
enum { TABLES = sizeof tables / sizeof *tables };

static void expect(int found, int wanted, const char *what) {
    if (found != wanted) {
        fprintf(stderr, "twin: %s: %s\n", what, sqlite3_errmsg(book));
        exit(1);
    }
}

static sqlite3_stmt *prepared(const char *text) {
    sqlite3_stmt *made;
    expect(sqlite3_prepare_v2(book, text, -1, &made, NULL), SQLITE_OK, text);
    return made;
}

/* The INSERT of a row of so many values. */
static sqlite3_stmt *insertion(const char *table, int width) {
    char text[200];
    int length = snprintf(text, sizeof text, "INSERT INTO %s VALUES (?", table);
    for (int at = 1; at < width; at++) length += snprintf(text + length, sizeof text - length, ",?");
    snprintf(text + length, sizeof text - length, ")");
    return prepared(text);
}

static void bind(sqlite3_stmt *it, int at, const char *value) {
    if (*value == 'i')
        sqlite3_bind_int64(it, at, atoll(value + 1));
    else if (*value == 't')
        sqlite3_bind_text(it, at, value + 1, -1, SQLITE_STATIC);
    else
        sqlite3_bind_null(it, at);
}

static void run(sqlite3_stmt *it, char **values, int count) {
    for (int at = 0; at < count; at++) bind(it, at + 1, values[at]);
    expect(sqlite3_step(it), SQLITE_DONE, sqlite3_sql(it));
    sqlite3_reset(it);
}

/* The first word of a line, and the values after it. */
static const char *split(char *line, char **values, int *count) {
    *count = 0;
    line[strcspn(line, "\n")] = 0;
    const char *word = strsep(&line, "\t");
    while (line && *count < WIDEST) values[(*count)++] = strsep(&line, "\t");
    return word;
}

/* Writes a row of the table of that name. */
static void put(const char *name, char **values, int count) {
    int at = 0;
    while (at < TABLES && strcmp(tables[at].name, name)) at++;
    expect(at < TABLES && tables[at].width == count, 1, name);
    if (tables[at].update) {
        run(tables[at].update, values, count);
        if (sqlite3_changes(book)) return;
    }
    run(tables[at].insertion, values, count);
}

static long long now(void) {
    struct timespec it;
    clock_gettime(CLOCK_MONOTONIC, &it);
    return it.tv_sec * 1000000000LL + it.tv_nsec;
}

int main(int count, char **words) {
    if (count != 3) return 2;
    expect(sqlite3_open(words[1], &book), SQLITE_OK, words[1]);
    expect(sqlite3_exec(book, "PRAGMA foreign_keys = ON; PRAGMA journal_mode = WAL; PRAGMA synchronous = FULL", NULL, NULL, NULL), SQLITE_OK, "WAL");
    sqlite3_stmt *begin = prepared("BEGIN"), *commit = prepared("COMMIT");
    for (int at = 0; at < TABLES; at++) {
        tables[at].insertion = insertion(tables[at].name, tables[at].width);
        if (tables[at].change) tables[at].update = prepared(tables[at].change);
    }
    FILE *rows = fopen(words[2], "r");
    char line[4096], *values[WIDEST];
    long long from = 0;
    while (rows && fgets(line, sizeof line, rows)) {
        int width;
        if (!from) {
            from = now();
            run(begin, values, 0);
        }
        const char *word = split(line, values, &width);
        if (strcmp(word, "commit")) {
            put(word, values, width);
        } else {
            run(commit, values, 0);
            printf("%lld\n", now() - from);
            from = 0;
        }
    }
    return 0;
}
