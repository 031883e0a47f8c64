/* The same rows into a table of SQLite in memory, by their keys: one statement prepared once, one transaction. */
#include "rows.h"
#include <sqlite3.h>
#include <stdio.h>
#include <stdlib.h>
#include <string.h>

static sqlite3 *db;
static sqlite3_stmt *insert;

static void must(int r) {
    if (r == SQLITE_OK || r == SQLITE_DONE) return;
    fprintf(stderr, "sqlite: %s\n", sqlite3_errmsg(db));
    exit(2);
}

static void run(const char *what) {
    must(sqlite3_exec(db, what, NULL, NULL, NULL));
}

void store(const struct record *r) {
    for (size_t i = 0; i < r->n; i++) {
        const uint8_t *row = r->rows[i];
        must(sqlite3_bind_blob(insert, 1, row, KEY, SQLITE_STATIC));
        must(sqlite3_bind_blob(insert, 2, row + KEY, ROW - KEY, SQLITE_STATIC));
        must(sqlite3_step(insert));
        must(sqlite3_reset(insert));
    }
}

void prepare(const struct record *standing, size_t n) {
    if (db) {
        must(sqlite3_finalize(insert));
        must(sqlite3_close(db));
    }
    must(sqlite3_open(":memory:", &db));
    run("create table events (key blob primary key, rest blob) without rowid");
    must(sqlite3_prepare_v2(db, "insert into events values (?, ?)", -1, &insert, NULL));
    run("begin");
    for (size_t i = 0; i < n; i++) store(&standing[i]);
}

void finish(void) {
    run("commit");
}

void each_row(void (*see)(const uint8_t row[ROW])) {
    sqlite3_stmt *s;
    must(sqlite3_prepare_v2(db, "select key, rest from events order by key", -1, &s, NULL));
    while (sqlite3_step(s) == SQLITE_ROW) {
        uint8_t row[ROW];
        memcpy(row, sqlite3_column_blob(s, 0), KEY);
        memcpy(row + KEY, sqlite3_column_blob(s, 1), ROW - KEY);
        see(row);
    }
    must(sqlite3_finalize(s));
}
