/* The rows of a history of NDATA with four metrics each, put by SQLite itself into the tables of `sparkplug history --sqlite`: the same
   statements, prepared, in transactions of 100,000 values. usage: insert OUT MESSAGES */
#include <sqlite3.h>
#include <stdio.h>
#include <stdlib.h>

static sqlite3 *db;

static void check(int got, int want) {
    if (got != want) {
        fprintf(stderr, "%s\n", sqlite3_errmsg(db));
        exit(1);
    }
}

static void run(const char *sql) { check(sqlite3_exec(db, sql, 0, 0, 0), SQLITE_OK); }

static sqlite3_stmt *prepare(const char *sql) {
    sqlite3_stmt *statement;
    check(sqlite3_prepare_v2(db, sql, -1, &statement, 0), SQLITE_OK);
    return statement;
}

static void step(sqlite3_stmt *statement) {
    check(sqlite3_step(statement), SQLITE_DONE);
    check(sqlite3_reset(statement), SQLITE_OK);
}

static const char *TABLES =
    "CREATE TABLE node (id INTEGER PRIMARY KEY, grp TEXT NOT NULL, name TEXT NOT NULL);"
    "CREATE TABLE metric (id INTEGER PRIMARY KEY, node INTEGER NOT NULL, device TEXT, name TEXT, datatype INTEGER);"
    "CREATE TABLE message (id INTEGER PRIMARY KEY, node INTEGER NOT NULL, birth INTEGER, kind TEXT NOT NULL, device TEXT, seq, stamp, at INTEGER NOT NULL);"
    "CREATE TABLE value (id INTEGER PRIMARY KEY, message INTEGER NOT NULL, metric INTEGER NOT NULL, stamp, shown);";

int main(int count, char **words) {
    if (count != 3) return 2;
    long messages = atol(words[2]);
    check(sqlite3_open(words[1], &db), SQLITE_OK);
    run("PRAGMA journal_mode = wal; PRAGMA synchronous = FULL;");
    run(TABLES);
    sqlite3_stmt *message = prepare("INSERT INTO message VALUES (?1, ?2, ?3, ?4, ?5, ?6, ?7, ?8)");
    sqlite3_stmt *value = prepare("INSERT INTO value VALUES (?1, ?2, ?3, ?4, ?5)");
    sqlite3_int64 values = 0, begun = 0;
    run("BEGIN");
    for (long n = 0; n < messages; n++) {
        sqlite3_int64 at = 1700000000000LL + 10 * n;
        sqlite3_bind_int64(message, 1, n + 3);
        sqlite3_bind_int64(message, 2, 1);
        sqlite3_bind_int64(message, 3, 2);
        sqlite3_bind_text(message, 4, "NDATA", 5, SQLITE_STATIC);
        sqlite3_bind_null(message, 5);
        sqlite3_bind_int64(message, 6, (n + 1) % 256);
        sqlite3_bind_int64(message, 7, at);
        sqlite3_bind_int64(message, 8, at);
        step(message);
        for (int k = 0; k < 4; k++) {
            sqlite3_bind_int64(value, 1, ++values);
            sqlite3_bind_int64(value, 2, n + 3);
            sqlite3_bind_int64(value, 3, k + 1);
            sqlite3_bind_null(value, 4);
            sqlite3_bind_double(value, 5, n * 0.25 + k);
            step(value);
        }
        if (values - begun >= 100000) {
            begun = values;
            run("COMMIT; BEGIN");
        }
    }
    run("COMMIT");
    run("CREATE INDEX value_of_metric ON value (metric, id)");
    sqlite3_finalize(message);
    sqlite3_finalize(value);
    check(sqlite3_close(db), SQLITE_OK);
    return 0;
}
