/* The database of a broker, by the C library of SQLite: plans that are kept, with the texts of brokerd. The log is
   written ahead (WAL), and each commit waits for the disk (synchronous FULL). */

#include <sqlite3.h>
#include <stdio.h>
#include <stdlib.h>
#include <string.h>
#include <time.h>

enum { CLOCK = 1, USED = 2, TOKEN = 3, ACCESSOR = 4, KV_KEY = 8, KV_VERSION = 9, MOUNT = 11, POLICY = 12 };

static sqlite3 *database;
static sqlite3_stmt *begin, *commit, *get, *put, *drop, *due;

static void check(int ok, const char *what)
{
    if (!ok) {
        fprintf(stderr, "%s: %s\n", what, database ? sqlite3_errmsg(database) : "");
        exit(1);
    }
}

static sqlite3_stmt *prepared(const char *text)
{
    sqlite3_stmt *statement;
    check(sqlite3_prepare_v3(database, text, -1, SQLITE_PREPARE_PERSISTENT, &statement, NULL) == SQLITE_OK, text);
    return statement;
}

static void bind_key(sqlite3_stmt *statement, int kind, const char *key)
{
    sqlite3_bind_int(statement, 1, kind);
    sqlite3_bind_text(statement, 2, key, -1, SQLITE_STATIC);
}

/* Runs a statement that has no rows to show. */
static void run(sqlite3_stmt *statement)
{
    check(sqlite3_step(statement) == SQLITE_DONE, "a statement");
    sqlite3_reset(statement);
}

/* Reads a row, whose columns are copied as brokerd copies them; whether there is one. */
static int got(int kind, const char *key)
{
    bind_key(get, kind, key);
    int status = sqlite3_step(get), found = status == SQLITE_ROW;
    check(found || status == SQLITE_DONE, "get");
    if (found) {
        char owner[64], body[512];
        int length = sqlite3_column_bytes(get, 2);
        check(length <= (int)sizeof body, "a body");
        snprintf(owner, sizeof owner, "%s", (const char *)sqlite3_column_text(get, 0));
        memcpy(body, sqlite3_column_blob(get, 2), length);
    }
    sqlite3_reset(get);
    return found;
}

static void must_get(int kind, const char *key)
{
    check(got(kind, key), "a row is not there");
}

/* Puts a row with a body of so many bytes. */
static void put_row(int kind, const char *key, const char *owner, long long ends, int length)
{
    static const char body[512];
    bind_key(put, kind, key);
    sqlite3_bind_text(put, 3, owner, -1, SQLITE_STATIC);
    if (ends)
        sqlite3_bind_int64(put, 4, ends);
    else
        sqlite3_bind_null(put, 4);
    sqlite3_bind_blob(put, 5, body, length, SQLITE_STATIC);
    run(put);
}

/* Begins a request of the root token. The clock is written when it moves. */
static void begin_request(const char *root)
{
    static time_t clock;
    time_t now = time(NULL);
    run(begin);
    must_get(CLOCK, "");
    if (now != clock)
        put_row(CLOCK, "", "", 0, 9);
    clock = now;
    sqlite3_bind_int64(due, 1, now);
    run(due);
    must_get(TOKEN, root);
}

static void open_database(const char *file, int in_memory)
{
    check(sqlite3_open(file, &database) == SQLITE_OK, file);
    if (in_memory) {
        sqlite3 *source = database;
        check(sqlite3_open(":memory:", &database) == SQLITE_OK, "memory");
        sqlite3_backup *copy = sqlite3_backup_init(database, "main", source, "main");
        check(copy != NULL && sqlite3_backup_step(copy, -1) == SQLITE_DONE, "a copy");
        sqlite3_backup_finish(copy);
        sqlite3_close(source);
    } else {
        check(sqlite3_exec(database, "PRAGMA journal_mode = WAL", NULL, NULL, NULL) == SQLITE_OK, "WAL");
    }
    check(sqlite3_exec(database, "PRAGMA synchronous = FULL", NULL, NULL, NULL) == SQLITE_OK, "FULL");
    begin = prepared("BEGIN");
    commit = prepared("COMMIT");
    get = prepared("SELECT owner, due, body FROM broker_rows WHERE kind = ?1 AND key = ?2");
    put = prepared("INSERT INTO broker_rows (kind, key, owner, due, body) VALUES (?1, ?2, ?3, ?4, ?5) "
                   "ON CONFLICT (kind, key) DO UPDATE SET owner = excluded.owner, due = excluded.due, "
                   "body = excluded.body");
    drop = prepared("DELETE FROM broker_rows WHERE kind = ?1 AND key = ?2");
    due = prepared("SELECT kind, key, owner, due, body FROM broker_rows WHERE due >= 0 AND due <= ?1 "
                   "ORDER BY due, kind, key");
}

/* The root token of the broker. */
static void find_root(char root[64])
{
    sqlite3_stmt *find = prepared("SELECT key FROM broker_rows WHERE kind = 3 AND owner = ''");
    check(sqlite3_step(find) == SQLITE_ROW, "the root token");
    snprintf(root, 64, "%s", (const char *)sqlite3_column_text(find, 0));
    sqlite3_finalize(find);
}
