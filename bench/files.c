/* A service of orders over its tables in SQL, by SQLite itself: the same statements as ours makes, prepared once, and for each call the
 * reads first and then one transaction. A line of the standard input names calls, and its answer tells how many were made: `commit`,
 * `ingest`, `settle`, `list` or `list-first`, then the number of the first order, how many orders, and over how many they are spread.
 * `fill 0 N 0` places orders in one transaction for all, `journal 0 N 0` adds rows to the journal alone, and `sound 0 0 0` has SQLite test
 * each row and reference. The first line that is printed is `ready N`: the journal has N rows.
 * usage: files memory | file PATH | alone PATH | version        alone: the file is locked for this program as long as it runs */
#include <sqlite3.h>
#include <stdio.h>
#include <stdlib.h>
#include <string.h>

static sqlite3 *tables;

static void check(int status, int wanted) {
    if (status != wanted) {
        fprintf(stderr, "%s\n", sqlite3_errmsg(tables));
        exit(1);
    }
}

static void run(const char *sql) { check(sqlite3_exec(tables, sql, NULL, NULL, NULL), SQLITE_OK); }

/* A statement, which is prepared where it is bound first. */
typedef struct {
    const char *sql;
    sqlite3_stmt *made;
} statement;

#define STATEMENT(name, text) static statement name = {text, NULL}
STATEMENT(begin, "BEGIN");
STATEMENT(end, "COMMIT");
STATEMENT(read_head, "SELECT account, amount, status, account_phase FROM order_heads WHERE key = ?1 ORDER BY key");
STATEMENT(read_lines, "SELECT line, stock, n, phase FROM order_lines WHERE order_key = ?1 ORDER BY order_key, line");
STATEMENT(read_marks, "SELECT sent, settled FROM out_marks WHERE sender = ?1 AND receiver = ?2 ORDER BY sender, receiver");
STATEMENT(read_handled, "SELECT handled FROM in_marks WHERE sender = ?1 AND receiver = ?2 ORDER BY sender, receiver");
STATEMENT(put_marks, "INSERT OR REPLACE INTO out_marks (sender, receiver, sent, settled) VALUES (?1, ?2, ?3, ?4)");
STATEMENT(put_outbox, "INSERT OR REPLACE INTO outbox (sender, receiver, number, body) VALUES (?1, ?2, ?3, ?4)");
STATEMENT(settle_outbox, "DELETE FROM outbox WHERE sender = ?1 AND receiver = ?2 AND number <= ?3");
STATEMENT(put_handled, "INSERT OR REPLACE INTO in_marks (sender, receiver, handled) VALUES (?1, ?2, ?3)");
STATEMENT(take_held, "DELETE FROM held WHERE sender = ?1 AND receiver = ?2 AND number = ?3");
STATEMENT(take_lines, "DELETE FROM order_lines WHERE order_key = ?1");
STATEMENT(put_head, "INSERT OR REPLACE INTO order_heads (key, account, amount, status, account_phase) VALUES (?1, ?2, ?3, ?4, ?5)");
STATEMENT(add_line, "INSERT INTO order_lines (order_key, line, stock, n, phase) VALUES (?1, ?2, ?3, ?4, ?5)");
STATEMENT(add_command, "INSERT INTO journal (entity, seat, body) VALUES (?1, ?2, ?3)");
STATEMENT(add_message, "INSERT INTO journal (entity, sender, number, body) VALUES (?1, ?2, ?3, ?4)");
STATEMENT(list_first, "SELECT sender, receiver, number, body FROM outbox ORDER BY sender, receiver, number LIMIT ?1");
STATEMENT(list_after, "SELECT sender, receiver, number, body FROM outbox WHERE sender >= ?1 "
                      "AND (sender > ?1 OR receiver > ?2 OR receiver = ?2 AND number > ?3) "
                      "ORDER BY sender, receiver, number LIMIT ?4");
STATEMENT(read_about, "SELECT version, service FROM about ORDER BY one");
STATEMENT(count_rows, "SELECT count(*) FROM journal");
STATEMENT(count_within, "SELECT count(*) FROM journal WHERE pos >= ?1 AND pos <= ?2");

static const char *made_tables =
    "BEGIN;"
    "CREATE TABLE journal (pos INTEGER PRIMARY KEY, entity TEXT NOT NULL, seat INTEGER, sender TEXT, number INTEGER, "
    "body TEXT NOT NULL) STRICT;"
    "CREATE TABLE outbox (sender TEXT NOT NULL, receiver TEXT NOT NULL, number INTEGER NOT NULL, body TEXT NOT NULL, "
    "PRIMARY KEY (sender, receiver, number)) STRICT;"
    "CREATE TABLE out_marks (sender TEXT NOT NULL, receiver TEXT NOT NULL, sent INTEGER NOT NULL, "
    "settled INTEGER NOT NULL CHECK (settled <= sent), PRIMARY KEY (sender, receiver)) STRICT;"
    "CREATE TABLE in_marks (sender TEXT NOT NULL, receiver TEXT NOT NULL, "
    "handled INTEGER NOT NULL CHECK (handled >= 0 AND handled <= 1099511627776), PRIMARY KEY (sender, receiver)) STRICT;"
    "CREATE TABLE held (sender TEXT NOT NULL, receiver TEXT NOT NULL, number INTEGER NOT NULL, body TEXT NOT NULL, "
    "PRIMARY KEY (sender, receiver, number)) STRICT;"
    "CREATE TABLE order_heads (key TEXT NOT NULL, account TEXT NOT NULL, amount INTEGER NOT NULL, status TEXT NOT NULL, "
    "account_phase TEXT NOT NULL, PRIMARY KEY (key)) STRICT;"
    "CREATE TABLE order_lines (order_key TEXT NOT NULL REFERENCES order_heads (key), "
    "line INTEGER NOT NULL CHECK (line >= 1 AND line <= 8), stock TEXT NOT NULL, n INTEGER NOT NULL, phase TEXT NOT NULL, "
    "PRIMARY KEY (order_key, line), UNIQUE (order_key, stock)) STRICT;"
    "CREATE TABLE about (one INTEGER PRIMARY KEY CHECK (one = 1), version INTEGER NOT NULL, service TEXT NOT NULL) STRICT;"
    "INSERT INTO about (version, service) VALUES (2, 'purchasing');"
    "COMMIT;";

/* Binds a text for `t`, a number for `i`. */
static sqlite3_stmt *bound(statement *of, const char *kinds, const char **texts, const sqlite3_int64 *numbers) {
    if (!of->made)
        check(sqlite3_prepare_v3(tables, of->sql, -1, SQLITE_PREPARE_PERSISTENT, &of->made, NULL), SQLITE_OK);
    for (int at = 0; kinds[at]; at++)
        if (kinds[at] == 't')
            check(sqlite3_bind_text(of->made, at + 1, *texts++, -1, SQLITE_STATIC), SQLITE_OK);
        else
            check(sqlite3_bind_int64(of->made, at + 1, *numbers++), SQLITE_OK);
    return of->made;
}

#define TEXTS(...) ((const char *[]){__VA_ARGS__})
#define NUMBERS(...) ((const sqlite3_int64[]){__VA_ARGS__})

static void write_by(statement *of, const char *kinds, const char **texts, const sqlite3_int64 *numbers) {
    sqlite3_stmt *made = bound(of, kinds, texts, numbers);
    check(sqlite3_step(made), SQLITE_DONE);
    check(sqlite3_reset(made), SQLITE_OK);
}

/* Reads all values of all rows, and gives how many rows there are; the numbers of the first are kept. */
static long read_by(statement *of, const char *kinds, const char **texts, const sqlite3_int64 *numbers, sqlite3_int64 *first) {
    sqlite3_stmt *made = bound(of, kinds, texts, numbers);
    long rows = 0;
    int status;
    for (; (status = sqlite3_step(made)) == SQLITE_ROW; rows++)
        for (int at = 0; at < sqlite3_column_count(made); at++)
            if (sqlite3_column_type(made, at) == SQLITE_TEXT) {
                char copy[256];
                snprintf(copy, sizeof copy, "%s", sqlite3_column_text(made, at));
            } else if (rows == 0 && first)
                first[at] = sqlite3_column_int64(made, at);
    check(status, SQLITE_DONE);
    check(sqlite3_reset(made), SQLITE_OK);
    return rows;
}

static const char *STOCK = "stock/bolt", *ACCOUNT = "account/ann";
static int together; /* all calls are one transaction */

static void open_transaction(void) {
    if (!together)
        write_by(&begin, "", NULL, NULL);
}

static void close_transaction(void) {
    if (!together)
        write_by(&end, "", NULL, NULL);
}

static void set_mark(const char *from, const char *to, int which, sqlite3_int64 number) {
    sqlite3_int64 marks[2] = {0, 0};
    read_by(&read_marks, "tt", TEXTS(from, to), NULL, marks);
    marks[which] = number;
    write_by(&put_marks, "ttii", TEXTS(from, to), marks);
}

static void send(const char *from, const char *to, sqlite3_int64 number, const char *body) {
    set_mark(from, to, 0, number);
    write_by(&put_outbox, "ttit", TEXTS(from, to, body), NUMBERS(number));
}

static void put_order(const char *key, const char *stock_phase) {
    write_by(&take_lines, "t", TEXTS(key), NULL);
    write_by(&put_head, "ttitt", TEXTS(key, "ann", "open", "requested"), NUMBERS(500));
    write_by(&add_line, "titit", TEXTS(key, "bolt", stock_phase), NUMBERS(1, 1));
}

static long read_order(const char *key) {
    return read_by(&read_head, "t", TEXTS(key), NULL, NULL) + read_by(&read_lines, "t", TEXTS(key), NULL, NULL);
}

static long commit(const char *order, const char *key) {
    sqlite3_int64 to_stock[2] = {0, 0}, to_account[2] = {0, 0};
    if (read_order(key) != 0)
        exit(1);
    read_by(&read_marks, "tt", TEXTS(order, STOCK), NULL, to_stock);
    read_by(&read_marks, "tt", TEXTS(order, ACCOUNT), NULL, to_account);
    open_transaction();
    send(order, STOCK, to_stock[0] + 1, "{\"n\":1,\"op\":\"request\"}");
    send(order, ACCOUNT, to_account[0] + 1, "{\"n\":500,\"op\":\"request\"}");
    put_order(key, "requested");
    write_by(&add_command, "tit",
             TEXTS(order, "{\"account\":\"ann\",\"amount\":500,\"lines\":[{\"n\":1,\"stock\":\"bolt\"}],\"op\":\"place\"}"), NUMBERS(0));
    close_transaction();
    return 1;
}

static long ingest(const char *order, const char *key) {
    sqlite3_int64 handled = 0;
    read_by(&read_handled, "tt", TEXTS(STOCK, order), NULL, &handled);
    if (handled != 0 || read_order(key) != 2)
        exit(1);
    open_transaction();
    write_by(&put_handled, "tti", TEXTS(STOCK, order), NUMBERS(1));
    write_by(&take_held, "tti", TEXTS(STOCK, order), NUMBERS(1));
    put_order(key, "tentative");
    write_by(&add_message, "ttit", TEXTS(order, STOCK, "{\"op\":\"tentative\"}"), NUMBERS(1));
    close_transaction();
    return 1;
}

static long settle(const char *order) {
    sqlite3_int64 marks[2] = {0, 0};
    read_by(&read_marks, "tt", TEXTS(order, STOCK), NULL, marks);
    read_by(&read_marks, "tt", TEXTS(order, STOCK), NULL, marks);
    if (marks[0] != 1 || marks[1] != 0)
        exit(1);
    open_transaction();
    set_mark(order, STOCK, 1, 1);
    write_by(&settle_outbox, "tti", TEXTS(order, STOCK), NUMBERS(1));
    close_transaction();
    return 1;
}

static long call(const char *word, const char *order) {
    const char *key = order + strlen("order/");
    if (!strcmp(word, "commit") || !strcmp(word, "fill"))
        return commit(order, key);
    if (!strcmp(word, "ingest"))
        return ingest(order, key);
    if (!strcmp(word, "settle"))
        return settle(order);
    if (!strcmp(word, "list"))
        return read_by(&list_after, "ttii", TEXTS(order, STOCK), NUMBERS(1, 64), NULL);
    if (!strcmp(word, "list-first"))
        return read_by(&list_first, "i", NULL, NUMBERS(64), NULL);
    if (strcmp(word, "journal"))
        exit(2);
    write_by(&add_message, "ttit", TEXTS(order, STOCK, "{\"op\":\"tentative\"}"), NUMBERS(1));
    return 1;
}

/* What an opening reads: whose tables they are, and whether the positions are 1, 2, .. */
static sqlite3_int64 length(void) {
    sqlite3_int64 version[2] = {0, 0}, count = 0, within = 0;
    read_by(&read_about, "", NULL, NULL, version);
    read_by(&count_rows, "", NULL, NULL, &count);
    read_by(&count_within, "ii", NULL, NUMBERS(1, count), &within);
    if (version[0] != 2 || within != count)
        exit(1);
    return count;
}

static long test_all(void) {
    statement soundness = {"PRAGMA integrity_check", NULL}, references = {"PRAGMA foreign_key_check", NULL};
    return read_by(&soundness, "", NULL, NULL, NULL) + read_by(&references, "", NULL, NULL, NULL);
}

int main(int count, char **words) {
    if (count == 2 && !strcmp(words[1], "version")) {
        puts(sqlite3_libversion());
        return 0;
    }
    int is_file = count == 3 && !strcmp(words[1], "file"), is_alone = count == 3 && !strcmp(words[1], "alone");
    if (!is_file && !is_alone && !(count == 2 && !strcmp(words[1], "memory")))
        return 2;
    check(sqlite3_open(count == 3 ? words[2] : ":memory:", &tables), SQLITE_OK);
    if (is_alone)
        run("PRAGMA locking_mode = exclusive");
    if (count == 3)
        run("PRAGMA journal_mode = wal; PRAGMA synchronous = full");
    run("PRAGMA foreign_keys = on");
    sqlite3_stmt *any;
    check(sqlite3_prepare_v2(tables, "SELECT 1 FROM sqlite_schema", -1, &any, NULL), SQLITE_OK);
    int is_new = sqlite3_step(any) == SQLITE_DONE;
    check(sqlite3_finalize(any), SQLITE_OK);
    if (is_new)
        run(made_tables);
    setvbuf(stdout, NULL, _IOLBF, 0);
    printf("ready %lld\n", (long long)length());
    char word[16], order[64];
    long long first, calls, spread;
    while (scanf("%15s %lld %lld %lld", word, &first, &calls, &spread) == 4) {
        together = !strcmp(word, "fill") || !strcmp(word, "journal");
        if (together)
            run("BEGIN");
        long done = !strcmp(word, "sound") ? test_all() : 0;
        for (long long number = first; number < first + calls; number++) {
            if (spread)
                snprintf(order, sizeof order, "order/o%08lldx%lld", number * 7919 % spread, number);
            else
                snprintf(order, sizeof order, "order/o%08lld", number);
            done += call(word, order);
        }
        if (together)
            run("COMMIT");
        printf("%ld\n", done);
    }
    /* all is copied from the log into the file, whose only connection ends */
    for (sqlite3_stmt *made; (made = sqlite3_next_stmt(tables, NULL));)
        check(sqlite3_finalize(made), SQLITE_OK);
    check(sqlite3_close(tables), SQLITE_OK);
    return 0;
}
