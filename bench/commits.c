/* How fast SQLite in memory commits what purchasing commits for a placed order: the order's row, the journal's row, two letters of the
 * outbox with their marks of how many were sent, in one transaction each. Prints commits a second of processor time.
 * usage: commits ORDERS */
#include <sqlite3.h>
#include <stdio.h>
#include <stdlib.h>
#include <string.h>
#include <time.h>

static sqlite3 *tables;

static void check(int status, int wanted) {
    if (status != wanted) {
        fprintf(stderr, "%s\n", sqlite3_errmsg(tables));
        exit(1);
    }
}

static sqlite3_stmt *prepared(const char *text) {
    sqlite3_stmt *made;
    check(sqlite3_prepare_v2(tables, text, -1, &made, NULL), SQLITE_OK);
    return made;
}

static void step(sqlite3_stmt *s) {
    check(sqlite3_step(s), SQLITE_DONE);
    check(sqlite3_reset(s), SQLITE_OK);
}

static void text(sqlite3_stmt *s, int at, const char *value) {
    check(sqlite3_bind_text(s, at, value, -1, SQLITE_TRANSIENT), SQLITE_OK);
}

int main(int count, char **words) {
    long orders = count > 1 ? atol(words[1]) : 20000;
    check(sqlite3_open(":memory:", &tables), SQLITE_OK);
    check(sqlite3_exec(tables,
                       "pragma synchronous = off;"
                       "create table entities (name text primary key, row text) without rowid;"
                       "create table journal (position integer primary key, entity text, input text);"
                       "create table outbox (sender text, receiver text, number integer, message text,"
                       " primary key (sender, receiver, number)) without rowid;"
                       "create table sent (sender text, receiver text, number integer, primary key (sender, receiver)) without rowid;",
                       NULL, NULL, NULL),
          SQLITE_OK);
    sqlite3_stmt *begin = prepared("begin"), *commit = prepared("commit");
    sqlite3_stmt *row = prepared("insert or replace into entities values (?, ?)"), *last = prepared("select max(position) from journal");
    sqlite3_stmt *journal = prepared("insert into journal values (?, ?, ?)"), *letter = prepared("insert into outbox values (?, ?, ?, ?)");
    sqlite3_stmt *mark = prepared("insert or replace into sent values (?, ?, ?)");
    sqlite3_stmt *sent = prepared("select number from sent where sender = ? and receiver = ?");
    clock_t start = clock();
    for (long i = 0; i < orders; i++) {
        char order[32];
        snprintf(order, sizeof order, "order/o%ld", i);
        step(begin);
        text(row, 1, order);
        text(row, 2, "open stock/bolt 1 asked account/ann 500 asked");
        step(row);
        check(sqlite3_step(last), SQLITE_ROW);
        sqlite3_bind_int64(journal, 1, sqlite3_column_int64(last, 0) + 1);
        check(sqlite3_reset(last), SQLITE_OK);
        text(journal, 2, order);
        text(journal, 3, "seat 0 place bolt 1 ann 500");
        step(journal);
        const char *receivers[] = {"stock/bolt", "account/ann"};
        for (int k = 0; k < 2; k++) {
            text(sent, 1, order);
            text(sent, 2, receivers[k]);
            long number = sqlite3_step(sent) == SQLITE_ROW ? sqlite3_column_int64(sent, 0) + 1 : 1;
            check(sqlite3_reset(sent), SQLITE_OK);
            text(letter, 1, order);
            text(letter, 2, receivers[k]);
            sqlite3_bind_int64(letter, 3, number);
            text(letter, 4, "{\"n\":1,\"op\":\"request\"}");
            step(letter);
            text(mark, 1, order);
            text(mark, 2, receivers[k]);
            sqlite3_bind_int64(mark, 3, number);
            step(mark);
        }
        step(commit);
    }
    double seconds = (double)(clock() - start) / CLOCKS_PER_SEC;
    printf("%ld orders, SQLite %s in memory: %.0f commits a second\n", orders, sqlite3_libversion(), orders / seconds);
    return 0;
}
