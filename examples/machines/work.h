/* The transactions of the example. Number k changes the same rows whenever it runs on what the ones before it left. */
#ifndef MACHINES_WORK_H
#define MACHINES_WORK_H
#include "machines.h"

/* A client has a basket of up to 5 items, and leaves after 400 transactions. In each 500th transaction a photo comes
 * that takes more than one message. */
static const char *const WORK[] = {
    "INSERT INTO client SELECT ?1, 'client ' || ?1, iif(?1 % 7, 'c' || ?1 || '@example.org', NULL)",
    "INSERT INTO basket SELECT ?1, 'item ' || (1 + (7 * ?1 + value) % 50), 1 + (?1 + value) % 3"
    " FROM json_each('[0,1,2,3,4]') WHERE value <= ?1 % 5",
    /* two clients swap what the unique index keeps apart */
    "UPDATE client SET email = 'nobody' WHERE id = ?1 - 2 AND ?1 % 2",
    "UPDATE client SET email = 'c' || (?1 - 2) || '@example.org' WHERE id = ?1 - 1 AND ?1 % 2",
    "UPDATE client SET email = 'c' || (?1 - 1) || '@example.org' WHERE id = ?1 - 2 AND ?1 % 2",
    "UPDATE item SET price = price + ?1 % 9 - 4, photo = iif(?1 % 500, photo, zeroblob(300000 + ?1))"
    " WHERE name = 'item ' || (1 + ?1 % 50)",
    "DELETE FROM basket WHERE client = ?1 - 400",
    "DELETE FROM client WHERE id = ?1 - 400",
    "INSERT INTO history SELECT ?1, count(*) FROM basket",
};
enum { STATEMENTS = sizeof WORK / sizeof *WORK };

struct work {
    sqlite3 *db;
    sqlite3_stmt *statements[STATEMENTS];
    /* how many transactions the database has */
    int64_t done;
};

static inline struct work open_work(sqlite3 *db) {
    struct work work = {.db = db, .done = number(db, "SELECT max(number) FROM history")};
    for (int i = 0; i < STATEMENTS; i++) work.statements[i] = prepare(db, "%s", WORK[i]);
    return work;
}

/* Makes the changes of the next transaction, which the caller begins and commits. */
static inline void work_once(struct work *work) {
    work->done++;
    for (int i = 0; i < STATEMENTS; i++) {
        check(work->db, sqlite3_bind_int64(work->statements[i], 1, work->done));
        run_prepared(work->db, work->statements[i]);
    }
}
#endif
