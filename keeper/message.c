/* The words of the codes. */
#include "gubzelk.h"

const char *gz_message(int code) {
    switch (code) {
    case GZ_OK: return "done";
    case GZ_IDLE: return "nothing new";
    case GZ_AWAY: return "no source listens";
    case GZ_LAGS: return "the file doesn't have everything, and can't be brought further now";
    case GZ_NO_MEMORY: return "memory ran out";
    case GZ_SQLITE: return "SQLite refuses";
    case GZ_BUSY: return "the database is locked";
    case GZ_NOT_WAL: return "the database isn't in WAL mode: PRAGMA journal_mode=WAL";
    case GZ_NO_FILE: return "the main database is no file, or SQLite isn't thread-safe";
    case GZ_TAKEN: return "a source or a replica keeps the file already";
    case GZ_TABLE_TAKEN: return "a table has the name of the mark and another shape";
    case GZ_IN_TRANSACTION: return "the connection is in a transaction already";
    case GZ_NO_TRANSACTION: return "no transaction of gz_begin is open";
    case GZ_ROLLED_BACK: return "SQLite refused COMMIT and rolled the transaction back";
    case GZ_LONG_PATH: return "the path of the socket is longer than 107 bytes";
    case GZ_SYSTEM: return "the system gives no socket, thread, lock file or random bytes";
    case GZ_NOT_REPLICA: return "the file is a database that no replica was";
    case GZ_OTHER_ROLE: return "the file is a source's where a replica's is wanted, or the other way round";
    default: return "no code of the library";
    }
}
