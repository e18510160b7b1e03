/* How many commits a database has seen, of all connections. The header of the WAL-index has a counter that each commit
 * increments, and that no checkpoint changes: iChange of https://sqlite.org/walformat.html. */
#include "watch.h"
#include "gubzelk.h"

/* The version of the header, and where it and the counter are, in numbers of 32 bits. */
enum { VERSION = 3007000, VERSION_AT = 0, COUNTER_AT = 2, REGION = 32768 };

/* Maps the header. The pointer stands while the connection is open: it holds a lock that no change of the journal mode
 * gets past. */
static int map_header(struct gz_watch *it) {
    sqlite3_file *file = NULL;
    void volatile *region = NULL;
    int rc = sqlite3_file_control(it->db, "main", SQLITE_FCNTL_FILE_POINTER, &file);
    if (rc || !file || !file->pMethods || file->pMethods->iVersion < 2) return rc ? rc : SQLITE_ERROR;
    rc = file->pMethods->xShmMap(file, 0, REGION, 0, &region);
    it->header = region;
    return rc ? rc : it->header && it->header[VERSION_AT] == VERSION ? SQLITE_OK : SQLITE_ERROR;
}

int gz_begin_watch(struct gz_watch *it, const char *file) {
    int rc = sqlite3_open_v2(file, &it->db, SQLITE_OPEN_READONLY | SQLITE_OPEN_NOMUTEX, NULL);
    if (!rc) rc = sqlite3_exec(it->db, "SELECT count(*) FROM sqlite_schema", NULL, NULL, NULL);
    if (!rc) rc = map_header(it);
    if (!rc) return GZ_OK;
    gz_end_watch(it);
    bool is_memory = (rc & 0xff) == SQLITE_NOMEM || rc == SQLITE_IOERR_NOMEM;
    return is_memory ? GZ_NO_MEMORY : (rc & 0xff) == SQLITE_BUSY ? GZ_BUSY : GZ_SYSTEM;
}

void gz_end_watch(struct gz_watch *it) {
    sqlite3_close(it->db);
    *it = (struct gz_watch){0};
}

uint32_t gz_commits(const struct gz_watch *it) { return __atomic_load_n(it->header + COUNTER_AT, __ATOMIC_ACQUIRE); }
