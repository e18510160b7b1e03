/* Makes the changesets that tables are built, changed and emptied by, and applies them with SQLite.
 *
 *   apply make ROWS KIND        writes them on standard output, each behind its length in four bytes
 *   apply groups ROWS KIND      the same in groups, with mixed changesets (making.h)
 *   apply sqlite | lean         reads them from standard input and has SQLite apply them; lean is SQLite without statistics
 *                               and locks
 *   apply times sqlite | lean TURNS   reads groups, applies them so often, and prints each group's times (times.h)
 *   apply measure FILE WORDS    runs a command five times with FILE as its standard input, and prints the median of its
 *                               processor time, in milliseconds, and the most memory that it had, in kilobytes
 *
 * SQLite's tables are one WITHOUT ROWID table in memory. */
#include "making.h"
#include "measure.h"
#include "times.h"

#include <sqlite3.h>

#include <stdint.h>
#include <stdio.h>
#include <stdlib.h>
#include <string.h>

static void apply(void) {
    sqlite3 *database = new_table();
    unsigned char head[4], *text = malloc(MOST_BYTES + 20000);
    must(text != NULL, "memory");
    while (fread(head, 1, 4, stdin) == 4) {
        size_t len = length_of(head);
        must(len <= MOST_BYTES + 20000 && fread(text, 1, len, stdin) == len, "read");
        apply_text(database, text, len);
    }
    printf("%ld changes\n", (long)sqlite3_total_changes(database));
}

int main(int count, char **words) {
    if (count == 4 && !strcmp(words[1], "make")) make(strtoull(words[2], 0, 10), words[3]);
    else if (count == 4 && !strcmp(words[1], "groups")) make_groups(strtoull(words[2], 0, 10), words[3]);
    else if (count > 3 && !strcmp(words[1], "measure")) measure(words[2], words + 3);
    else if (count == 4 && !strcmp(words[1], "times")) {
        if (!strcmp(words[2], "lean")) make_lean();
        times(words[2], atoi(words[3]));
    } else if (count == 2 && !strcmp(words[1], "sqlite")) apply();
    else if (count == 2 && !strcmp(words[1], "lean")) {
        make_lean();
        apply();
    } else must(0, "make ROWS KIND, groups ROWS KIND, sqlite, lean, times NAME TURNS, or measure FILE WORDS");
    return 0;
}
