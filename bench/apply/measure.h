/* What the programs that measure other programs share. */
#ifndef MEASURE_H
#define MEASURE_H

/* Ends the program with `what` on standard error, unless this holds. */
void must(int holds, const char *what);

/* Runs a command five times with `file` as its standard input, and prints the median of its processor time, in
 * milliseconds, and the most memory that it had, in kilobytes. A command that fails or answers nothing ends the
 * program. */
void measure(const char *file, char **words);

/* SQLite without its memory statistics and its locks, which a program has to ask for before it calls anything else. */
void make_lean(void);

#endif
