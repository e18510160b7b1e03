/* Measures lines of a script without those that prepare them. */
#ifndef AFTER_H
#define AFTER_H

/* Runs a command three times on a script, and prints the number of lines after its first empty line, and the least
 * processor time for one of them, in nanoseconds. The command must answer each other line by one line, and must answer
 * the lines before the empty one before it gets those after it. */
void measure_after(const char *file, char **words);

#endif
