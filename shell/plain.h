/* The screen line by line: reads a formula from each line, and prints what its parts come to. */
#ifndef PLAIN_H
#define PLAIN_H

#include "session.h"

/*
 * Answers the lines of an input, with a prompt for each if they are typed, else with an echo of it. Blank lines, and
 * lines that begin with '#', are passed over. A line of '?' and the number of a part shows that part of the last
 * formula that was taken in full: as a text of its own, with what its lets stand for put in. If parts are checked,
 * each that is drawn finished is also evaluated without the cache. Gives how many were evaluated to something else.
 */
unsigned long plain_run(struct session *session, FILE *input, bool is_typed, bool is_checked);

#endif
