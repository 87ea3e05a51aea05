/* The live screen: a formula line that is edited key by key, with previews under it. */
#ifndef SCREEN_H
#define SCREEN_H

#include "session.h"

/* Whether a live screen can be had: both are terminals, and the environment names one that can be drawn on. */
bool screen_is_possible(int input, int output);

/*
 * Shows the session on a terminal until it is left by a key. The name is that of the recording. Gives the exit status:
 * 0, or 1 where the terminal can't be used, which is said. The terminal is left as it was found.
 */
int screen_run(struct session *session, const char *name, int input, int output);

#endif
