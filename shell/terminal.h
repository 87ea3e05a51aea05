/*
 * The terminal: taken over for a screen, and left as it was found when the program ends or is ended by a signal, but
 * for SIGKILL, which nothing can handle. There is one.
 */
#ifndef TERMINAL_H
#define TERMINAL_H

#include <stdbool.h>
#include <stddef.h>

/* What the program was woken by. */
enum wake { WAKE_INPUT, WAKE_TIME, WAKE_RESIZE, WAKE_SUSPEND, WAKE_CONTINUE, WAKE_HANGUP };

/* Takes the terminal over: raw keys from `input`, a screen of its own on `output`. Gives whether that could be done. */
bool terminal_enter(int input, int output);

/* Leaves the terminal as it was found. Keys that were not read are dropped. Does nothing if it is not taken over. */
void terminal_leave(void);

/* Leaves the terminal, stops the program and those in its group, and takes the terminal over again when it goes on. */
bool terminal_suspend(void);

/* The program was stopped by others and goes on: takes the terminal over again. */
bool terminal_resume(void);

/* The terminal's size; 80 by 24 where it doesn't tell. */
void terminal_size(int *columns, int *rows);

/* Waits for keys, a signal or the end of a time in milliseconds; -1 for no end. */
enum wake terminal_wait(int milliseconds);

/* Reads the keys that are there. Gives how many bytes; 0 where the terminal is gone. */
size_t terminal_read(unsigned char *bytes, size_t room);

#endif
