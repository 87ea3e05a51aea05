/*
 * Keys from the bytes that a terminal sends. A key is a byte or an escape sequence; a paste comes between two of its
 * own. A sequence that is not known is taken in whole and ignored.
 */
#ifndef KEYS_H
#define KEYS_H

#include <stdbool.h>
#include <stddef.h>

/* Bytes of a paste that are gathered; a longer one comes in pieces. */
#define PASTE_BYTES 4096

enum key {
    KEY_NONE, /* the byte ends no key */
    KEY_BYTE,
    KEY_PASTE,
    KEY_ENTER,
    KEY_LEFT,
    KEY_RIGHT,
    KEY_WORD_LEFT,
    KEY_WORD_RIGHT,
    KEY_HOME,
    KEY_END,
    KEY_UP,
    KEY_DOWN,
    KEY_BACKSPACE,
    KEY_DELETE,
    KEY_DELETE_WORD,
    KEY_DELETE_TO_START,
    KEY_DELETE_TO_END,
    KEY_REDRAW,
    KEY_SUSPEND,
    KEY_LEAVE,
    KEY_OTHER
};

enum keys_state { KEYS_GROUND, KEYS_ESCAPE, KEYS_CONTROL, KEYS_SINGLE };

/* A reader of keys; all zero at the start. */
struct keys {
    enum keys_state state;
    unsigned parameters[2]; /* the first numbers of a control sequence */
    unsigned parameter;     /* how many of them are behind */
    bool has_modifier;      /* an ESC stood before the sequence, as some terminals send the Alt key */
    bool is_ignored;        /* a byte of the sequence has no meaning here */
    bool is_pasting;
    char byte; /* of KEY_BYTE */
    char paste[PASTE_BYTES];
    size_t paste_length; /* of KEY_PASTE; the caller takes the bytes before the next call */
    bool is_paste_taken;
};

/* Takes a byte. Gives the key that it ends. */
enum key keys_take(struct keys *keys, unsigned char byte);

/* Whether more bytes are awaited for a key that has begun. A paste may take any time, and goes on up to its end. */
bool keys_are_midway(const struct keys *keys);

/* No more bytes came for a while: what has begun is no sequence, and an ESC by itself is no key. */
void keys_settle(struct keys *keys);

#endif
