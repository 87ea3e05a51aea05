#include "keys.h"

#define ESCAPE 0x1b
#define INTERRUPT 0x03
#define MOST_PARAMETER 9999

static enum key control_key(unsigned char byte)
{
    switch (byte) {
    case 0x01: return KEY_HOME;
    case 0x02: return KEY_LEFT;
    case INTERRUPT: return KEY_LEAVE;
    case 0x04: return KEY_LEAVE;
    case 0x05: return KEY_END;
    case 0x06: return KEY_RIGHT;
    case 0x08: return KEY_BACKSPACE;
    case '\n': return KEY_ENTER;
    case 0x0b: return KEY_DELETE_TO_END;
    case 0x0c: return KEY_REDRAW;
    case '\r': return KEY_ENTER;
    case 0x0e: return KEY_DOWN;
    case 0x10: return KEY_UP;
    case 0x15: return KEY_DELETE_TO_START;
    case 0x17: return KEY_DELETE_WORD;
    case 0x1a: return KEY_SUSPEND;
    case 0x7f: return KEY_BACKSPACE;
    default: return KEY_OTHER;
    }
}

/* A sequence by its last byte, where it has no number of its own. The small letters are of rxvt, with Ctrl. */
static enum key letter_key(unsigned char byte, bool is_by_word)
{
    switch (byte) {
    case 'A': return KEY_UP;
    case 'B': return KEY_DOWN;
    case 'C': return is_by_word ? KEY_WORD_RIGHT : KEY_RIGHT;
    case 'D': return is_by_word ? KEY_WORD_LEFT : KEY_LEFT;
    case 'F': return KEY_END;
    case 'H': return KEY_HOME;
    case 'c': return KEY_WORD_RIGHT;
    case 'd': return KEY_WORD_LEFT;
    default: return KEY_OTHER;
    }
}

static enum key numbered_key(struct keys *keys, unsigned number)
{
    switch (number) {
    case 1: return KEY_HOME;
    case 3: return KEY_DELETE;
    case 4: return KEY_END;
    case 7: return KEY_HOME;
    case 8: return KEY_END;
    case 200: keys->is_pasting = true; return KEY_OTHER;
    default: return KEY_OTHER;
    }
}

/* Whether Alt or Ctrl was held: a modifier is one more than the sum of Shift 1, Alt 2 and Ctrl 4. */
static bool is_modified(const struct keys *keys)
{
    unsigned modifier = keys->parameters[1] > 0 ? keys->parameters[1] : keys->parameters[0];
    return keys->has_modifier || (modifier > 1 && ((modifier - 1) & 6) != 0);
}

static void begin_sequence(struct keys *keys, enum keys_state state)
{
    keys->state = state;
    keys->parameters[0] = 0;
    keys->parameters[1] = 0;
    keys->parameter = 0;
    keys->is_ignored = false;
}

/* The pasted bytes so far, if there are any. */
static enum key pasted(struct keys *keys)
{
    keys->is_paste_taken = true;
    return keys->paste_length > 0 ? KEY_PASTE : KEY_OTHER;
}

/* The end of a control sequence. Within a paste only its end counts. */
static enum key finish_control(struct keys *keys, unsigned char byte)
{
    keys->state = KEYS_GROUND;
    if (keys->is_ignored) {
        return KEY_OTHER;
    }
    if (keys->is_pasting) {
        if (byte != '~' || keys->parameters[0] != 201) {
            return KEY_NONE;
        }
        keys->is_pasting = false;
        return pasted(keys);
    }
    return byte == '~' ? numbered_key(keys, keys->parameters[0]) : letter_key(byte, is_modified(keys));
}

static void take_parameter(struct keys *keys, unsigned char byte)
{
    unsigned *number = &keys->parameters[keys->parameter];
    if (byte == ';') {
        keys->parameter = 1;
    } else if (byte >= '0' && byte <= '9') {
        *number = *number < MOST_PARAMETER ? 10 * *number + (unsigned)(byte - '0') : *number;
    } else {
        keys->is_ignored = true;
    }
}

static enum key take_byte(struct keys *keys, unsigned char byte)
{
    if (keys->is_pasting && byte != INTERRUPT) {
        keys->paste[keys->paste_length++] = (char)byte;
        return keys->paste_length == PASTE_BYTES ? pasted(keys) : KEY_NONE;
    }
    keys->is_pasting = false;
    keys->byte = byte == '\t' ? ' ' : (char)byte;
    return byte == '\t' || (byte >= ' ' && byte != 0x7f) ? KEY_BYTE : control_key(byte);
}

static enum key take_ground(struct keys *keys, unsigned char byte)
{
    if (byte == ESCAPE) {
        keys->has_modifier = false;
        begin_sequence(keys, KEYS_ESCAPE);
        return KEY_NONE;
    }
    return take_byte(keys, byte);
}

/* The byte behind an ESC: it begins a sequence, or is a key with Alt. */
static enum key take_escape(struct keys *keys, unsigned char byte)
{
    if (byte == ESCAPE) {
        keys->has_modifier = true;
        return KEY_NONE;
    }
    if (byte == '[' || byte == 'O') {
        begin_sequence(keys, byte == '[' ? KEYS_CONTROL : KEYS_SINGLE);
        return KEY_NONE;
    }
    keys->state = KEYS_GROUND;
    if (byte == INTERRUPT) {
        return take_byte(keys, byte);
    }
    if (keys->is_pasting) {
        return KEY_NONE;
    }
    switch (byte) {
    case 'b': return KEY_WORD_LEFT;
    case 'f': return KEY_WORD_RIGHT;
    case 0x08: return KEY_DELETE_WORD;
    case 0x7f: return KEY_DELETE_WORD;
    default: return KEY_OTHER;
    }
}

/* A byte that no sequence has breaks one off, and counts for itself. */
static enum key take_control(struct keys *keys, unsigned char byte)
{
    bool is_console = byte == '[' && keys->state == KEYS_CONTROL && keys->parameter == 0 &&
                      keys->parameters[0] == 0 && !keys->is_ignored;
    if (byte < ' ' || byte > '~') {
        keys->state = KEYS_GROUND;
        return take_ground(keys, byte);
    }
    if (byte < '0' || is_console) {
        /* Intermediate bytes; and the console's function keys have a second bracket. */
        keys->is_ignored = true;
        return KEY_NONE;
    }
    if (byte < '@') {
        take_parameter(keys, byte);
        return KEY_NONE;
    }
    return finish_control(keys, byte);
}

enum key keys_take(struct keys *keys, unsigned char byte)
{
    if (keys->is_paste_taken) {
        keys->paste_length = 0;
        keys->is_paste_taken = false;
    }
    switch (keys->state) {
    case KEYS_ESCAPE: return take_escape(keys, byte);
    case KEYS_CONTROL: return take_control(keys, byte);
    case KEYS_SINGLE: return take_control(keys, byte);
    default: return take_ground(keys, byte);
    }
}

bool keys_are_midway(const struct keys *keys)
{
    return keys->state != KEYS_GROUND && !keys->is_pasting;
}

void keys_settle(struct keys *keys)
{
    if (keys_are_midway(keys)) {
        keys->state = KEYS_GROUND;
    }
}
