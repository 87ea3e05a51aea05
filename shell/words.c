#include "words.h"

#include <inttypes.h>
#include <stdio.h>
#include <string.h>

const char *refusal_words(uint32_t refusal)
{
    static const char *const words[] = {
        "accepted",
        "the text is over 1,024 bytes",
        "the recording is over 1,024 readings",
        "too little memory is lent",
        "the cache is ill-formed",
        "no formula goes on like this",
        "the number is beyond 32 bits",
        "the name is over 8 bytes",
        "data can't be bound",
        "no such member, or a wrong number of arguments",
        "a third function within two others",
        "never given",
        "over 16 open marks or 128 parts",
        "the table of 512 entries is full",
        "no such entry",
        "its text is too long, or would be refused",
        "its text by itself would mean another part",
    };
    return refusal < sizeof words / sizeof words[0] ? words[refusal] : "an unknown refusal";
}

bool refusal_has_place(uint32_t refusal)
{
    return refusal >= FORMULA_REFUSAL_UNGRAMMATICAL && refusal <= FORMULA_REFUSAL_TEXT_LIMIT;
}

const char *reason_words(int32_t reason)
{
    static const char *const words[] = {
        "no reason",
        "a name that nothing binds",
        "a part of the wrong kind",
        "division by zero",
        "beyond 32 bits",
        "an index outside, an empty window, or no such stretch",
    };
    return reason >= 0 && reason < (int32_t)(sizeof words / sizeof words[0]) ? words[reason] : "an unknown reason";
}

static void finished_words(const formula_preview_answer *shown, char words[SHOWN_BYTES])
{
    char name[FORMULA_NAME_BYTES + 1];
    char other[FORMULA_NAME_BYTES + 1];
    formula_name_text(shown->name, name);
    formula_name_text(shown->other, other);
    switch (shown->kind) {
    case FORMULA_KIND_NUMBER: (void)snprintf(words, SHOWN_BYTES, "%" PRId32, shown->first); break;
    case FORMULA_KIND_WINDOW:
        (void)snprintf(words, SHOWN_BYTES, "window from %" PRId32 ", length %" PRIu32, shown->first, shown->second);
        break;
    case FORMULA_KIND_FUNCTION: (void)snprintf(words, SHOWN_BYTES, "function of %s", name); break;
    case FORMULA_KIND_DELAYED:
        (void)snprintf(words, SHOWN_BYTES, "waits for %s%s%s", name, shown->other != 0 ? " and " : "", other);
        break;
    default:
        (void)snprintf(words, SHOWN_BYTES, "missing: %s (reason %" PRId32 ")", reason_words(shown->first),
                       shown->first);
        break;
    }
}

void shown_words(const formula_preview_answer *shown, char words[SHOWN_BYTES])
{
    if (shown->refusal != FORMULA_ACCEPTED) {
        (void)snprintf(words, SHOWN_BYTES, "refused (%" PRIu32 "): %s", shown->refusal,
                       refusal_words(shown->refusal));
    } else if (!shown->finished) {
        (void)snprintf(words, SHOWN_BYTES, "not yet");
    } else {
        finished_words(shown, words);
    }
}

void members_like(const char *word, size_t length, char words[sizeof MEMBERS])
{
    const char *member = MEMBERS;
    size_t end = 0;
    while (*member != '\0') {
        size_t count = strcspn(member, " ");
        size_t blank = member[count] == ' ';
        if (count >= length && memcmp(member, word, length) == 0) {
            memcpy(words + end, member, count + blank);
            end += count + blank;
        }
        member += count + blank;
    }
    words[end] = '\0';
    if (end == 0) {
        memcpy(words, MEMBERS, sizeof MEMBERS);
    }
}
