/* Writes what formula.h says, a line for each: a name and its number. */
#include "formula.h"

#include <stdio.h>

/* The prototypes, as the Rust side declares them. */
static uint32_t (*const open_call)(const int32_t *, size_t, int32_t *, size_t, uint32_t *, size_t,
                                   const uint16_t *, size_t, const uint64_t *, size_t) = formula_open;
static formula_edit_answer (*const edit_call)(const uint8_t *, size_t, uint16_t *, size_t,
                                              const int32_t *, size_t, uint32_t *, size_t, uint16_t *,
                                              size_t, uint64_t *, size_t) = formula_edit;
static formula_preview_answer (*const preview_call)(uint32_t, uint32_t, const int32_t *, size_t,
                                                    const uint32_t *, size_t, const uint16_t *, size_t,
                                                    uint64_t *, size_t) = formula_preview;
static formula_print_answer (*const print_call)(uint32_t, uint8_t *, size_t, const int32_t *, size_t,
                                                const uint32_t *, size_t, const uint16_t *, size_t,
                                                const uint64_t *, size_t) = formula_print;
static formula_evaluate_answer (*const evaluate_call)(const uint8_t *, size_t, const int32_t *, size_t,
                                                      uint32_t) = formula_evaluate;

#define SAY(name, number) printf("%s %lu\n", name, (unsigned long)(number))
#define SIZE(type) SAY("sizeof " #type, sizeof(type))
#define FIELD(type, field) SAY(#type "." #field, offsetof(type, field))
#define VALUE(name) SAY(#name, name)

static void sizes(void)
{
    SIZE(formula_edit_answer);
    SIZE(formula_preview_answer);
    SIZE(formula_print_answer);
    SIZE(formula_evaluate_answer);
    SIZE(formula_cache);
    FIELD(formula_edit_answer, refusal);
    FIELD(formula_edit_answer, place);
    FIELD(formula_edit_answer, whole);
    FIELD(formula_edit_answer, parts);
    FIELD(formula_edit_answer, added);
    FIELD(formula_preview_answer, refusal);
    FIELD(formula_preview_answer, finished);
    FIELD(formula_preview_answer, worked);
    FIELD(formula_preview_answer, kind);
    FIELD(formula_preview_answer, first);
    FIELD(formula_preview_answer, second);
    FIELD(formula_preview_answer, name);
    FIELD(formula_preview_answer, other);
    FIELD(formula_print_answer, refusal);
    FIELD(formula_print_answer, length);
    FIELD(formula_evaluate_answer, refusal);
    FIELD(formula_evaluate_answer, place);
    FIELD(formula_evaluate_answer, parts);
    FIELD(formula_evaluate_answer, kind);
    FIELD(formula_evaluate_answer, first);
    FIELD(formula_evaluate_answer, second);
    FIELD(formula_evaluate_answer, name);
    FIELD(formula_evaluate_answer, other);
    VALUE(FORMULA_RECORDING_READINGS);
    VALUE(FORMULA_TEXT_BYTES);
    VALUE(FORMULA_TEXT_PARTS);
    VALUE(FORMULA_OPEN_MARKS);
    VALUE(FORMULA_OPEN_LAMBDAS);
    VALUE(FORMULA_NAME_BYTES);
    VALUE(FORMULA_TABLE_ENTRIES);
    VALUE(FORMULA_READINGS_CELLS);
    VALUE(FORMULA_HEADS_CELLS);
    VALUE(FORMULA_LINKS_CELLS);
    VALUE(FORMULA_CELLS_CELLS);
    VALUE(FORMULA_PLACES);
    VALUE(FORMULA_CACHE_BYTES);
    VALUE(FORMULA_STEPS_FRAME);
}

static void numbers(void)
{
    VALUE(FORMULA_ACCEPTED);
    VALUE(FORMULA_REFUSAL_TEXT_TOO_LONG);
    VALUE(FORMULA_REFUSAL_RECORDING_TOO_LONG);
    VALUE(FORMULA_REFUSAL_MEMORY_TOO_SMALL);
    VALUE(FORMULA_REFUSAL_CACHE_ILL_FORMED);
    VALUE(FORMULA_REFUSAL_UNGRAMMATICAL);
    VALUE(FORMULA_REFUSAL_NUMBER_OUTSIDE);
    VALUE(FORMULA_REFUSAL_NAME_TOO_LONG);
    VALUE(FORMULA_REFUSAL_DATA_BOUND);
    VALUE(FORMULA_REFUSAL_WRONG_CALL);
    VALUE(FORMULA_REFUSAL_THIRD_LAMBDA);
    VALUE(FORMULA_REFUSAL_LAMBDA_REPEATED);
    VALUE(FORMULA_REFUSAL_TEXT_LIMIT);
    VALUE(FORMULA_REFUSAL_TABLE_FULL);
    VALUE(FORMULA_REFUSAL_NO_SUCH_ENTRY);
    VALUE(FORMULA_REFUSAL_TEXT_UNFIT);
    VALUE(FORMULA_REFUSAL_OTHER_FORM);
    VALUE(FORMULA_KIND_NUMBER);
    VALUE(FORMULA_KIND_WINDOW);
    VALUE(FORMULA_KIND_FUNCTION);
    VALUE(FORMULA_KIND_DELAYED);
    VALUE(FORMULA_KIND_MISSING);
    VALUE(FORMULA_REASON_UNBOUND_NAME);
    VALUE(FORMULA_REASON_WRONG_KIND);
    VALUE(FORMULA_REASON_DIVISION_BY_ZERO);
    VALUE(FORMULA_REASON_BEYOND_32_BITS);
    VALUE(FORMULA_REASON_OUTSIDE);
}

int main(void)
{
    if (open_call == NULL || edit_call == NULL || preview_call == NULL || print_call == NULL || evaluate_call == NULL) {
        return 1;
    }
    sizes();
    numbers();
    return 0;
}
