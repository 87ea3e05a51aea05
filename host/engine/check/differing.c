/* The screen over an evaluation that is wrong: for each thing that can be shown, in another field of the answer. */
#include "formula.h"

static formula_evaluate_answer wrong_evaluate(const char *text, size_t text_length, const int32_t *recording,
                                              size_t recording_length, uint32_t place)
{
    formula_evaluate_answer answer = formula_text_evaluate(text, text_length, recording, recording_length, place);
    if (answer.kind == FORMULA_KIND_NUMBER) {
        answer.first++;
    } else if (answer.kind == FORMULA_KIND_WINDOW) {
        answer.second++;
    } else if (answer.kind == FORMULA_KIND_FUNCTION) {
        answer.name++;
    } else if (answer.kind == FORMULA_KIND_DELAYED) {
        answer.other = answer.name;
    } else if (answer.first == FORMULA_REASON_UNBOUND_NAME) {
        answer.kind = FORMULA_KIND_NUMBER;
    } else if (answer.first == FORMULA_REASON_DIVISION_BY_ZERO) {
        answer.refusal = FORMULA_REFUSAL_NO_SUCH_ENTRY;
    } else {
        answer.parts++;
    }
    return answer;
}

#define formula_text_evaluate wrong_evaluate
#include "../../../shell/plain_rows.c"
