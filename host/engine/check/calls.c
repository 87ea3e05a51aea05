/* Makes calls through the wrappers of formula.h and writes every field of every answer. */
#include "formula.h"

#include <inttypes.h>
#include <stdio.h>
#include <string.h>

static const int32_t recording[] = {140, 152, 160, 148, 155};
static const int32_t long_recording[FORMULA_RECORDING_READINGS + 1] = {1};
static formula_cache cache;
static uint16_t places[FORMULA_PLACES];

static void edit(const char *text)
{
    uint32_t part;
    formula_edit_answer answer = formula_cache_edit(&cache, text, strlen(text), places);
    printf("edit %" PRIu32 " %" PRIu32 " %" PRIu32 " %" PRIu32 " %" PRIu32 ":", answer.refusal,
           answer.place, answer.whole, answer.parts, answer.added);
    for (part = 0; part < answer.parts; part++) {
        printf(" %u", (unsigned)places[part]);
    }
    printf("\n");
}

static void preview(uint32_t entry, uint32_t allowance)
{
    char name[FORMULA_NAME_BYTES + 1];
    char other[FORMULA_NAME_BYTES + 1];
    formula_preview_answer answer = formula_cache_preview(&cache, entry, allowance);
    formula_name_text(answer.name, name);
    formula_name_text(answer.other, other);
    printf("preview %" PRIu32 " %" PRIu32 " %" PRIu32 " %" PRIu32 " %" PRId32 " %" PRIu32 " [%s] [%s]\n",
           answer.refusal, answer.finished, answer.worked, answer.kind, answer.first, answer.second, name,
           other);
}

/* Behind the text it writes two of the bytes that were lent, which keep their contents. */
static void print(uint32_t entry, size_t room)
{
    static char text[FORMULA_TEXT_BYTES + 2];
    formula_print_answer answer;
    memset(text, '#', sizeof text);
    answer = formula_cache_print(&cache, entry, text, room);
    printf("print %" PRIu32 " %" PRIu32 " [%.*s]\n", answer.refusal, answer.length, (int)answer.length + 2, text);
}

static void evaluate(const char *text, size_t length, const int32_t *readings, size_t readings_length, uint32_t place)
{
    char name[FORMULA_NAME_BYTES + 1];
    char other[FORMULA_NAME_BYTES + 1];
    formula_evaluate_answer answer = formula_text_evaluate(text, length, readings, readings_length, place);
    formula_name_text(answer.name, name);
    formula_name_text(answer.other, other);
    printf("evaluate %" PRIu32 " %" PRIu32 " %" PRIu32 " %" PRIu32 " %" PRId32 " %" PRIu32 " [%s] [%s]\n",
           answer.refusal, answer.place, answer.parts, answer.kind, answer.first, answer.second, name, other);
}

/* The first places of a text. */
static void evaluate_places(const char *text, uint32_t count)
{
    uint32_t place;
    for (place = 0; place < count; place++) {
        evaluate(text, strlen(text), recording, 5, place);
    }
}

/* Text and recording are constants: a call that writes to them ends the program. */
static void evaluations(void)
{
    static const char long_text[FORMULA_TEXT_BYTES + 1] = "1";
    evaluate_places("let x = 2 in data.skip(1).take(x)", 8);
    evaluate_places("\\abcdefgh -> \\z9 -> abcdefgh.add(z9)", 5);
    evaluate_places("-2147483648.div(-1)", 3);
    evaluate_places("data.", 1);
    evaluate_places("abcdefgh.add(abcdefghi)", 1);
    evaluate("1", 1, recording, 5, UINT32_MAX);
    evaluate("data.count()!", 12, NULL, 0, 1);
    evaluate(NULL, 0, NULL, 0, 0);
    evaluate(NULL, 0, long_recording, FORMULA_RECORDING_READINGS, 0);
    evaluate(NULL, 0, long_recording, FORMULA_RECORDING_READINGS + 1, 0);
    evaluate(long_text, FORMULA_TEXT_BYTES, long_recording, FORMULA_RECORDING_READINGS, 1);
    evaluate(long_text, FORMULA_TEXT_BYTES + 1, long_recording, FORMULA_RECORDING_READINGS + 1, 1);
}

static void depth(uint32_t entry)
{
    printf("depth %u\n", formula_cache_run_depth(&cache, entry));
}

int main(void)
{
    memset(&cache, 0xff, sizeof cache);
    printf("open %" PRIu32 "\n", formula_cache_open(&cache, long_recording, FORMULA_RECORDING_READINGS + 1));
    edit("data");
    preview(0, 1);
    print(0, FORMULA_TEXT_BYTES);
    printf("open %" PRIu32 "\n", formula_cache_open(&cache, NULL, 0));
    edit("data.count()");
    preview(1, 1);
    printf("open %" PRIu32 "\n", formula_cache_open(&cache, recording, 5));
    edit("let x = 2 in data.skip(1).take(x)");
    preview(4, 1);
    preview(4, 1);
    edit("let x = 3 in data.skip(1).take(x)");
    preview(6, 512);
    edit("\\abcdefgh -> \\z9 -> abcdefgh.add(z9)");
    preview(9, 512);
    preview(10, 512);
    preview(11, 512);
    edit("-2147483648.div(-1)");
    preview(14, 512);
    preview(12, 0);
    preview(15, 0);
    edit("data.");
    edit("");
    edit("data.sumBy(\\p -> data.countWhere(\\q -> q.gt(p)))");
    depth(21);
    depth(20);
    depth(19);
    depth(18);
    depth(22);
    edit("let f = \\b -> data.take(b).longestRun(\\c -> c) in data.sumBy(f).add(data.countWhere(f)).add(data.sum())");
    depth(32);
    depth(31);
    depth(33);
    edit("data.bestSum(2)");
    preview(33, 512);
    edit("data.bestAt(2)");
    preview(34, 512);
    edit("data.bestSum(6)");
    preview(36, 512);
    edit("-7.div(2)");
    preview(38, 512);
    edit("\\abcdefgi -> \\abcdefgh -> abcdefgi.add(abcdefgh)");
    preview(41, 512);
    edit("\\abcdefgh -> abcdefghi");
    edit("data.countWhen(1)");
    print(4, FORMULA_TEXT_BYTES);
    print(6, 20);
    print(6, 19);
    print(6, 0);
    print(37, 2);
    print(43, FORMULA_TEXT_BYTES);
    print(42, FORMULA_TEXT_BYTES);
    print(39, 8);
    print(39, 7);
    print(32, FORMULA_TEXT_BYTES);
    print(44, FORMULA_TEXT_BYTES);
    edit("let f = \\a -> a in f.add(\\a -> f)");
    print(45, FORMULA_TEXT_BYTES);
    print(46, FORMULA_TEXT_BYTES);
    print(47, FORMULA_TEXT_BYTES);
    edit("(\\a -> a).count()");
    print(48, FORMULA_TEXT_BYTES);
    edit("\\b -> data.sumBy(\\a -> a)");
    print(50, FORMULA_TEXT_BYTES);
    print(52, FORMULA_TEXT_BYTES);
    edit("\\a -> let x = a in \\a -> x.add(a)");
    preview(53, 512);
    preview(54, 512);
    preview(55, 512);
    depth(55);
    depth(52);
    edit("data.skip(-2)");
    preview(57, 512);
    edit("data.take(-2)");
    preview(58, 512);
    edit("data.at(-1)");
    preview(59, 512);
    edit("data.at(-2147483648)");
    preview(60, 512);
    edit("data.take(-2147483648)");
    preview(61, 512);
    memset(&cache, 0xff, sizeof cache);
    depth(511);
    depth(512);
    evaluations();
    return 0;
}
