/* Shows formulas and parts by the screen's own functions, over a cache that is damaged in between. */
#include "../../../shell/plain.c"

#include <string.h>

static struct recording recording = {{140, 152, 160, 148, 155}, 5};
static struct session session;

static void type(const char *text)
{
    (void)take_line(&session, text, strlen(text), false);
}

/* A formula whose cache is damaged after the edit. */
static void type_and_damage(const char *text)
{
    struct edit edit = session_edit(&session, text, strlen(text));
    turn_away(&session);
    session.cache.heads[1] = FORMULA_RECORDING_READINGS + 1;
    (void)show(&session, &edit, false);
}

int main(void)
{
    (void)session_open(&session, &recording);
    memset(&session.cache, 0xff, sizeof session.cache);
    type("data.sum()");
    type("data.sum().add(1)");
    session.cache.links[0] = UINT16_MAX;
    type("data.sum().add(1)");
    type_and_damage("data.max()");
    type("data.max()");
    type("? 1");
    session.cache.heads[0] = 1;
    type("? 1");
    session.cache.links[0] = UINT16_MAX;
    type("? 1");
    return 0;
}
