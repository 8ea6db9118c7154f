/* headers: what callers are answered whose compilers take nbft.h as C89, and for another calling convention. */
#include "answers.h"
#include <stdio.h>

static unsigned show(const char *name, void (NBFT_CALL *ask)(struct answers *))
{
    struct answers answers;

    ask(&answers);
    printf("%s: %u bytes built, %u fields, %u objects and %u records read by name, %u wrong\n", name, answers.length,
           answers.fields, answers.objects, answers.records, answers.wrong);
    return answers.wrong;
}

int main(void)
{
    return show("C89", answers_as_c89) + show("-mabi=ms", answers_by_ms) != 0;
}
