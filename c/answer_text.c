/* What an answer means, in words: docs/SPEC.md, "Calls and their numbers". This is the one function of the installed library that is not
 * written in Rattle, and nothing is proved of it: tests/install compares it with that table. */
#include "dwombarine.h"

const char *dw_answer_text(uint64_t number)
{
    static const char *const texts[] = {
        "done",
        "not a table",
        "no such bay",
        "bay taken",
        "bay empty",
        "no such edition",
        "bay not sound",
        "too long",
        "closing bits not right",
        "output too short",
        "not a record",
        "no such layout",
        "not a digest list",
        "name not listed",
        "digest differs",
        "name forbidden",
        "name taken",
        "list full",
    };
    return number < sizeof texts / sizeof *texts ? texts[number] : "no such answer";
}
