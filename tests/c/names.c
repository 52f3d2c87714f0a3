/* The names of refusals, as docs/PROTOCOL.md has them in its tables, and the one of no refusal. */
#include "checks.h"

#include <stdio.h>

static const struct {
    int32_t number;
    const char *name;
} NAMES[] = {
    {GOZDRIT_OK, "OK"},
    {1, "Short"},
    {2, "Version"},
    {3, "CsrcList"},
    {4, "Extension"},
    {5, "Padding"},
    {6, "NoOsn"},
    {11, "Short"},
    {12, "Version"},
    {13, "Padded"},
    {14, "NotRtpfb"},
    {15, "NotNack"},
    {16, "Length"},
    {17, "Empty"},
    {18, "WrongMedia"},
    {19, "WrongReporter"},
    {31, "UnknownSource"},
    {32, "UnknownType"},
    {33, "NotStarted"},
    {34, "Far"},
    {35, "Late"},
    {36, "Duplicate"},
    {37, "TooLong"},
    {38, "Unasked"},
    {39, "PastEnd"},
    {40, "HasStarted"},
    {44, "PaddedEmpty"},
    {45, "Exhausted"},
    {51, "BadType"},
    {52, "SameSsrc"},
    {53, "BadLimit"},
    {54, "Count"},
    {55, "BadType"},
    {56, "SameType"},
    {57, "NoType"},
    {71, "EmptyHandle"},
    {72, "HandleInUse"},
    {73, "OutOfMemory"},
    {74, "TooLarge"},
    {75, "NoRoom"},
    {76, "Null"},
    {77, "BadSize"},
    {91, "Short"},
    {92, "Version"},
    {93, "Header"},
    {94, "WrongSource"},
    {95, "KeyEnd"},
    {96, "WrongFlag"},
    {97, "TooOld"},
    {98, "TakenBefore"},
    {99, "WrongTag"},
    {100, "Full"},
    {101, "OutOfMemory"},
    {102, "BadKey"},
};

/* The row of a number, or null where it has none. */
static const char *name_of(int32_t number) {
    for (size_t i = 0; i < sizeof NAMES / sizeof *NAMES; i++) {
        if (NAMES[i].number == number) return NAMES[i].name;
    }
    return NULL;
}

/* Each number up to 300 has the name of its row, or none. 21 and 22 are those of a trace, which no call answers. */
void test_names(void) {
    static const int32_t others[] = {INT32_MIN, -256, -1, 256 + 31, 65536 + 31, INT32_MAX};
    size_t named = 0;
    for (int32_t number = 0; number < 300; number++) {
        const char *expected = name_of(number), *name = gozdrit_refusal_name(number);
        char what[64];
        snprintf(what, sizeof what, "%d is named '%s'", (int)number, name);
        check(strcmp(name, expected ? expected : "") == 0, what, __FILE__, __LINE__);
        named += expected != NULL;
    }
    CHECK(named == sizeof NAMES / sizeof *NAMES); /* no number has two rows */
    for (size_t i = 0; i < sizeof others / sizeof *others; i++) CHECK(gozdrit_refusal_name(others[i])[0] == '\0');
}
