/* Runs the tests, and counts and compares for them. */
#include "abi.h"

/* How many wrong values are printed: the first ones are the cause of those behind them. */
#define PRINTED 20

static int checks, failures;

/* Counts a comparison. Whether its words are to be printed: it is wrong, and one of the first. */
static bool is_printed(bool wrong)
{
    checks++;
    if (wrong)
        failures++;
    return wrong && failures <= PRINTED;
}

void same(const char *file, int line, const char *what, uint64_t found, uint64_t wanted)
{
    if (is_printed(found != wanted))
        fprintf(stderr, "%s:%d: %s is %lu, not %lu\n", file, line, what, (unsigned long)found, (unsigned long)wanted);
}

void same_bytes(const char *file, int line, const void *found, const void *wanted, size_t length)
{
    if (is_printed(memcmp(found, wanted, length) != 0))
        fprintf(stderr, "%s:%d: bytes differ\n", file, line);
}

void same_answer(const char *file, int line, hollytrot_answer found, uint64_t number, size_t place)
{
    same(file, line, "number", found.number, number);
    same(file, line, "place", found.place, place);
}

void same_text(const char *file, int line, const char *found, const char *wanted)
{
    if (is_printed(strcmp(found, wanted) != 0))
        fprintf(stderr, "%s:%d: \"%s\" is not \"%s\"\n", file, line, found, wanted);
}

int main(void)
{
#define TEST(name) name();
    TESTS(TEST)
#undef TEST
    printf("abi: %d values compared, %d wrong\n", checks, failures);
    return failures != 0;
}
