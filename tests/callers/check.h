/* What the C programs of this folder share: each check that fails is printed with its line, and the checks are counted. */
int printf(const char *format, ...);

static unsigned checks, failures;

#define CHECK(condition) check((condition), #condition, __FILE__, __LINE__)

static void check(int holds, const char *condition, const char *file, int line)
{
    checks++;
    if (!holds) {
        failures++;
        printf("%s:%d: not so: %s\n", file, line, condition);
    }
}
