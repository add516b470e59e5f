/* Tests that the library is of the version of its header. */
#include "check.h"

static void the_version_is_that_of_the_header(void)
{
    CHECK(strcmp(amihunk_version(), AMIHUNK_VERSION) == 0);
}

int main(void)
{
    static const struct test tests[] = {TEST(the_version_is_that_of_the_header)};
    return run_tests(tests, COUNT(tests));
}
