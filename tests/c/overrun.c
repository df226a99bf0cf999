/*
 * States one cell more than a buffer has, so that set-up writes outside it. A
 * memory checker has to object; if it does not, it does not see the library.
 */
#include "lent.h"

int main(void)
{
    const struct throttle_setting s = {40, 1, 4, 2, 6, 10, 4, 1, 1, THROTTLE_PROFILE_LARGE};
    struct lent m = lend(&s);
    m.threads = realloc(m.threads, 2 * sizeof *m.threads);
    if (!m.threads)
        abort();
    uint32_t number = setup(&m);
    give_back(&m);
    return (int)number;
}
