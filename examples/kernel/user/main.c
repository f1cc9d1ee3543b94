/* The first process. It forks twice, so there are three, with a space each; what they have in common is copied, a page
   at a time, when one of them writes it. */
#include "user.h"

int main(void)
{
    if (call(CALL_FORK) == 0)
        primes();
    else if (call(CALL_FORK) == 0)
        tell_time();
    else
        shell();
    return 0;
}
