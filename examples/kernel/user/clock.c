/* Tells the time, in the ticks of the timer. */
#include "user.h"

enum { TICKS = 25 };

void tell_time(void)
{
    for (unsigned ticks = TICKS;; ticks += TICKS) {
        call(CALL_SLEEP, TICKS);
        print("clock: %u ticks\n", ticks);
    }
}
