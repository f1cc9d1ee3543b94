/* Looks for primes, and so long wants all the time that it can have. It sleeps between, and the machine is idle. */
#include <stdbool.h>
#include "user.h"

enum { THOUSANDS = 8, PAUSE = 12, ROOM = 1300 };

static uint16_t found[ROOM] = {2};
static unsigned count = 1;

static bool is_prime(unsigned number)
{
    for (unsigned i = 0; i < count && found[i] * found[i] <= number; i++)
        if (number % found[i] == 0)
            return false;
    return true;
}

void primes(void)
{
    unsigned number = 3;
    for (unsigned thousand = 1; thousand <= THOUSANDS; thousand++) {
        for (; number < thousand * 1000; number++)
            if (is_prime(number) && count < ROOM)
                found[count++] = number;
        print("primes: %u below %u, the last is %u\n", count, number, found[count - 1]);
        call(CALL_SLEEP, PAUSE);
    }
    print("primes: done\n");
}
