/* How long searches are in tables of random keys: a simulation that shares no code with the library. It prints, for each
   number of slots, the mean number of groups that the search for a present key reads, and the most that any search
   reads, over 100 tables that are filled to 87 percent. A key is only its hash: 32 random bits.

     cc -O2 bench/random_searches.c -o build/random_searches && build/random_searches > rust/tests/data/random_searches.txt
*/
#include <stdint.h>
#include <stdio.h>
#include <stdlib.h>
#include <string.h>

enum { GROUP = 16, TABLES = 100 };

static uint64_t state;

/* splitmix64 */
static uint64_t number(void)
{
    uint64_t z = (state += 0x9e3779b97f4a7c15);

    z = (z ^ (z >> 30)) * 0xbf58476d1ce4e5b9;
    z = (z ^ (z >> 27)) * 0x94d049bb133111eb;
    return z ^ (z >> 31);
}

/* The number of groups that a search from this home reads up to the first free slot, which it puts into *found. */
static uint64_t groups_from(const uint8_t *taken, uint64_t slots, uint64_t home, uint64_t *found)
{
    for (uint64_t group = 0; group < slots / GROUP; group++)
        for (uint64_t at = 0; at < GROUP; at++) {
            *found = (home + 8 * group * (group + 1) + at) % slots;
            if (!taken[*found])
                return group + 1;
        }
    abort();
}

int main(void)
{
    printf("# slots, mean groups of a present key, most groups of a search; made by bench/random_searches.c\n");
    for (unsigned power = 10; power <= 20; power += 2) {
        uint64_t slots = (uint64_t)1 << power, items = slots * 57015 / 65536, sum = 0, most = 0, found;
        uint8_t *taken = malloc(slots);

        for (state = 1; state <= TABLES; ) {
            uint64_t seed = state;

            state *= 0x2545f4914f6cdd1d;
            memset(taken, 0, slots);
            for (uint64_t item = 0; item < items; item++) {
                sum += groups_from(taken, slots, (uint32_t)number() % slots, &found);
                taken[found] = 1;
            }
            for (uint64_t home = 0; home < slots; home++) {
                uint64_t groups = groups_from(taken, slots, home, &found);

                most = groups > most ? groups : most;
            }
            state = seed + 1;
        }
        printf("%llu %.4f %llu\n", (unsigned long long)slots, (double)sum / ((double)items * TABLES),
               (unsigned long long)most);
        free(taken);
    }
    return 0;
}
