/*
 * The loader over damaged logs: cut at every length, with every link led astray, with every byte changed, and with each
 * thing in it that the loader must say something of.
 *
 *     damages LOG FOLDER
 */
#include <string.h>

#include "damage.h"

int main(int count, char **words)
{
    if (count != 3)
        return 2;
    begin_tries(words[1], words[2], &good);
    must_hold(try_log(&good, "good log", 0) == 0 && strlen(tried_out) < sizeof good_out, "good log", 0);
    strcpy(good_out, tried_out);
    damage_fields();
    damage_meanings();
    damage_chains();
    damage_payloads();
    add_blocks();
    damage_anywhere();
    report("demo: the loader ended in order on %u logs: cut, or with a link, a field or a byte changed\n", tried_count);
    return 0;
}
