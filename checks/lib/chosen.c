/* Which of the bodies of checks/edits/tests a program has, by its number in BODY; 0 if that isn't set, which is the
 * number of none of them. */
#include <stdlib.h>

unsigned chosen_body(void)
{
    const char *number = getenv("BODY");
    return number ? (unsigned)strtoul(number, NULL, 10) : 0;
}
