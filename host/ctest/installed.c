/* Built as a user would build it, with the installed header and library and the flags that pkg-config gives. */
#include <hsd.h>

int main(void)
{
    return hsd_day(2015, 7, 7) == 57210 ? 0 : 1;
}
