#include "hold.h"
#include "say.h"

#include <string.h>
#include <unistd.h>

static const char *chosen = "";

void hold_set(const char *point)
{
    chosen = point;
}

void hold_at(const char *here)
{
    if (strcmp(chosen, here) != 0)
        return;
    reply("holding at %s", here);
    for (;;)
        pause();
}
