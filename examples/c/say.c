#include "say.h"

#include <stdarg.h>
#include <stdio.h>

void reply(const char *format, ...)
{
    va_list values;
    va_start(values, format);
    vprintf(format, values);
    va_end(values);
    putchar('\n');
    if (fflush(stdout) != 0)
        fail("the clerk cannot be answered");
}

/* One piece, so that the lines of several offices do not mix. */
void trouble(const char *format, ...)
{
    char text[512];
    va_list values;
    va_start(values, format);
    vsnprintf(text, sizeof text, format, values);
    va_end(values);
    fprintf(stderr, "office: %s\n", text);
}
