/* A program against what tools/install put somewhere, by pkg-config: the header's version is the library's. */
#include <nibtoggle.h>

#include <stdio.h>

int main(void)
{
    uint8_t said[128];
    size_t n = nib_say_rule(NIB_REFUSED_LUN_WORKING, said, sizeof said);
    printf("%s: %.*s\n", NIB_VERSION, (int)n, (const char *)said);
    return nib_version() == NIB_VERSION_NUMBER ? 0 : 1;
}
