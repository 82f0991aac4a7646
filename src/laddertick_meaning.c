/* The two functions of laddertick.h that read no label: the version, and what a refusal means. They are C and not proved, and call nothing. In the archive they are a member
   of their own, so that a host that calls neither links proved functions alone. */
#include "laddertick.h"
#include "laddertick_messages.h"

const char *laddertick_version(void)
{
    return LADDERTICK_VERSION;
}

const char *laddertick_meaning(uint32_t number)
{
#define ENTRY(number, words) \
    case number:             \
        return words;
    switch (number) {
        LADDERTICK_MESSAGES(ENTRY)
    case 0:
        return "no refusal";
    default:
        return "unknown";
    }
#undef ENTRY
}
