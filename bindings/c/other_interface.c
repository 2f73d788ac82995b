/* The number of an archive that is not this header's; the gate puts it in place of the library's own. */
#include "juzvanec.h"

uint32_t juzvanec_interface(void)
{
    return JUZVANEC_INTERFACE + 1u;
}
