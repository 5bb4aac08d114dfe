/* The core's own text, compiled once more under other names and with the check
 * of the layout in the place of the verdict. */
#include "unjudged.h"

#include "core/core.h"

static ind_answer layout_alone(const uint8_t *file, size_t length,
                               ind_layout *layout)
{
    return ind_application_layout(
        file, (uint32_t)length - IND_CHECKSUM_SIZE, layout);
}

#define ind_application layout_alone
#define ind_routes_from unjudged_routes_from
#define ind_routes_flat unjudged_routes_flat

#include "core/routes.c"

#include "core/choices.c"
