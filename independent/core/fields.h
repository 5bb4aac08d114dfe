/* 01, X.2's 'Fields' and 'Agreement', with what 02's ticket 2 says of balise
 * groups and its ticket 10 of names. */
#ifndef IND_FIELDS_H
#define IND_FIELDS_H

#include "layout.h"
#include "marks.h"

/* What is left of check 6, whether each balise fits, then checks 5 and 7. They
 * look at every record, and marks are set where a link may point: at each
 * boundary, turnout, signal, joint and balise of place 1. The marks hold for a
 * file that passes. */
ind_answer ind_application_contents(const uint8_t *file,
                                    const ind_layout *layout,
                                    ind_marks *targets);

#endif
