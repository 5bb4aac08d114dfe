/* 01, X.2's 'Links', with what 02's ticket 2 says of balise groups. */
#ifndef IND_LINKS_H
#define IND_LINKS_H

#include "layout.h"
#include "marks.h"

/* Checks 8 and 9. */
ind_answer ind_application_links(const uint8_t *file,
                                 const ind_layout *layout,
                                 const ind_marks *targets);

#endif
