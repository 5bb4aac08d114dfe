/* 01, 'X.2, fixed application': the verdict. */
#ifndef IND_APPLICATION_H
#define IND_APPLICATION_H

#include "layout.h"

/* The verdict of an X.2. */
ind_answer ind_x2(const uint8_t *file, size_t length);

/* The same; the layout is set where it is accepted. */
ind_answer ind_application(const uint8_t *file, size_t length,
                           ind_layout *layout);

#endif
