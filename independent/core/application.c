/* 01, 'X.2, fixed application': the verdict, check after check. */
#include "application.h"

#include "fields.h"
#include "links.h"
#include "opening.h"

ind_answer ind_application(const uint8_t *file, size_t length,
                           ind_layout *layout)
{
    ind_marks targets;
    ind_answer answer = ind_opening(file, length, IND_X2_LEAST_LENGTH,
                                    IND_X2_TYPE, IND_VERSION_1);
    if (answer.number == IND_ACCEPTED)
        answer = ind_application_groups(file, ind_end(length), layout);
    if (answer.number == IND_ACCEPTED)
        answer = ind_application_contents(file, layout, &targets);
    if (answer.number == IND_ACCEPTED)
        answer = ind_application_links(file, layout, &targets);
    return answer;
}

ind_answer ind_x2(const uint8_t *file, size_t length)
{
    ind_layout layout;
    return ind_application(file, length, &layout);
}
