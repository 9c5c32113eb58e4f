/* Lines of reports are compared by their fields, since structs have gaps, and doubles by their patterns, since 0 and -0 are not
 * the same. The limits program, the fuzz target and the bench use it. */
#ifndef SAME_LINE_H
#define SAME_LINE_H

#include "mf4.h"

int same_line(mf4_report_reply a, mf4_report_reply b);

/* What a refused report returns. */
mf4_report_reply refused_line(uint32_t reply, uint64_t told);

#endif
