/* Channel blocks are compared by their fields, since structs have gaps. The limits program and the fuzz target use it. */
#ifndef SAME_CHANNEL_H
#define SAME_CHANNEL_H

#include "mf4.h"

int same_channel_block(mf4_channel_block a, mf4_channel_block b);

#endif
