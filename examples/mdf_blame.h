/*
 * What is wrong with a chain of data lists that the library refused: its number says why, and this says where.
 */
#ifndef MDF_BLAME_H
#define MDF_BLAME_H

#include "mdf_file.h"

/* Whether a refusal is that of a chain, and so the same for every record. */
int mdf_is_of_chain(uint32_t reply);

/* Says in `trouble` why a chain was refused, or the one data block in its place, and for which block: the first bad one, what
 * stands there and what was expected. `what` names the chain for people; its data blocks should have that id. Gives 0. */
int mdf_blame_chain(mdf_file *file, const char *what, uint64_t start, uint32_t id, uint32_t reply);

#endif
