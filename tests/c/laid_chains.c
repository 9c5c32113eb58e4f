#include "laid_chains.h"

#include <string.h>

/* The data of the blocks follows that which is taken already. Gives the address behind the last block. */
static size_t lay_list(size_t at, const char *id, const laid_list *list, const uint8_t *data, size_t *taken)
{
    const int is_one_length = (list->flags & MF4_LIST_EQUAL_LENGTH) != 0;
    const size_t count = strlen(list->sizes), fields = at + 32 + 8 * count;
    size_t end = fields + 8 + 8 * (is_one_length ? 1 : count), i;
    put_block(at, "##DL", end - at, 1 + count);
    put(fields, list->flags, 1), put(fields + 4, count, 4);
    if (is_one_length)
        put(fields + 8, list->length, 8);
    for (i = 0; i < count; i++) {
        const size_t size = (size_t)(list->sizes[i] - '0');
        if (!is_one_length)
            put(fields + 8 + 8 * i, *taken, 8);
        put(at + 32 + 8 * i, end, 8);
        end = put_data_of(end, id, data + *taken, size);
        *taken += size;
    }
    return end;
}

laid lay_chain(size_t at, const char *id, const uint8_t *data, const laid_list *lists)
{
    laid made = { { 0 }, 0 };
    size_t taken = 0, i;
    for (i = 0; lists[i].sizes != NULL; i++) {
        if (i > 0)
            put(made.places[i - 1] + 24, at, 8);
        made.places[i] = at;
        at = lay_list(at, id, &lists[i], data, &taken);
    }
    made.end = at;
    return made;
}
