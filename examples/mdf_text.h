/*
 * Texts for people: as UTF-8 with a NUL, fit for a terminal, and cut with a mark where they are too long.
 */
#ifndef MDF_TEXT_H
#define MDF_TEXT_H

#include "mdf_file.h"

enum { MDF_TEXT_ROOM = 64 }; /* of a name or a unit, with its NUL */

/* A text of one of the four text types. */
void mdf_spell_text(uint8_t data_type, const uint8_t *bytes, size_t length, char *text, size_t room);

/* A text block; "" for the link 0, "(XML)" for an ##MD block. */
int mdf_read_text(mdf_file *file, const char *what, uint64_t address, char text[MDF_TEXT_ROOM]);

/* A control character in a UTF-8 text would be obeyed by a terminal: each of its bytes becomes a '?'. */
void mdf_make_printable(char *text);

#endif
