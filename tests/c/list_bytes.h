/* The bytes of data lists as hex, shared by reading and writing. */
#ifndef LIST_BYTES_H
#define LIST_BYTES_H

#define DL "23 23 44 4C 00 00 00 00 "
#define ZERO8 "00 00 00 00 00 00 00 00 "
#define LEN(low) low " 00 00 00 00 00 00 00 "
#define LINK_COUNT(low) LEN(low)

/* next 9, data links 0x50 and 0x60, and then the length 10 or the offsets 0 and 10 */
#define TWO_EQUAL DL LEN("40") LINK_COUNT("03") LEN("09") LEN("50") LEN("60") "01 00 00 00 02 00 00 00 " LEN("0A")
#define TWO_VARIABLE \
    DL LEN("48") LINK_COUNT("03") LEN("09") LEN("50") LEN("60") "00 00 00 00 02 00 00 00 " LEN("00") LEN("0A")

#endif
