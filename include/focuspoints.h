/*
 * The focus points of Nikon photographs: one photograph, a whole script of
 * call lines, and the contents of a maker note.
 *
 * Each function is proved to do what its definition says
 * (crates/focuspoints/specs), which is told here in C's words, for every input:
 * it ends, reads nothing but what it is lent, writes nothing but `out`, and
 * keeps no state, so that any number of threads may call. It allocates nothing.
 * Tested by bindings/test and not proved are this header; that a function calls
 * nothing but memcpy, memmove, memset, memcmp and bcmp (today the first and the
 * third); and that it runs in a thread with a stack of 64 KB.
 *
 * A parameter and the one after it, NAME and NAME_len, are an array and its
 * number of places. What a caller owes:
 * - NAME points at NAME_len places that stay as they are during the call;
 * - NAME is not NULL, even where NAME_len is 0 (any other address will do,
 *   of `out` one that its type can have);
 * - `out` overlaps none of the other arrays.
 * What the arrays hold, how long they are, and every number is free.
 */
#ifndef FOCUSPOINTS_H
#define FOCUSPOINTS_H

#include <stddef.h>
#include <stdint.h>

#ifdef __cplusplus
extern "C" {
#endif

/* What focuspoints_photograph and focuspoints_contents return. The lowest
 * number that applies is returned. */
#define FOCUSPOINTS_OK 0u                    /* the result is in `out` */
#define FOCUSPOINTS_UNREADABLE 1u            /* the block is under 8 or over 1,048,576 bytes, has a bad header, or its directory passes its end */
#define FOCUSPOINTS_NO_RECORD 2u             /* no focus record: tag 00B7 is absent or not of type 7 */
#define FOCUSPOINTS_MANUAL_FOCUS 3u          /* focused by hand */
#define FOCUSPOINTS_BAD_RECORD 4u            /* the record is damaged, too short, or of unknown version */
#define FOCUSPOINTS_POSITION_UNPLACED 5u     /* the recorded position cannot be placed */
#define FOCUSPOINTS_NAMES_UNPLACED 6u        /* no recorded position, and the named points cannot be placed */
#define FOCUSPOINTS_SHORT 13u                /* `out` has too few places */

/* Places of `out`. */
#define FOCUSPOINTS_HEAD 6u       /* numbers of a listing's head */
#define FOCUSPOINTS_A_POINT 6u    /* numbers a point */
#define FOCUSPOINTS_MOST_POINTS 39u
#define FOCUSPOINTS_LISTING 240u  /* always enough for a photograph: 6 + 6 * 39 */
#define FOCUSPOINTS_CONTENTS 5u   /* what contents needs */

/* What focuspoints_script returns where `out` has too few places. */
#define FOCUSPOINTS_NO_ROOM SIZE_MAX
/* No line of a script is answered with more bytes than these. */
#define FOCUSPOINTS_A_LINE 2700u

/*
 * The focus points of one photograph.
 *
 *   block     the maker note, from its byte order mark on
 *   raw_*     the size of the raw data, looked at where raw_given is not 0
 *   picture_* the size of the picture, looked at where picture_given is not 0
 *   model     the camera's name, as NIKON D600, without an ending zero
 *
 * Returns FOCUSPOINTS_OK and writes, from out[0] on:
 *   0, 1  the frame's width and height
 *   2     how many points there are, 1 to 39
 *   3     which of them is the primary, from 0
 *   4     how the camera chose: 0 unknown, 1 single, 2 dynamic, 3 auto,
 *         4 tracking
 *   5     where they come from: 1 recorded, 2 the table of the body's points
 *   6..   six numbers a point: its number (0 if recorded), x, y of the center,
 *         width and height of its area (both 0 if it has none), and whether it
 *         was in focus: 0 unrecorded, 1 no, 2 yes
 * The places behind 6 + 6 * points are kept.
 *
 * Or returns 1 to 6 (above), or FOCUSPOINTS_SHORT where `out` has fewer than
 * 6 + 6 * points places. Then the whole of `out` is kept.
 */
uint32_t focuspoints_photograph(
    const uint8_t *block, size_t block_len,
    uint32_t raw_given, uint32_t raw_width, uint32_t raw_height,
    uint32_t picture_given, uint32_t picture_width, uint32_t picture_height,
    const uint8_t *model, size_t model_len,
    uint32_t *out, size_t out_len);

/*
 * What a whole script of call lines is answered: the text that the program
 * focusdesk prints for it, starting with an empty sheet.
 *
 * Returns the text's length and writes the text from out[0] on, with no zero
 * byte behind it; the places behind it are kept. Or returns
 * FOCUSPOINTS_NO_ROOM where `out` has fewer places than the text has bytes.
 * Then the whole of `out` is kept. FOCUSPOINTS_A_LINE bytes for each line are
 * always enough; there are at most as many lines as line feeds, and one more.
 */
size_t focuspoints_script(
    const uint8_t *script, size_t script_len,
    uint8_t *out, size_t out_len);

/*
 * Which of the tags 0007, 001B, 0045 and 00B7 (hexadecimal) have a kept entry
 * in a maker note. Kept are the entries of types 1 to 13, damaged ones too; any
 * other entry is passed over, and neither counts nor sets a place.
 *
 * Returns FOCUSPOINTS_OK and writes their number, 0 to 4, at out[0] and the
 * tags from out[1] on, each once, in the order of their first kept entries in
 * the directory; the places up to out[4] that no tag needs are 0 and stand
 * last. The places behind these five are kept.
 *
 * Or returns FOCUSPOINTS_UNREADABLE, or FOCUSPOINTS_SHORT where `out` has
 * fewer than 5 places. Then the whole of `out` is kept.
 */
uint32_t focuspoints_contents(
    const uint8_t *block, size_t block_len,
    uint32_t *out, size_t out_len);

#ifdef __cplusplus
}
#endif

#endif
