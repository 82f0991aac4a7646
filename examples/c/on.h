/* A walk that goes on behind a refused line. */
#ifndef ON_H
#define ON_H

#include "file.h"

/* A step. Of a refused line `next` is the walk behind it: pending elements are kept, and the line counts as one of them, for it is a line that would yield one (no N, reference or
   print line is ever refused). So its label keeps its number, and is answered though it has nothing else. */
static inline laddertick_answer step_on(bytes input, laddertick_walk walk)
{
    laddertick_answer a = laddertick_step(input.at, input.len, walk);
    if (a.kind == LADDERTICK_REFUSED && LADDERTICK_IS_OF_LINE(a.number)) {
        /* The part before the line is passed within the step; it may set the reference. */
        a.next = laddertick_step(input.at, a.place, walk).next;
        a.next.pending++;
        a.next.place = behind_refused(input, a.place);
    }
    return a;
}

/* A walk has no more answers: the end, or a refusal that is none of a line. */
static inline int is_last(laddertick_answer a)
{
    return a.kind == LADDERTICK_END || (a.kind == LADDERTICK_REFUSED && !LADDERTICK_IS_OF_LINE(a.number));
}

static inline int is_element(laddertick_answer a)
{
    return a.kind >= LADDERTICK_TEXT && a.kind <= LADDERTICK_UPC_E;
}

/* A place in the line that an answer is of: the first byte of its unit, or one with no LF between. A command line has its LF last; a block has none before its data. */
static inline size_t place_of(laddertick_answer a)
{
    if (a.kind == LADDERTICK_REFUSED)
        return a.place;
    return a.kind == LADDERTICK_GRAPHIC ? a.element.data_start : a.next.place - 1;
}

#endif
