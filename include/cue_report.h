#ifndef CUE_REPORT_H
#define CUE_REPORT_H

#include <stddef.h>
#include <stdint.h>

/*
 * size_t cue_report(sheet, sheet_len, space, space_len)
 *
 * Reads the sheet_len bytes at sheet into a book of 2,048 entries and writes a report on it to the
 * front of the space_len bytes at space. The answer is the report's length in bytes. The space
 * behind the report is not written. No byte is added after the report, so it is no C string.
 *
 * A space of fewer than 388 bytes is refused before the sheet is looked at: the answer is 25 and
 * nothing is written. No report is 25 bytes long, so the answer alone tells the two apart, as the
 * contract of the call promises; 388 bytes are enough for every report.
 *
 * The caller sees to it that both pointers are valid for their lengths, that neither is null (even
 * where the length is 0), and that the two pieces of memory do not overlap.
 *
 *
 * The sheet
 *
 * Lines of 16 bytes, each one entry of the book. Columns count from 1; a blank is the byte 32, a
 * line feed the byte 10.
 *
 *   1-4    the number of the cue
 *   5      a blank
 *   6      r (read), w (write), c (commit) or a (abort)
 *   7      a blank
 *   8-15   for r and w the axis, a number from 0 to 65535; for c and a blanks
 *   16     a line feed
 *
 * Numbers are decimal, stand at the right end of their field after blanks, and have no leading
 * zero; the number 0 is the one digit 0. A sheet without a byte is a book without an entry.
 *
 * A line is refused for the first of these that holds, and nothing after it is read:
 *
 *    1   fewer than 16 bytes are left, or a line feed is among the next 15, or byte 16 is none
 *    2   the cue field holds no such number; an empty field holds none
 *    3   column 6 is none of the four letters, or column 5 or 7 is not blank
 *    4   r or w without such a number up to 65535, or c or a with something in columns 8-15
 *   11   the number of the cue is not one of 1 to 64
 *   12   the cue has ended: an earlier line has its c or its a
 *   13   the book is full: 2,048 lines were entered
 *
 *
 * The report
 *
 * Lines of a word of five letters and numbers, each number right-justified in five columns after
 * blanks; a line feed ends each line, the last too. For a sheet with a refused line there is one:
 *
 *   fault NUMBER LINE     the number of the refusal; the line, counted from 1
 *
 * For every other sheet there are three, of the kinds class; order or cycle; views, vnone or vmany:
 *
 *   class CLASS PLACE     the class of the book; the place, entries counted from 1, of the first
 *                         break that puts the book into that class, 0 for class 3
 *   order CUE...          the committed cues in the serial order that is first in dictionary order
 *   cycle CUE...          where no such order exists, cues that forbid it
 *   views CUE...          the committed cues in the view-equivalent order that is first in
 *                         dictionary order
 *   vnone                 no order is view-equivalent
 *   vmany                 more than 8 cues are committed, and views were not looked for
 *
 * So the sheet w1(5) r2(5) c1 c2 gives
 *
 *   class    1    2
 *   order    1    2
 *   views    1    2
 *
 * and an empty sheet a class of 3, a place of 0, and the bare words order and views.
 *
 *
 * What the words mean
 *
 * A cue is committed when it has a c, and has ended when it has a c or an a. Two entries conflict
 * when they are of different cues and of the same axis and one of them at least is a write. Below
 * i and j are different cues, and "before" is before the entry in question.
 *
 * Of all writes of an axis before a read of it by i, leave out those of cues aborted before the
 * read. If the last one left is by j, then i reads from j there; if it is by i, or none is left,
 * i reads from nobody.
 *
 *   class 0   i commits after it read from a j that has not committed before that commit
 *   class 1   no such commit; i reads from a j that has not committed before that read
 *   class 2   neither; i reads or writes an axis that a j wrote before and j has not ended before
 *   class 3   none of these
 *
 * A serial order is an order of all committed cues in which, for every two conflicting entries of
 * committed cues, the cue of the earlier entry comes first. A cycle is two or more distinct
 * committed cues, each with an entry before a conflicting entry of the next, and the last so before
 * the first. Which of several cycles is shown is not promised, nor with which cue it starts.
 *
 * For the views take the reads and writes of the committed cues alone, in the order of the book.
 * The source of a read is the last write of its axis before it in this list, by any cue, its own
 * too, or the initial state where there is none. An order of the committed cues makes a second list
 * of the same entries: those of the first cue, in their own order, then those of the second, and so
 * on. The order is view-equivalent when in both lists every read has the same entry as its source,
 * and every axis the same entry as its last write.
 */

#define CUE_REPORT_SPACE 388      /* the shortest space that is taken */
#define CUE_REPORT_SPACE_SHORT 25 /* the answer to a shorter one */

#ifdef __cplusplus
extern "C" {
#endif

size_t cue_report(const uint8_t *sheet, size_t sheet_len, uint8_t *space, size_t space_len);

#ifdef __cplusplus
}
#endif

#endif
