/*
 * Vinzagew: a proved grammar compiler, and the machine that reads by its images.
 *
 * The functions of the static library libvinzagew.a. Their contract is docs/REFERENCE.md: section
 * 11 has the questions with their numbers and places, section 12 what every lent buffer holds at
 * the end.
 *
 * A sheet and an image are numbers in groups of seven bits, lowest group first, one byte a group,
 * with bit 7 set when another group follows. In a sheet a number may be padded with empty high
 * groups, up to ten bytes. As long as the sheet has at most 4,096 bytes, padding changes neither
 * the number that answers it nor its image; a place counts the bytes of the sheet as it is. In an
 * image every number has the fewest bytes.
 *
 * At each place of a text the longest match over all rules wins. Of equally long ones that of a
 * word rule wins over any other, and of two of a kind that of the lower rule in the sheet. A word
 * rule has only empty words, sequences and classes with low = high in its regex, whether it skips
 * or not.
 *
 * Every buffer is a pointer to its first byte (or number) and a length, in bytes (or numbers). All
 * buffers must be valid for their length, pointers must not be null (any address that is not null
 * will do for a length of 0), and no buffer that is written to may overlap another. No function
 * keeps a pointer.
 */
#ifndef VINZAGEW_H
#define VINZAGEW_H

#include <stddef.h>
#include <stdint.h>

#ifdef __cplusplus
extern "C" {
#endif

/* The version of the library and of this header. */
#define VINZAGEW_VERSION "0.1.0"

/* The bytes that the work area must have at least. */
#define VINZAGEW_WORK_BYTES 65536

/* The length of an image buffer that is enough for every sheet. */
#define VINZAGEW_IMAGE_BYTES 65536

/* The most bytes that a sheet may have. */
#define VINZAGEW_SHEET_LIMIT 4096

/* The most bytes that a number of a sheet may have. */
#define VINZAGEW_WIDTH_LIMIT 10

/* The most bytes that a text may have. */
#define VINZAGEW_TEXT_LIMIT 1048576

/*
 * The most members that a production's tail has. A take removes one pending nonterminal at least
 * and adds a tail.
 */
#define VINZAGEW_TAIL_LIMIT 32

/* The length of a stack that is enough for every text of n bytes: 1 + 31 times n. */
#define VINZAGEW_STACK_LENGTH(n) (1 + (VINZAGEW_TAIL_LIMIT - 1) * (size_t)(n))

/* The most bytes that a text for the recogniser may have. Its list must be as long as the text. */
#define VINZAGEW_RECOGNISER_TEXT_LIMIT 2048

/*
 * The bytes of the processor's stack that a call of the recogniser needs at most. This is measured,
 * not proved, for the library as `tools/staticlib.sh` builds it.
 */
#define VINZAGEW_RECOGNISER_STACK_BYTES 131072

/* The same for a run, with a table or without. */
#define VINZAGEW_RUN_STACK_BYTES 131072

/* The entries that the table must have at least: at row times 256 plus byte stands the next row. */
#define VINZAGEW_TABLE_ENTRIES 65536

/* The entries that the buffer for the winners must have at least, one for each row. */
#define VINZAGEW_WINNER_ENTRIES 256

/* The winner of a row in which no rule wins. A rule's number is less. */
#define VINZAGEW_NO_WINNER 32

/* The numbers: 0 for success, otherwise the question that was answered with no. */
#define VINZAGEW_SUCCESS 0           /* passed, written or accepted */
#define VINZAGEW_WORK_TOO_SHORT 1    /* the work area has fewer than 65,536 bytes */
#define VINZAGEW_SHEET_TOO_LONG 2    /* the sheet has more than 4,096 bytes */
#define VINZAGEW_BAD_NUMBER 3        /* a number is missing, cut off, too long, or 2^64 or more */
#define VINZAGEW_BAD_VALUE 4         /* a value is not allowed in its field */
#define VINZAGEW_TOO_MANY_NODES 5    /* a node or class limit is broken with this tag */
#define VINZAGEW_SHEET_GOES_ON 6     /* bytes are left over after the expression */
#define VINZAGEW_EMPTY_WORD 7        /* a rule matches the empty word */
#define VINZAGEW_NOT_GUARDED 8       /* a variable is not guarded */
#define VINZAGEW_NOT_SEPARABLE 9     /* a sequence, or a repetition's part, is not separable */
#define VINZAGEW_NOT_APART 10        /* alternatives are not apart */
#define VINZAGEW_IMAGE_TOO_LONG 11   /* the image does not fit in its buffer */
#define VINZAGEW_TEXT_TOO_LONG 12    /* the text has over 1,048,576 bytes, or 2,048 to recognise */
#define VINZAGEW_NOT_READABLE 13     /* the image is not readable, say by a padded number */
#define VINZAGEW_NO_MATCH 14         /* no rule matches here */
#define VINZAGEW_NOT_TAKEN 15        /* no pending nonterminal takes the token: it is not allowed */
#define VINZAGEW_ENDS_EARLY 16       /* at the end, a pending one is not nullable: more is needed */
#define VINZAGEW_STACK_TOO_SHORT 17  /* the stack does not hold all pending nonterminals */
#define VINZAGEW_TABLE_TOO_SHORT 18  /* `table` has under 65,536 entries, or `winners` under 256 */
#define VINZAGEW_TOO_MANY_ROWS 19    /* the image's table would have more than 256 rows */
#define VINZAGEW_LIST_TOO_SHORT 20   /* the list for the tokens is shorter than the text */

/*
 * Checks a sheet: questions 1 to 10, without an image buffer.
 *
 * out[0]  number, 0 to 10
 * out[1]  place: of 3 to 5 the number's first byte, or of 3 the sheet's length if no byte is left;
 *         of 6 the first byte left over, of 7 the rule's action, of 8 to 10 the node's tag,
 *         otherwise 0
 * out[2]  0
 *
 * A sheet passes (number 0) exactly if there is an image buffer that is long enough for writing it.
 * The first 65,536 bytes of `work` end as zero, except after 1, when none changes; the rest of
 * `work` never changes. Numbers of `out` past the third do not change. If out_len is below 3,
 * nothing happens and nothing changes.
 */
void vinzagew_check(const uint8_t *sheet, size_t sheet_len,
                    uint8_t *work, size_t work_len,
                    uint64_t *out, size_t out_len);

/*
 * Writes a sheet's image. The sheet is checked first, whether it was checked before or not.
 *
 * out[0]  number, 0 to 11: that of checking, or 11 if the sheet passes and its image does not fit
 * out[1]  place: that of checking; of 11, 0
 * out[2]  length: the bytes written on success, the bytes needed after 11, otherwise 0
 *
 * On success the first out[2] bytes of `image` are the image, and the rest are as before; a refusal
 * leaves `image` as it was. The image numbers the word rules first, then all others, each kind in
 * the order of the sheet. `work` ends as after checking. Numbers of `out` past the third do not
 * change. If out_len is below 3, nothing happens and nothing changes.
 */
void vinzagew_write(const uint8_t *sheet, size_t sheet_len,
                    uint8_t *work, size_t work_len,
                    uint8_t *image, size_t image_len,
                    uint64_t *out, size_t out_len);

/*
 * Runs an image over a text.
 *
 * out[0]  number, 0 or 12 to 17
 * out[1]  place: on acceptance the text's length; of 13 the place in the image of the first
 *         offending number or leftover byte; of 14 to 17 a place in the text; of 12, 0
 * out[2]  count: the tokens taken
 *
 * Of equally long matches that of the image's lowest rule wins: a word rule, if the image is one
 * that vinzagew_write made and a word rule matches as far. `stack` ends all zero, except after 12
 * and 13, when it is as it was. Numbers of `out` past the third do not change. If out_len is below
 * 3, nothing happens and nothing changes.
 *
 * The time of a run grows in proportion to the lengths of the text and of the stack, whatever the
 * image. A call needs up to VINZAGEW_RUN_STACK_BYTES of the processor's stack.
 */
void vinzagew_run(const uint8_t *image, size_t image_len,
                  const uint8_t *text, size_t text_len,
                  uint8_t *stack, size_t stack_len,
                  uint64_t *out, size_t out_len);

/*
 * Runs an image over a text with a table. It is meant for long texts: every run builds its table
 * before it reads the text, and matching then looks up one entry for each byte that it walks. Where
 * no match ends at the last of these bytes, it walks them once more. Once this has cost too much,
 * the rest of the text is matched without the table.
 *
 * out[0]  number, 0 or 12 to 19; the order of the questions is 18, 12, 13, 19, then as without a
 *         table
 * out[1]  place: as without a table; of 18 and 19, 0
 * out[2]  count: the tokens taken; of 12, 13, 18 and 19, 0
 *
 * Unless 18 or 19 is given, the three numbers and what `stack` holds at the end are those of
 * vinzagew_run. After 18, 12, 13 and 19 `stack`, `table` and `winners` are as they were. Otherwise
 * the table stands in the first entries of both, also if the text is refused: for each row and each
 * byte table[row * 256 + byte] is the next row, and winners[row] is the image's rule that wins if a
 * match ends there, or VINZAGEW_NO_WINNER. Row 0 is the start, row 1 the empty set, then comes each
 * set of positions that a byte may keep, in the order first reached, rows in order, bytes rising.
 * Entries past the last row are as they were. Numbers of `out` past the third do not change. If
 * out_len is below 3, nothing happens and nothing changes.
 */
void vinzagew_run_table(const uint8_t *image, size_t image_len,
                        const uint8_t *text, size_t text_len,
                        uint16_t *table, size_t table_len,
                        uint16_t *winners, size_t winners_len,
                        uint8_t *stack, size_t stack_len,
                        uint64_t *out, size_t out_len);

/*
 * Recognises a text by a sheet, with no image: a yardstick for the machine. The sheet is checked
 * first. The text's tokens are written into a list, and then the expression itself is descended, as
 * in Figure 6 of "A Typed, Algebraic Approach to Parsing" (docs/REFERENCE.md, section 16).
 *
 * out[0]  number, 0 to 10, 12, 14, 15, 16 or 20; the order of the questions is 1 to 10, 12, 20, 14,
 *         then 15 or 16
 * out[1]  place: on acceptance the text's length; of 1 to 10 that of checking; of 14 the first
 *         place that reading reaches where no rule matches; of 15 the token's first byte; of 16 the
 *         text's length; of 12 and 20, 0
 * out[2]  count: the tokens written, all of them with 0, 15 and 16, those before the place with 14;
 *         of 1 to 10, 12 and 20, 0
 *
 * If the number is none of 1 to 10, 12 and 20: where a rule matches at every place that reading
 * reaches, number and place are those of vinzagew_run with the sheet's image and a long enough
 * stack; so is the count, unless the number is 15. Otherwise the number is 14, also where the run
 * meets 15 at an earlier place.
 *
 * The first out[2] bytes of `list` are the tokens, token k as byte k, and the rest are as before;
 * after 1 to 10, 12 and 20 all of `list` is as it was. `work` ends as after checking. Numbers of
 * `out` past the third do not change. If out_len is below 3, nothing happens and nothing changes.
 * A call needs up to VINZAGEW_RECOGNISER_STACK_BYTES of the processor's stack.
 */
void vinzagew_recognise(const uint8_t *sheet, size_t sheet_len,
                        const uint8_t *text, size_t text_len,
                        uint8_t *work, size_t work_len,
                        uint8_t *list, size_t list_len,
                        uint64_t *out, size_t out_len);

#ifdef __cplusplus
}
#endif

#endif
