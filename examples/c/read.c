/*
 * Checks a sheet, and reads a text by it: read SHEET [TEXT]
 *
 * Checks the sheet in the first file. If it passes and a second file is named, writes the sheet's
 * image and runs it over the text in that file: with a table, or without one if the table would
 * have over 256 rows, which gives the same. Prints number, place and count: of the check if the
 * sheet is refused or no text is named, with count 0, otherwise of the run.
 *
 * After a run a second line has what the recogniser says of the same sheet and text, to compare
 * the two: number, place and count, and the tokens that it found. Number and place must be those
 * of the run, unless the recogniser gives 14, which it looks for before 15, or 12: it takes texts
 * of up to 2,048 bytes.
 *
 * The exit status is 0 if the sheet passed and the text was accepted, 1 if the sheet or the text
 * was refused, 2, with nothing printed but an error, if a file could not be read, there was no
 * memory or the usage was wrong, and 3 if run and recogniser differ where they must not.
 *
 * A sheet for numbers between slashes, with its numbers in octal for printf: version and counts; the
 * rules for a number N, a slash S and a blank that is skipped; the expression, N and then any number
 * of times S and N (tag 7 is the repetition):
 *
 *   printf '\1\2\3' >sheet
 *   printf '\1\2\1\60\71\4\1\60\71' >>sheet
 *   printf '\2\1\57\57' >>sheet
 *   printf '\0\1\40\40' >>sheet
 *   printf '\3\2\0\7\3\2\1\2\0' >>sheet
 *   printf '12/7' >text
 *   ./read sheet
 *   ./read sheet text
 *
 * prints `0 0 0`, and then `0 4 3` above `recogniser 0 4 3: 0 1 0`. A number of the sheet may be
 * padded: with '\201\200\0' for a '\1' it prints the same. With the text 12//7 it prints `15 3 2`
 * above `recogniser 15 3 4: 0 1 1 0`, and with 12//7h `15 3 2` above `recogniser 14 5 4: 0 1 1 0`.
 *
 * A sheet for the word `if` and a name. The name pattern stands above the word and matches it too, and
 * the word wins; a longer name wins over the word:
 *
 *   printf '\1\2\3' >sheet
 *   printf '\1\2\1\141\172\4\1\141\172' >>sheet
 *   printf '\2\2\1\151\151\1\146\146' >>sheet
 *   printf '\0\1\40\40' >>sheet
 *   printf '\3\2\1\2\0' >>sheet
 *   printf 'if iffy' >text
 *   ./read sheet text
 *
 * prints `0 7 2` above `recogniser 0 7 2: 1 0`.
 *
 * A sheet for a word of `a` and `b` whose eighth letter from the end is an `a`. The table of its image would
 * have over 256 rows, so the text is read without one:
 *
 *   printf '\1\1\1' >sheet
 *   printf '\1\2\4\1\141\142\2\1\141\141' >>sheet
 *   for i in 1 2 3 4 5 6; do printf '\2\1\141\142' >>sheet; done
 *   printf '\1\141\142' >>sheet
 *   printf '\2\0' >>sheet
 *   printf 'abababab' >text
 *   ./read sheet text
 *
 * prints `0 8 1` above `recogniser 0 8 1: 0`.
 */
#include <inttypes.h>
#include <stdio.h>
#include <stdlib.h>

#include "vinzagew.h"

/* One byte more than the limit, so that a longer input is seen to be longer. */
static uint8_t sheet[VINZAGEW_SHEET_LIMIT + 1];
static uint8_t text[VINZAGEW_TEXT_LIMIT + 1];
static uint8_t work[VINZAGEW_WORK_BYTES];
static uint8_t image[VINZAGEW_IMAGE_BYTES];
static uint16_t table[VINZAGEW_TABLE_ENTRIES];
static uint16_t winners[VINZAGEW_WINNER_ENTRIES];
/* A longer text is refused before the list is looked at. */
static uint8_t list[VINZAGEW_RECOGNISER_TEXT_LIMIT];

/* Reads at most `room` bytes of a file. */
static size_t read_file(const char *name, uint8_t *bytes, size_t room)
{
    FILE *file = fopen(name, "rb");
    size_t length;

    if (file == NULL) {
        perror(name);
        exit(2);
    }
    length = fread(bytes, 1, room, file);
    if (ferror(file)) {
        perror(name);
        exit(2);
    }
    fclose(file);
    return length;
}

/* Runs the image over a text, with a table if it has at most 256 rows: number, place and count. */
static void run_image(size_t image_length, size_t text_length,
                      uint8_t *stack, size_t stack_length, uint64_t out[3])
{
    vinzagew_run_table(image, image_length, text, text_length,
                       table, VINZAGEW_TABLE_ENTRIES, winners, VINZAGEW_WINNER_ENTRIES,
                       stack, stack_length, out, 3);
    if (out[0] == VINZAGEW_TOO_MANY_ROWS)
        vinzagew_run(image, image_length, text, text_length, stack, stack_length, out, 3);
}

/* Writes the image of a sheet that passes, and runs it over a text: number, place and count. */
static void read_text(size_t sheet_length, size_t text_length, uint64_t out[3])
{
    size_t stack_length = VINZAGEW_STACK_LENGTH(text_length);
    uint8_t *stack = malloc(stack_length);

    if (stack == NULL) {
        fputs("no memory for the stack\n", stderr);
        exit(2);
    }
    vinzagew_write(sheet, sheet_length, work, sizeof work, image, sizeof image, out, 3);
    /* With a shorter image buffer this might be 11, and the third number a length and no count. */
    if (out[0] == VINZAGEW_SUCCESS)
        run_image(out[2], text_length, stack, stack_length, out);
    else
        out[2] = 0;
    free(stack);
}

/* Prints three numbers. */
static void print(const uint64_t out[3])
{
    printf("%" PRIu64 " %" PRIu64 " %" PRIu64, out[0], out[1], out[2]);
}

/*
 * Recognises a text by a sheet that passes, and prints that. Gives whether it agrees with a run:
 * number and place are the same, or it has 14 and the run met 15 before. A long text is left out.
 */
static int recognise_text(size_t sheet_length, size_t text_length, const uint64_t run[3])
{
    uint64_t out[3];

    vinzagew_recognise(sheet, sheet_length, text, text_length, work, sizeof work,
                       list, sizeof list, out, 3);
    printf("recogniser ");
    print(out);
    if (out[2] > 0)
        putchar(':');
    for (size_t token = 0; token < out[2]; token++)
        printf(" %d", list[token]);
    putchar('\n');
    if (out[0] == VINZAGEW_TEXT_TOO_LONG)
        return 1;
    if (out[0] == VINZAGEW_NO_MATCH && run[0] == VINZAGEW_NOT_TAKEN)
        return run[1] < out[1];
    return out[0] == run[0] && out[1] == run[1];
}

int main(int argc, char **argv)
{
    uint64_t out[3];
    int passed;

    if (argc != 2 && argc != 3) {
        fprintf(stderr, "usage: %s SHEET [TEXT]\n", argv[0]);
        return 2;
    }

    size_t sheet_length = read_file(argv[1], sheet, sizeof sheet);
    size_t text_length = argc == 3 ? read_file(argv[2], text, sizeof text) : 0;

    vinzagew_check(sheet, sheet_length, work, sizeof work, out, 3);
    passed = out[0] == VINZAGEW_SUCCESS;
    if (argc == 3 && passed)
        read_text(sheet_length, text_length, out);
    print(out);
    putchar('\n');
    if (argc == 3 && passed && !recognise_text(sheet_length, text_length, out)) {
        fputs("run and recogniser differ\n", stderr);
        return 3;
    }
    return out[0] == VINZAGEW_SUCCESS ? 0 : 1;
}
