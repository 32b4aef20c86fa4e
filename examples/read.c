/* Reads a file, checks what reading left, and prints what they answer. In the repository's root:
 *
 *     tools/archive
 *     cc -std=c99 -Wall -Wextra -Werror -I include examples/read.c target/staticlib/libstructural.a -o target/read
 *     target/read examples/crew-manual.sd
 *     target/read --imperative - < examples/crew-manual.sdi
 *
 * A file that ends in .sdi is read in the imperative spelling, any other in the nested one unless
 * --imperative is given. Exit status 0: well-formed; 1: refused, or not readable; 2: usage.
 */
#include "structural.h"

#include <errno.h>
#include <stdbool.h>
#include <stdio.h>
#include <string.h>

/* One byte more than a text may have, so that a longer file is refused with 1. */
static uint8_t text[STRUCTURAL_MAX_TEXT + 1];

/* As long as the limits: 13 is then a document of more than 4,096 nodes, and 14 does not occur. */
static uint32_t nodes[STRUCTURAL_MAX_NODES * STRUCTURAL_NODE_WORDS];
static uint32_t places[STRUCTURAL_MAX_NODES];
static uint8_t pool[STRUCTURAL_MAX_POOL];

static const char *const meanings[] = {
    [STRUCTURAL_OK] = "nothing is refused",
    [STRUCTURAL_TEXT_TOO_LONG] = "the text has more than 65,536 bytes",
    [STRUCTURAL_NOT_UTF8] = "the text is not UTF-8",
    [STRUCTURAL_FORBIDDEN_CHARACTER] = "a character that is forbidden outside strings",
    [STRUCTURAL_BAD_STRING] = "a bad escape, or a string that is empty or not closed",
    [STRUCTURAL_UNPAIRED_BRACKET] = "a closing bracket without its partner, or a list that is not closed",
    [STRUCTURAL_TOO_DEEP] = "a 65th level of brackets, in the imperative spelling a 60th",
    [STRUCTURAL_NOT_ONE_EXPRESSION] = "no expression, or in a nested text a second one",
    [STRUCTURAL_NOT_ALLOWED] = "an expression that is not allowed here",
    [STRUCTURAL_ABSENT] = "a required parameter is absent, or a verbatim has no content",
    [STRUCTURAL_MALFORMED] = "an id, type, target or size is malformed",
    [STRUCTURAL_OTHER_SORT] = "a child of another sort than the first child",
    [STRUCTURAL_INCLUDE] = "an include or import, which is not read",
    [STRUCTURAL_NODES_SHORT] = "more nodes than 4,096, or than the node words or the place list hold",
    [STRUCTURAL_POOL_SHORT] = "the pool is too short",
    [STRUCTURAL_ROW_LENGTH] = "a row has another number of cells than its table's head has names",
    [STRUCTURAL_REPEATED_ID] = "a block has the id of an earlier block",
    [STRUCTURAL_UNKNOWN_TARGET] = "a link's target is the id of no block",
    [STRUCTURAL_UNKNOWN_FOOTNOTE] = "a footnote reference's target is the id of no footnote",
    [STRUCTURAL_NESTED_TOO_DEEP] = "imperative: the nested form would nest more than 64 deep",
};

static bool ends_in(const char *name, const char *ending)
{
    size_t n = strlen(name);
    size_t e = strlen(ending);
    return n >= e && strcmp(name + n - e, ending) == 0;
}

/* Whether the file could be read; `length` is then how much of `text` it fills. */
static bool load(const char *name, size_t *length)
{
    bool standard_input = strcmp(name, "-") == 0;
    FILE *file = standard_input ? stdin : fopen(name, "rb");
    if (file == NULL)
        return false;
    *length = fread(text, 1, sizeof text, file);
    bool fine = !ferror(file);
    if (!standard_input)
        fclose(file);
    return fine;
}

static void read_text(bool imperative, size_t length, uint32_t *answer)
{
    if (imperative)
        structural_read_imperative(text, length, nodes, sizeof nodes / sizeof *nodes, places,
                                   sizeof places / sizeof *places, pool, sizeof pool, answer,
                                   STRUCTURAL_READ_WORDS);
    else
        structural_read_nested(text, length, nodes, sizeof nodes / sizeof *nodes, places,
                               sizeof places / sizeof *places, pool, sizeof pool, answer,
                               STRUCTURAL_READ_WORDS);
}

/* Line and column of a place, both from 1. A column is a code point, which has one byte outside 0x80 to 0xBF. */
static void locate(uint32_t place, uint32_t *line, uint32_t *column)
{
    *line = 1;
    *column = 1;
    for (uint32_t i = 0; i < place; i++) {
        if (text[i] == '\n') {
            ++*line;
            *column = 1;
        } else if (text[i] < 0x80 || text[i] > 0xBF) {
            ++*column;
        }
    }
}

/* Of what reading left under 0: puts a fault of rows, ids or links (15 to 18) into reading's answer, at the place of
 * the node that has it.
 */
static void check_table(uint32_t *answer)
{
    uint32_t checked[STRUCTURAL_CHECK_WORDS];
    uint32_t number = structural_check(nodes, sizeof nodes / sizeof *nodes, answer[STRUCTURAL_READ_NODES], pool,
                                       sizeof pool, answer[STRUCTURAL_READ_POOL], checked, STRUCTURAL_CHECK_WORDS);
    if (number == STRUCTURAL_OK)
        return;
    uint32_t place = places[checked[STRUCTURAL_CHECK_NODE]];
    answer[STRUCTURAL_READ_NUMBER] = number;
    answer[STRUCTURAL_READ_PLACE] = place;
    locate(place, &answer[STRUCTURAL_READ_LINE], &answer[STRUCTURAL_READ_COLUMN]);
}

/* The exit status. */
static int show(const char *name, const uint32_t *answer)
{
    uint32_t number = answer[STRUCTURAL_READ_NUMBER];
    if (number == STRUCTURAL_OK) {
        printf("ok: %u nodes, %u pool bytes\n", (unsigned)answer[STRUCTURAL_READ_NODES],
               (unsigned)answer[STRUCTURAL_READ_POOL]);
        return 0;
    }
    printf("%s:%u:%u: %u: %s\n", name, (unsigned)answer[STRUCTURAL_READ_LINE],
           (unsigned)answer[STRUCTURAL_READ_COLUMN], (unsigned)number, meanings[number]);
    return 1;
}

int main(int count, char **words)
{
    bool option = count > 1 && strcmp(words[1], "--imperative") == 0;
    if (count != (option ? 3 : 2)) {
        fprintf(stderr, "usage: %s [--imperative] FILE\n", count > 0 ? words[0] : "read");
        return 2;
    }
    const char *name = words[count - 1];
    size_t length = 0;
    if (!load(name, &length)) {
        fprintf(stderr, "%s: cannot be read: %s\n", name, strerror(errno));
        return 1;
    }
    uint32_t answer[STRUCTURAL_READ_WORDS];
    read_text(option || ends_in(name, ".sdi"), length, answer);
    if (answer[STRUCTURAL_READ_NUMBER] == STRUCTURAL_OK)
        check_table(answer);
    return show(name, answer);
}
