/* Reads the nested text on standard input, and checks what reading left. Prints number, node count and pool count of
 * reading, and on a second line number and node of the check. The exit status is 99 where a call does not do what the
 * header says of it.
 */
#include "table.h"

#include <string.h>

/* `[document [title [text]]]` in memory that nothing can be written to. */
static const uint32_t constant[3 * STRUCTURAL_NODE_WORDS] = {
    STRUCTURAL_KIND_DOCUMENT, STRUCTURAL_NONE, 3, 0, 0, 0, 0, 0, 0, STRUCTURAL_NONE, STRUCTURAL_NONE,
    STRUCTURAL_KIND_TITLE, 0, 3, 0, 0, 0, 0, 0, 0, STRUCTURAL_NONE, STRUCTURAL_NONE,
    STRUCTURAL_KIND_TEXT, 1, 3, 0, 0, 0, 0, 0, 1, STRUCTURAL_NONE, STRUCTURAL_NONE,
};
static const uint8_t letter[1] = {'A'};

/* Whether the constant table is well-formed, and one with another count of nodes or bytes is no table. */
static int knows_tables(void)
{
    uint32_t answer[STRUCTURAL_CHECK_WORDS] = {7, 7};
    uint32_t fine = structural_check(constant, 33, 3, letter, 1, 1, answer, STRUCTURAL_CHECK_WORDS);
    if (fine != STRUCTURAL_OK || answer[STRUCTURAL_CHECK_NUMBER] != fine || answer[STRUCTURAL_CHECK_NODE] != 0)
        return 0;
    const uint32_t counts[4][2] = {{2, 1}, {4, 1}, {3, 0}, {3, 2}};
    for (size_t i = 0; i < 4; i++)
        if (structural_check(constant, 33, counts[i][0], letter, 1, counts[i][1], answer, 2) != STRUCTURAL_NOT_A_TABLE)
            return 0;
    return 1;
}

/* Whether an answer of one word is refused and left as it was. */
static int wants_two_words(void)
{
    uint32_t answer[1] = {7};
    return structural_check(constant, 33, 3, letter, 1, 1, answer, 1) == STRUCTURAL_NO_ANSWER && answer[0] == 7;
}

/* The check of what was read, which has to stay as it is. */
static uint32_t check(const struct table *table, uint32_t *answer)
{
    uint32_t nodes = table->answer[STRUCTURAL_READ_NODES];
    uint32_t pool = table->answer[STRUCTURAL_READ_POOL];
    size_t words = (size_t)nodes * STRUCTURAL_NODE_WORDS;
    uint32_t *nodes_before = room(words, sizeof *nodes_before);
    uint8_t *pool_before = room(pool, 1);
    memcpy(nodes_before, table->nodes, words * sizeof *nodes_before);
    memcpy(pool_before, table->pool, pool);
    uint32_t number =
        structural_check(table->nodes, words, nodes, table->pool, pool, pool, answer, STRUCTURAL_CHECK_WORDS);
    if (memcmp(nodes_before, table->nodes, words * sizeof *nodes_before) != 0 ||
        memcmp(pool_before, table->pool, pool) != 0 || number != answer[STRUCTURAL_CHECK_NUMBER])
        exit(99);
    return number;
}

int main(void)
{
    if (!knows_tables() || !wants_two_words())
        return 99;
    struct table table;
    uint32_t number = read_table(&table);
    printf("%u %u %u\n", (unsigned)number, (unsigned)table.answer[STRUCTURAL_READ_NODES],
           (unsigned)table.answer[STRUCTURAL_READ_POOL]);
    if (number != STRUCTURAL_OK)
        return 0;
    uint32_t answer[STRUCTURAL_CHECK_WORDS];
    number = check(&table, answer);
    printf("%u %u\n", (unsigned)number, (unsigned)answer[STRUCTURAL_CHECK_NODE]);
    return 0;
}
