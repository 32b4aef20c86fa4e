/* Prints the canonical spelling of the nested text on standard input, in memory of the lengths that the
 * calls ask for. The exit status is the number answered, and 99 where the calls do not agree with each other.
 */
#include "table.h"

static uint32_t print_into(const struct table *table, uint8_t *out, size_t length, uint32_t *answer)
{
    uint32_t nodes = table->answer[STRUCTURAL_READ_NODES];
    uint32_t pool = table->answer[STRUCTURAL_READ_POOL];
    return structural_print(table->nodes, (size_t)nodes * STRUCTURAL_NODE_WORDS, nodes, table->pool, pool,
                            pool, out, length, answer, STRUCTURAL_PRINT_WORDS);
}

int main(void)
{
    struct table table;
    uint32_t number = read_table(&table);
    if (number != STRUCTURAL_OK)
        return (int)number;
    uint32_t answer[STRUCTURAL_PRINT_WORDS];
    uint8_t no_byte;
    if (print_into(&table, &no_byte, 0, answer) != STRUCTURAL_OUTPUT_SHORT)
        return 99;
    size_t length = answer[STRUCTURAL_PRINT_LENGTH];
    uint8_t *out = room(length, 1);
    number = print_into(&table, out, length, answer);
    if (number != answer[STRUCTURAL_PRINT_NUMBER] || length != answer[STRUCTURAL_PRINT_LENGTH])
        return 99;
    fwrite(out, 1, length, stdout);
    return (int)number;
}
