/* A publish and a count. */
#include "asdrifen.h"

#include <stdio.h>

int main(void)
{
    /* Two indexes, and room for four postings. Rows 1, 2 and 3 stand under key 5 of index 0. */
    asdrifen_head head = {.bindings = 2, .used = 3, .poisoned = 0};
    uint32_t table[12] = {0, 5, 1, 0, 5, 2, 0, 5, 3};

    /* Row 1 of index 0 goes from key 5 to key 6. Whoever publishes holds both keys. */
    const uint32_t changes[6] = {0, 1, 1, 5, 1, 6};
    const asdrifen_guard guards[2] = {{.binding = 0, .key = 5}, {.binding = 0, .key = 6}};
    uint32_t record[1];

    /* The empty strip: storage does not fail. */
    asdrifen_told told = asdrifen_publish(&head, table, 12, changes, 6, guards, 2, NULL, 0, record, 1);
    printf("publish: answer %u, the record has %u number\n", told.answer, told.named);
    if (told.answer != ASDRIFEN_ACCEPTED)
        return 1;

    for (uint32_t key = 5; key <= 6; key++) {
        told = asdrifen_count(head, table, 12, 0, key);
        /* A count is right or withheld: what a refusal names is no count. */
        if (told.answer != ASDRIFEN_ACCEPTED) {
            printf("key %u: withheld, answer %u\n", key, told.answer);
            return 1;
        }
        printf("key %u: %u\n", key, told.named);
    }
    return 0;
}
