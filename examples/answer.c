/* Answers the files E, G and J of docs/FORMAT.md: "yes" with its values, "no", and a refusal. Built and run by examples/run.sh. */
#include "prismfleece.h"
#include <stdio.h>

/* Asks the run, and puts a list that it shows to the list check. */
static void answer(const char *name, const uint8_t *file, size_t len)
{
    uint8_t list[PRISMFLEECE_CELLS];
    uint64_t reply = prismfleece_run(file, len, list, sizeof list);
    if (prismfleece_number(reply)) {
        printf("%s: refused %u at %u\n", name, prismfleece_number(reply), (unsigned)prismfleece_place(reply));
        return;
    }
    if (reply == 0) {
        printf("%s: no\n", name);
        return;
    }
    size_t count = (size_t)reply - 1;
    printf("%s: yes,", name);
    for (size_t c = 0; c < count; c++) {
        if (list[c] == PRISMFLEECE_OWN)
            printf(" own");
        else
            printf(" %u", list[c]);
    }
    printf(", the list check says %s\n", prismfleece_check(file, len, list, count) == 1 ? "right" : "wrong");
}

int main(void)
{
    static const uint8_t e[] = "AT\0\1AT\0\2SE\1\0VASE\3\0LN\2MK\4EN";
    static const uint8_t g[] = "AT\0\1AT\0\2SE\1\0VASE\3\0LN\2MK\1LN\0EN";
    static const uint8_t j[] = "VALN\0EN";
    answer("E", e, sizeof e - 1);
    answer("G", g, sizeof g - 1);
    answer("J", j, sizeof j - 1);
    return 0;
}
