/*
  random_sheet.c -- a random sheet whose table is accepted

      random_sheet NUMBER

  The same number gives the same sheet. Those of an even number are small, those
  of an odd one have up to 4096 variable bits. Its values are decimal or, about as
  often, hexadecimal.
*/

#include <stdlib.h>

#include "../host/large_table.h"
#include "../host/small_table.h"

/* In one of its spellings: decimal, or h and as many digits as it needs or more, up to four. */
static void print_value(unsigned number)
{
    if (one_in(2))
        printf("%u", number);
    else
        printf("h%0*x", (int)below(5), number);
}

int main(int argc, char **argv)
{
    static sketch small;
    static plan large;
    uint64_t number = argc > 1 ? strtoull(argv[1], NULL, 10) : 0;
    const draft *d = number % 2 == 0 ? &small.d : &large.d;

    seed = number;
    if (number % 2 == 0)
        make_small(&small, one_in(2) ? WITH_SHORT_SIDES : WITH_LINES);
    else
        make_large(&large);
    printf("kind a b c\n");
    for (size_t i = 0; i < 4 * d->rows; i++) {
        print_value(d->t.numbers[i]);
        putchar(i % 4 == 3 ? '\n' : ' ');
    }
    return 0;
}
