/* random_numbers.c -- splitmix64: see random_numbers.h */

#include "random_numbers.h"

uint64_t seed = 20240229;

uint64_t random_number(void)
{
    uint64_t z = seed += 0x9E3779B97F4A7C15;
    z = (z ^ (z >> 30)) * 0xBF58476D1CE4E5B9;
    z = (z ^ (z >> 27)) * 0x94D049BB133111EB;
    return z ^ (z >> 31);
}

size_t below(size_t n)
{
    return (size_t)(random_number() % n);
}

bool one_in(size_t n)
{
    return below(n) == 0;
}
