/* A number from a word. A word that is no number ends the program; a blank or a plus is no part of one. */
#ifndef FIELD_H
#define FIELD_H

#include <ctype.h>
#include <stdint.h>
#include <stdio.h>
#include <stdlib.h>

/* The nearest that 64 bits hold. */
static inline long long number(const char *word)
{
    char *end;
    long long n = strtoll(word, &end, 10);
    if (end == word || *end != '\0' || isspace((unsigned char)word[0]) || word[0] == '+') {
        fprintf(stderr, "not a number: %s\n", word);
        exit(2);
    }
    return n;
}

/* A field's. One that 32 bits do not hold, a negative one too, is the largest that they do: out of every range. */
static inline uint32_t field(const char *word)
{
    long long n = number(word);
    return n < 0 || n > UINT32_MAX ? UINT32_MAX : (uint32_t)n;
}

/* A carrier's, which is signed. One that 32 bits do not hold is the nearest that they do: no size has it. */
static inline int32_t signed_field(const char *word)
{
    long long n = number(word);
    return n < INT32_MIN ? INT32_MIN : n > INT32_MAX ? INT32_MAX : (int32_t)n;
}

#endif
