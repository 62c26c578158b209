/*
 * The version of the library, and its refusals in words. Written in C and not proved: they are tables of text, which no
 * promise speaks of. make writes words.inc from words.txt, a case for each number.
 */
#include "tipshare.h"

const char *tipshare_version(void)
{
    return TIPSHARE_VERSION;
}

const char *tipshare_words(uint32_t number)
{
    switch (number) {
#include "words.inc"
    default: return "unknown number";
    }
}
