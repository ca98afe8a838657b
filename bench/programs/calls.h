/* Calls one after another, with next to nothing between them: a0 to a3 begin with 0, the text has a7 set and the
   ECALLs made. A call from 256 on changes a0 and a1 alone, and both are 0 after it where it is answered 0 0. */
#ifndef CALLS_H
#define CALLS_H

#include "fsu.h"

#define CALLS(text) \
    __asm__ volatile("li a0, 0\n li a1, 0\n li a2, 0\n li a3, 0\n" text : : : "a0", "a1", "a2", "a3", "a7", "memory")

#endif
