/* The pool of stacks. Its functions are called between fsu_enter and fsu_leave. */
#ifndef STACKS_H
#define STACKS_H

#include <stdint.h>

/* The lowest byte of a free range of so many bytes, a multiple of 16; null where there is none. */
char *fsu_take_stack(uint32_t size);
void fsu_give_stack(char *low);

#endif
