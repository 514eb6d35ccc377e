/* A command byte by hand, row by row of its page. */
#ifndef LIMIT_COMMANDS_H
#define LIMIT_COMMANDS_H

#include <stdint.h>

/* Changes the registers among the words of a record. Gives the answer to the command. */
uint64_t limit_command(uint64_t *now, unsigned byte);

#endif
