/* What the model's programs share: words that mean something, the files that are read, and messages. */
#ifndef PROGRAM_H
#define PROGRAM_H

#include <stdint.h>
#include <stdio.h>

/* Prints `PROGRAM: ` and the message to standard error, and ends the program. */
_Noreturn void give_up(const char *program, const char *format, ...);

/* Gives up with what is wrong with the call, and how the program is called. */
_Noreturn void wrong_call(const char *program, const char *fault, const char *usage);

/* Looks at the program's words: `--help` alone is answered, and ends the program; fewer or more words
   than these, the program's name among them, are a wrong call. */
void check_words(int argc, char **argv, const char *program, int least, int most, const char *usage);

/* How the chip's pins are wired, by a program's argument: 0 to 3, anything else is a wrong call. */
uint64_t pins_of(const char *program, const char *word, const char *usage);

/* The file of this path; standard input where there is none, or where it is `-`. Gives up if it cannot
   be opened. A program opens two files at most. */
FILE *open_input(const char *program, const char *path);

/* What messages call this file. */
const char *name_of(FILE *file);

/* Gives up if reading the file has failed. */
void check_input(const char *program, FILE *file);

#endif
