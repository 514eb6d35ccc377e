#include "program.h"

#include <errno.h>
#include <stdarg.h>
#include <stdlib.h>
#include <string.h>

enum { MOST_PATH = 4095, MOST_INPUTS = 2 };

static struct {
    FILE *file;
    char name[MOST_PATH + 1];
} inputs[MOST_INPUTS];

_Noreturn void give_up(const char *program, const char *format, ...)
{
    va_list args;
    va_start(args, format);
    fprintf(stderr, "%s: ", program);
    vfprintf(stderr, format, args);
    fprintf(stderr, "\n");
    va_end(args);
    exit(1);
}

_Noreturn void wrong_call(const char *program, const char *fault, const char *usage)
{
    give_up(program, "%s; usage: %s", fault, usage);
}

void check_words(int argc, char **argv, const char *program, int least, int most, const char *usage)
{
    if (argc == 2 && strcmp(argv[1], "--help") == 0) {
        printf("usage: %s\n", usage);
        exit(0);
    }
    if (argc < least)
        wrong_call(program, "too few arguments", usage);
    if (argc > most)
        wrong_call(program, "too many arguments", usage);
}

uint64_t pins_of(const char *program, const char *word, const char *usage)
{
    if (strlen(word) != 1 || word[0] < '0' || word[0] > '3')
        wrong_call(program, "PINS is not 0, 1, 2 or 3", usage);
    return (uint64_t)(word[0] - '0');
}

/* A name as it is shown: in one line, and in quotes where there is nothing to show. */
static void show(const char *name, char *shown)
{
    strcpy(shown, *name == '\0' ? "''" : name);
    for (char *byte = shown; *byte != '\0'; byte++)
        if ((unsigned char)*byte < ' ' || *byte == 127)
            *byte = '?';
}

FILE *open_input(const char *program, const char *path)
{
    int free_place = inputs[0].file == NULL ? 0 : 1;
    if (path == NULL || strcmp(path, "-") == 0) {
        strcpy(inputs[free_place].name, "standard input");
        return inputs[free_place].file = stdin;
    }
    if (strlen(path) > MOST_PATH)
        give_up(program, "the file's name: %s", strerror(ENAMETOOLONG));
    show(path, inputs[free_place].name);
    FILE *file = fopen(path, "rb");
    if (file == NULL)
        give_up(program, "%s: %s", inputs[free_place].name, strerror(errno));
    return inputs[free_place].file = file;
}

const char *name_of(FILE *file)
{
    return file == inputs[0].file ? inputs[0].name : inputs[1].name;
}

void check_input(const char *program, FILE *file)
{
    if (ferror(file))
        give_up(program, "%s: %s", name_of(file), strerror(errno));
}
