/* search: for each page and byte, how many rows are looked at until the one that takes the byte.
 * Which row that is, the chip's table says; when it is looked at, the order that docs/INSTRUCTIONS.md
 * sets. */
#include "model.h"
#include "program.h"

enum { PAGES = 5, BYTES = 256, PAGE_RETURN = 1, MOST_ROWS = 6 };

/* Each page's rows but page return, by their numbers. */
static const struct {
    int rows;
    int row[MOST_ROWS];
} order[PAGES] = {
    { 5, { 5, 4, 2, 3, 0 } },
    { 6, { 6, 7, 10, 8, 9, 0 } },
    { 6, { 15, 14, 12, 11, 13, 0 } },
    { 3, { 17, 16, 0 } },
    { 4, { 18, 19, 20, 0 } },
};

/* 1 for page return; else 1 and the row's place from 1, or 1 and all rows of the page where none
 * takes the byte. */
static int looked_at(int page, unsigned byte)
{
    int row = model_row(page, byte);
    if (row == PAGE_RETURN)
        return 1;
    for (int i = 0; i < order[page].rows; i++)
        if (order[page].row[i] == row)
            return 1 + (i + 1);
    return 1 + order[page].rows;
}

int main(int argc, char **argv)
{
    check_words(argc, argv, "search", 1, 1, "search");
    for (int page = 0; page < PAGES; page++)
        for (unsigned byte = 0; byte < BYTES; byte++)
            printf("%d\t%u\t%d\n", page, byte, looked_at(page, byte));
    return 0;
}
