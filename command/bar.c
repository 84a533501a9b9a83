/* The film as a bar of one line. */
#include "bar.h"

#include <stdio.h>
#include <stdlib.h>
#include <sys/ioctl.h>
#include <unistd.h>

/* Where the terminal does not say how wide it is, and the widest bar. */
enum { USUAL_WIDTH = 80, MOST_WIDTH = 1000 };

/* How wide the terminal is, by COLUMNS where that is set. */
static unsigned width_of_terminal(void)
{
    const char *columns = getenv("COLUMNS");
    struct winsize size = {.ws_col = 0};
    unsigned long width = columns == NULL ? 0 : strtoul(columns, NULL, 10);
    if (width == 0 && ioctl(STDOUT_FILENO, TIOCGWINSZ, &size) == 0) {
        width = size.ws_col;
    }
    return width == 0 ? USUAL_WIDTH : width > MOST_WIDTH ? MOST_WIDTH : (unsigned)width;
}

/* The sign of a cell by the classes in it: one of its own where they are several, so that the shortest range is
   seen. */
static char sign_of(unsigned classes)
{
    return classes == RECEIVED ? '#' : classes == HELD ? '~' : classes == LOST ? '.' : '%';
}

void put_bar(const struct range *ranges, size_t count)
{
    unsigned width = width_of_terminal();
    uint64_t length = ranges[count - 1].first + ranges[count - 1].length;
    size_t range = 0;
    for (unsigned cell = 0; cell < width; cell++) {
        uint64_t first = length * cell / width, end = length * (cell + 1) / width;
        unsigned classes = 0;
        /* A cell of a short film is less than a position, and shows the one that it lies in. */
        for (end = end > first ? end : first + 1; ranges[range].first + ranges[range].length < end; range++) {
            classes |= ranges[range].first + ranges[range].length > first ? ranges[range].class : 0;
        }
        putchar(sign_of(classes | ranges[range].class));
    }
    putchar('\n');
}
