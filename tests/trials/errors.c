/* Runs a program with a terminal as its standard error: errors PROGRAM ARGUMENT.. What the program writes there goes on to this
   one's standard error, a line feed again where the terminal made a carriage return and a line feed of it. Its exit status is the program's. */
#include "terminal.h"

int main(int count, char **words)
{
    char byte;
    int terminal, side, child, fault;

    if (count < 2)
        return 100;
    if ((fault = opened(&terminal, &side)))
        return fault;
    child = started(words + 1, 2, terminal, side);
    close(side);
    /* (where the program has ended, and nothing is left to be read, this fails) */
    while (read(terminal, &byte, 1) == 1)
        if (byte != '\r' && write(2, &byte, 1) != 1)
            return 106;
    return ended(child);
}
