/* Runs a program with a terminal as its standard input, on which the text of a file is typed and then the end of input (control-D):
   terminal FILE PROGRAM ARGUMENT.. Its exit status is the program's. What the terminal echoes is thrown away. */
#include "terminal.h"

int main(int count, char **words)
{
    char typed[4000];
    int file, terminal, side, fault;
    ssize length;

    if (count < 3 || (file = open(words[1], 0)) < 0 || (length = read(file, typed, sizeof typed - 1)) < 0)
        return 100;
    close(file);
    typed[length++] = 4;
    if ((fault = opened(&terminal, &side)))
        return fault;
    if (write(terminal, typed, length) != length)
        return 102;
    return ended(started(words + 2, 0, terminal, side));
}
