/* Each opcode byte with each number in each register field: what `check` says of the word, of nothing else but zeros, in front of
   `exit`, is what the second machine says. Words: the program to try, the number of this process and how many there are. The file
   `plain` gets a line for each opcode that is an instruction where all else is zero, but for what the checker asks. */
#include "trial.h"
#include "model.h"

static struct outcome left;
static struct machine machine;
static u8 program[24];

/* Tries one word: whether the program says what it should. */
static int agrees(int opcode, int registers) {
    char line[100];
    int accepted, length = opcode == 0x18 ? 24 : 16;
    memset(program, 0, sizeof program);
    program[0] = opcode;
    program[1] = registers;
    program[length - 8] = 0x95;
    put_file("program", program, length);
    machine.program = program;
    machine.length = length;
    accepted = judge(&machine, line, sizeof line);
    run_words(&left);
    if (left.status == (accepted ? 0 : 2) && !strcmp(accepted ? left.output : left.errors, line) && !(accepted ? left.error_length : left.length))
        return 1;
    printf("FAILED: opcode %02x, registers %02x: wanted %s  status %d, found %s%s\n", opcode, registers, line, left.status, left.output, left.errors);
    return 0;
}

int main(int count, char **arguments) {
    int opcode, n, tried = 0, failed = 0;
    u64 plain = 0;
    static char lines[256];
    if (count != 4)
        give_up("words PROGRAM PROCESS PROCESSES");
    first_word(arguments[1], "check");
    add_word("program");
    put_file("script", "", 0);
    for (opcode = atoi(arguments[2]); opcode < 256; opcode += atoi(arguments[3])) {
        for (n = 0; n < 16; n++) {
            failed += !agrees(opcode, n);
            if (n == 0 && !strstr(left.errors, " C4 "))
                lines[plain++] = '\n';
            failed += !agrees(opcode, 16 * n);
            tried += 2;
        }
    }
    put_file("plain", lines, plain);
    printf("%d trials, %d failed\n", tried, failed);
    return failed != 0;
}
