/* A function that answers no helper. */
unsigned long long other(void) { return 2; }
