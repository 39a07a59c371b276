/* Plays the records on standard input as one of the programs `inspect`, `trace` and `states` does. 0 where the memory of each call was as it should be. */
int play(const char *program);

/* Tests the calls that no program has a line for. 0 where all answered as the header says. */
int test_self(void);
