/*
 * The tests of the boundary as one program. Its main is C, since a Rust main does not start under every emulator.
 *
 *     boundary c PROGRAM      plays the records on standard input through pradulins.h
 *     boundary rust PROGRAM   the same through the crate in host/
 *     boundary self           calls through pradulins.h what no program has a line for
 *     boundary write FILE     saves states to a file through the crate, and prints the clock of each, until it is killed
 *     boundary load FILE      loads a state from a file through the crate, and prints its clock, its ids and its messages
 *     boundary catch_up       the example
 */
#include <stdio.h>
#include <string.h>

#include "player.h"

int boundary_play(const char *program);
int boundary_write(const char *path);
int boundary_load(const char *path);
int boundary_catch_up(void);

int main(int argc, char **argv)
{
    if (argc == 3 && strcmp(argv[1], "c") == 0)
        return play(argv[2]);
    if (argc == 3 && strcmp(argv[1], "rust") == 0)
        return boundary_play(argv[2]);
    if (argc == 2 && strcmp(argv[1], "self") == 0)
        return test_self();
    if (argc == 3 && strcmp(argv[1], "write") == 0)
        return boundary_write(argv[2]);
    if (argc == 3 && strcmp(argv[1], "load") == 0)
        return boundary_load(argv[2]);
    if (argc == 2 && strcmp(argv[1], "catch_up") == 0)
        return boundary_catch_up();
    fprintf(stderr, "usage: boundary c|rust PROGRAM, boundary write|load FILE, boundary self, or boundary catch_up\n");
    return 2;
}
