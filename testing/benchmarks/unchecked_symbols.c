/*
 * How fast a page of symbols can be decoded: a loop for its symbols, its numbers and its picture alone, without checks, beside
 * which the program is measured.
 *
 * usage: unchecked_symbols FILE.jb2 [RUNS]
 *
 * FILE has one page with one symbol dictionary and one text region, both by arithmetic coding: template 0 with nominal adaptive
 * pixels, symbols of at most 64 columns, all exported, no refinement, corners at the bottom left, OR. Writes the least milliseconds
 * of RUNS runs (1), and of their symbols alone, to standard error and the page to standard output, as PBM. It trusts the file.
 */
#include "unchecked_symbols.h"

int main(int count, char **words) {
    if (count < 2)
        fail("usage: unchecked_symbols FILE.jb2 [RUNS]");
    struct input input = read_input(words[1]);
    double least = 1e9, symbols_least = 1e9;
    for (int runs = count > 2 ? atoi(words[2]) : 1; runs > 0; runs--) {
        double began = milliseconds(), between = decode(&input), ended = milliseconds();
        least = ended - began < least ? ended - began : least;
        symbols_least = between - began < symbols_least ? between - began : symbols_least;
    }
    fprintf(stderr, "%.2f %.2f\n", least, symbols_least);
    write_page();
    return 0;
}
