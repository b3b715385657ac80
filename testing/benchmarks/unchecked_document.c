/*
 * How fast a document of equal pages of symbols can be decoded and written without checks: its symbols once, and for each page
 * its numbers and its picture.
 *
 * usage: unchecked_document FILE.jb2 PAGES
 *
 * FILE is one that unchecked_symbols.c takes. Writes PAGES pages to standard output, as PBM.
 */
#include "unchecked_symbols.h"

int main(int count, char **words) {
    if (count != 3)
        fail("usage: unchecked_document FILE.jb2 PAGES");
    struct input input = read_input(words[1]);
    decode_dictionary(&input);
    for (int pages = atoi(words[2]); pages > 0; pages--) {
        decode_page(&input);
        write_page();
    }
    return 0;
}
