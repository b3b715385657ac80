/* Calls libjbig2dec.so.0 as its callers do. usage: calls BOOK STREAM GLOBALS PICTURE [threads]: T.88's example (H.1) as
 * a file, the two streams of an embedded page, and its picture as a PBM file. A fifth word has only threads tried. */
#include "support.h"

int main(int count, char **words) {
    if (count != 5 && count != 6)
        return 2;
    read_files(words + 1);
    shares_globals_among_threads();
    if (count == 5) {
        meets_the_traps();
        hands_out_pages();
        survives_damage();
        keeps_to_the_limit_of_work();
        refuses_each_request();
        comes_back_out_of_allocators();
        leaves_by_longjmp();
    }
    free_files();
    printf("%u checks of calls of libjbig2dec.so.0, %u failed\n", checks, failures);
    return failures > 0;
}
