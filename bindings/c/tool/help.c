#include "platform.h"

#include "help.h"

#include "pdf.h"
#include "picture.h"

#include <stdio.h>

void print_help(void) {
    fputs("usage: " PROGRAM " [OPTION ..] FILE ..          draws the pages of JBIG2 and PDF files\n"
          "       " PROGRAM " info [OPTION ..] FILE ..     lists pages and segments, and what is wrong where\n"
          "       " PROGRAM " write [OPTION ..] PICTURE .. writes pages of black and white pictures\n"
          "\n"
          "FILE is a JBIG2 file, a PDF file, or an embedded page as PDF files have it; - is standard input.\n"
          "Globals serve the embedded page that is named before them. Globals that are named first serve all.\n"
          "\n"
          "Output:\n"
          "  -o, --output FILE     one page, or all in a file of TIFF or PBM\n"
          "  -o, --output FOLDER/  a file for each page; the folder is made\n"
          "  -o, --output -        standard output, which standard input has by default\n"
          "                        without -o: NAME.png in this folder, NAME-1.png .. of several pages\n"
          "  -f, --format FORMAT   png, pbm or tiff; by default as FILE ends, else png\n"
          "      --force           overwrites files\n"
          "  -p, --pages LIST      as 1-3,7 or 5-\n"
          "\n"
          "Reading (a page that strict reading refuses is drawn, and reported as incomplete):\n"
          "      --strict          refuses such pages\n"
          "      --salvage         draws what is left of pages that can't be drawn otherwise\n"
          "  -g, --globals FILE    for embedded pages\n"
          "      --password WORD   of PDF files\n"
          "\n"
          "Limits:\n"
          "      --work N          units of work for a page, or none; by default 100 for each of its pixels,\n"
          "                        and 16777216 at least\n"
          "      --memory SIZE     for the decoder, for each page at once: bytes, or with K, M or G\n"
          "  -j, --jobs N          pages at once; by default one for each processor\n"
          "\n"
          "Writing (a PICTURE is a PNG, TIFF or PBM file of black and white alone; it is read back as it was):\n"
          "  -o, --output FILE     a JBIG2 file of one page, or FILE.pdf: a page for each picture\n"
          "                        without -o: NAME.jb2 in this folder, NAME-1.jb2 .. of several pictures\n"
          "  -f, --format FORMAT   jb2, jb2e (an embedded page, as PDF files have it; so does --embedded) or pdf\n"
          "      --coding CODING   arithmetic, the usual way, or mmr (T.6): mostly larger; text is read faster\n"
          "      --template N      arithmetic: which pixels predict a pixel: 0, the usual way, to 3\n"
          "      --typical         arithmetic: a row that is as the one above it takes one decision; the default\n"
          "      --no-typical      arithmetic: codes each row\n"
          "      --dpi N           pixels for each inch, in place of what a picture states\n"
          "\n"
          "      --json            info: for programs\n"
          "  -q, --quiet           no progress and no notes\n"
          "  -h, --help            -V, --version\n"
          "\n"
          "Status: 0 all pages are whole, 1 something couldn't be read or written, 2 wrong words,\n"
          "3 a page was drawn but is incomplete, 4 refused by a limit.\n"
          "\n"
          "Examples:\n"
          "  " PROGRAM " scan.jb2                           scan.png, or scan-1.png ..\n"
          "  " PROGRAM " scan.pdf -o pages/                 each JBIG2 image of a PDF file\n"
          "  " PROGRAM " scan.pdf -o scan.tiff --pages 1-3  three pages in one file\n"
          "  " PROGRAM " page.jb2e page.jb2g -o - --format pbm\n"
          "  " PROGRAM " info scan.pdf\n"
          "  " PROGRAM " write scan.png -o scan.jb2\n"
          "  " PROGRAM " write page-*.tiff -o scan.pdf\n",
          stdout);
}

static void print_library(const char *formats, const char *name, const char *version) {
    if (version != NULL)
        printf("%s: %s %s\n", formats, name, version);
    else
        printf("%s: not here, built without %s\n", formats, name);
}

void print_version(void) {
    printf(PROGRAM " %s\n", HAYRO_JBIG2_VERSION);
    printf("decoder: libhayro_jbig2 %s\n", hayro_jbig2_version());
    printf("reads: JBIG2 (ITU-T T.88) in files of its own, embedded pages\n");
    print_library("reads PDF", "libqpdf", pdf_library_version());
    printf("writes: PBM (P4), JBIG2, PDF\n");
    print_library("writes PNG", "libpng", version_of_format(FORMAT_PNG));
    print_library("writes TIFF (T.6)", "libtiff", version_of_format(FORMAT_TIFF));
}
