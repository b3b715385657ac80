#include "platform.h"

#include "words.h"

#include "file_names.h"
#include "help.h"

#include <ctype.h>
#include <errno.h>
#include <getopt.h>
#include <stdio.h>
#include <stdlib.h>
#include <string.h>
#include <unistd.h>

enum { MOST_JOBS = 256 };
enum { FORCE = 256, STRICTLY, SALVAGED, PASSWORD, WORK, MEMORY, JSON };
/* Of the command `write` alone. */
enum { CODING = 512, TEMPLATE, TYPICAL, NOT_TYPICAL, EMBEDDED, DPI };

static const struct option options[] = {
    {"output", required_argument, NULL, 'o'},
    {"format", required_argument, NULL, 'f'},
    {"pages", required_argument, NULL, 'p'},
    {"globals", required_argument, NULL, 'g'},
    {"jobs", required_argument, NULL, 'j'},
    {"quiet", no_argument, NULL, 'q'},
    {"help", no_argument, NULL, 'h'},
    {"version", no_argument, NULL, 'V'},
    {"force", no_argument, NULL, FORCE},
    {"strict", no_argument, NULL, STRICTLY},
    {"salvage", no_argument, NULL, SALVAGED},
    {"password", required_argument, NULL, PASSWORD},
    {"work", required_argument, NULL, WORK},
    {"memory", required_argument, NULL, MEMORY},
    {"json", no_argument, NULL, JSON},
    {"coding", required_argument, NULL, CODING},
    {"template", required_argument, NULL, TEMPLATE},
    {"typical", no_argument, NULL, TYPICAL},
    {"no-typical", no_argument, NULL, NOT_TYPICAL},
    {"embedded", no_argument, NULL, EMBEDDED},
    {"dpi", required_argument, NULL, DPI},
    {NULL, 0, NULL, 0},
};

/* A whole number of decimal digits at `*at`, which moves after it. */
static bool read_number(const char **at, uint64_t *number) {
    char *end;
    if (!isdigit((unsigned char)**at))
        return false;
    errno = 0;
    unsigned long long value = strtoull(*at, &end, 10);
    *number = value;
    *at = end;
    return errno == 0;
}

/* SIZE_MAX stands for no last page. */
static bool read_page_number(const char **at, uint64_t *number) {
    return read_number(at, number) && *number >= 1 && *number < SIZE_MAX;
}

static bool read_range(const char **at, struct range *range) {
    uint64_t first, last;
    if (!read_page_number(at, &first))
        return false;
    last = first;
    if (**at == '-') {
        ++*at;
        if (isdigit((unsigned char)**at) ? !read_page_number(at, &last) : (last = SIZE_MAX, false))
            return false;
    }
    *range = (struct range){first, last};
    return first <= last;
}

static bool read_ranges(struct words *words, const char *at) {
    do {
        struct range range;
        if (!read_range(&at, &range))
            return false;
        words->ranges = larger_room(words->ranges, (words->range_count + 1) * sizeof *words->ranges);
        words->ranges[words->range_count++] = range;
    } while (*at++ == ',');
    return at[-1] == '\0';
}

static bool read_size(const char *at, size_t *size) {
    static const char units[] = "KMG";
    uint64_t number;
    if (!read_number(&at, &number) || number == 0)
        return false;
    const char *unit = *at != '\0' ? strchr(units, toupper((unsigned char)*at)) : NULL;
    unsigned shift = unit != NULL ? 10 * (unsigned)(unit - units + 1) : 0;
    at += unit != NULL;
    *size = number > (SIZE_MAX - 1) >> shift ? SIZE_MAX - 1 : (size_t)number << shift;
    return *at == '\0';
}

static bool read_work(struct reading *reading, const char *at) {
    reading->has_own_work = true;
    reading->work = HAYRO_JBIG2_NO_WORK_LIMIT;
    return strcmp(at, "none") == 0 || (read_number(&at, &reading->work) && *at == '\0');
}

static bool read_jobs(unsigned *jobs, const char *at) {
    uint64_t number;
    bool is_number = read_number(&at, &number) && *at == '\0' && number >= 1;
    *jobs = is_number && number < MOST_JOBS ? (unsigned)number : MOST_JOBS;
    return is_number;
}

static bool read_format(struct words *words, const char *name) {
    static const struct {
        const char *name;
        enum format format;
    } names[] = {{"png", FORMAT_PNG},   {"pbm", FORMAT_PBM},     {"tiff", FORMAT_TIFF},     {"tif", FORMAT_TIFF},
                 {"jb2", FORMAT_JBIG2}, {"jbig2", FORMAT_JBIG2}, {"jb2e", FORMAT_EMBEDDED}, {"pdf", FORMAT_PDF}};
    words->has_format = false;
    for (size_t i = 0; i < sizeof names / sizeof *names; i++)
        if (strcmp(name, names[i].name) == 0) {
            words->has_format = true;
            words->format = names[i].format;
        }
    return words->has_format;
}

static bool set_way(struct words *words, enum way way) {
    bool is_other = words->reading.way != LENIENT && words->reading.way != way;
    words->reading.way = way;
    return !is_other;
}

static bool read_coding(struct words *words, const char *name) {
    words->writing.mmr = strcmp(name, "mmr") == 0;
    return words->writing.mmr || strcmp(name, "arithmetic") == 0;
}

static bool read_template(struct words *words, const char *at) {
    uint64_t number;
    bool is_number = read_number(&at, &number) && *at == '\0' && number <= 3;
    words->writing.template_number = is_number ? (uint32_t)number : 0;
    return is_number;
}

/* Pixels for each inch, as pixels for each metre. */
static bool read_dpi(struct words *words, const char *at) {
    enum { MOST = 100000000 };
    uint64_t number;
    bool is_number = read_number(&at, &number) && *at == '\0' && number >= 1 && number <= MOST;
    words->resolution = is_number ? (uint32_t)((number * 10000 + 127) / 254) : 0;
    return is_number;
}

/* False where the option's own word is wrong. */
static bool take_option_of_write(struct words *words, int option, const char *word) {
    switch (option) {
    case CODING:
        return read_coding(words, word);
    case TEMPLATE:
        return read_template(words, word);
    case DPI:
        return read_dpi(words, word);
    case EMBEDDED:
        return words->is_embedded = true;
    default:
        words->writing.typical = option == TYPICAL;
        return true;
    }
}

static bool take_option(struct words *words, int option, const char *word) {
    switch (option) {
    case 'o':
        words->output = word;
        return word[0] != '\0';
    case 'f':
        return read_format(words, word);
    case 'p':
        return read_ranges(words, word);
    case 'g':
        words->globals = word;
        return true;
    case 'j':
        return read_jobs(&words->jobs, word);
    case 'q':
        return words->is_quiet = true;
    case FORCE:
        return words->is_forced = true;
    case STRICTLY:
        return set_way(words, STRICT);
    case SALVAGED:
        return set_way(words, SALVAGE);
    case PASSWORD:
        words->password = word;
        return true;
    case WORK:
        return read_work(&words->reading, word);
    case MEMORY:
        return read_size(word, &words->reading.memory);
    case JSON:
        return words->is_json = true;
    default:
        return take_option_of_write(words, option, word);
    }
}

static enum request wrong(const char *what, const char *word) {
    complain("%s%s%s; see " PROGRAM " --help", what, word != NULL ? " " : "", word != NULL ? word : "");
    return STOP_WRONG;
}

static const char *name_of_option(int option) {
    for (const struct option *at = options; at->name != NULL; at++)
        if (at->val == option)
            return at->name;
    return NULL;
}

/* getopt may still be at the word before that of a short option, as of -zq. An option that is there has a word that it
 * doesn't take, as --force=x. */
static enum request wrong_option(const char *word) {
    char name[] = {'-', (char)optopt, '\0'};
    const char *known = name_of_option(optopt);
    if (optopt == 0 || known == NULL)
        return wrong("there is no option", optopt != 0 ? name : word);
    char what[40];
    snprintf(what, sizeof what, "no word belongs to --%s", known);
    return wrong(what, NULL);
}

static void note_option(struct words *words, int option) {
    for (size_t i = 0; options[i].name != NULL; i++)
        if (options[i].val == option)
            words->given |= (uint64_t)1 << i;
}

/* Whether `write` has an option, or else whether another command has. */
static bool belongs_to(int option, bool is_write) {
    bool is_common = option == 'o' || option == 'f' || option == 'q' || option == FORCE;
    return is_common || is_write == (option >= CODING);
}

static bool is_of_coder(int option) { return option == TEMPLATE || option == TYPICAL || option == NOT_TYPICAL; }

/* An option that was given and that the command, or the coding, doesn't take, or 0. */
static int foreign_option(const struct words *words) {
    for (size_t i = 0; options[i].name != NULL; i++) {
        int option = options[i].val;
        bool is_taken = belongs_to(option, words->command == WRITE) && !(words->writing.mmr && is_of_coder(option));
        if ((words->given >> i & 1) != 0 && !is_taken)
            return option;
    }
    return 0;
}

static enum request wrong_use(int option, bool is_write) {
    char what[40];
    snprintf(what, sizeof what, "--%s is for", name_of_option(option));
    return wrong(what, !is_write                  ? "the command write"
                       : belongs_to(option, true) ? "the arithmetic coder, not for --coding=mmr"
                                                  : "reading, not for write");
}

static enum request read_options(struct words *words, int count, char **all) {
    int option;
    opterr = 0;
    /* Where it is set, no option could come after `info` or `write`. */
    unsetenv("POSIXLY_CORRECT");
    while ((option = getopt_long(count, all, ":o:f:p:g:j:qhV", options, NULL)) != -1) {
        if (option == 'h' || option == 'V') {
            (option == 'h' ? print_help : print_version)();
            return STOP_WELL;
        }
        if (option == ':')
            return wrong("a word is missing after", all[optind - 1]);
        if (option == '?')
            return wrong_option(all[optind - 1]);
        note_option(words, option);
        if (!take_option(words, option, optarg)) {
            char what[40];
            snprintf(what, sizeof what, "wrong word for --%s:", name_of_option(option));
            return option == STRICTLY || option == SALVAGED ? wrong("either --strict or --salvage", NULL)
                                                            : wrong(what, optarg);
        }
    }
    return GO_ON;
}

/* The format by the ending of a file's name, if nothing else says it. A folder may have any name. */
static bool choose_format(struct words *words) {
    const char *name;
    if (words->has_format || !has_single_output(words, &name) || name == NULL)
        return true;
    const char *slash = strrchr(name, '/'), *last = slash != NULL ? slash + 1 : name;
    const char *dot = strrchr(last, '.');
    if (dot == NULL || dot == last || dot[1] == '\0')
        return true;
    return read_format(words, dot + 1);
}

/* `write` makes a JBIG2 file, if nothing else says otherwise. */
static enum request check_format(struct words *words) {
    bool is_write = words->command == WRITE;
    if (!choose_format(words))
        return wrong("no format for the ending of (or give --format)", words->output);
    if (is_write && !words->has_format)
        words->format = FORMAT_JBIG2;
    if (is_drawn_format(words->format) && is_write)
        return wrong("write makes JBIG2 and PDF files, not", name_of_format(words->format));
    if (!is_drawn_format(words->format) && !is_write)
        return wrong("the command write makes files of", name_of_format(words->format));
    if (words->is_embedded && words->format == FORMAT_PDF)
        return wrong("--embedded is not for PDF", NULL);
    if (words->is_embedded)
        words->format = FORMAT_EMBEDDED;
    return GO_ON;
}

static enum request check_words(struct words *words) {
    size_t standard_inputs = words->globals != NULL && is_standard_input(words->globals);
    if (words->input_count == 0)
        return wrong("name a file", NULL);
    for (size_t i = 0; i < words->input_count; i++)
        standard_inputs += is_standard_input(words->inputs[i]);
    if (standard_inputs > 1)
        return wrong("standard input can be read once", NULL);
    if (words->command == INFO && (words->output != NULL || words->has_format))
        return wrong("info writes to standard output", NULL);
    if (words->command != INFO && words->is_json)
        return wrong("--json is for info", NULL);
    if (foreign_option(words) != 0)
        return wrong_use(foreign_option(words), words->command == WRITE);
    if (words->output == NULL && words->input_count == 1 && is_standard_input(words->inputs[0]))
        words->output = "-";
    enum request request = check_format(words);
    if (request != GO_ON)
        return request;
    bool is_terminal =
        words->command != INFO && words->output != NULL && strcmp(words->output, "-") == 0 && isatty(STDOUT_FILENO);
    return is_terminal ? wrong("no picture is written to a terminal: give -o FILE", NULL) : GO_ON;
}

enum request read_words(struct words *words, int count, char **all) {
    *words = (struct words){.reading = {.way = LENIENT, .memory = SIZE_MAX}, .writing = {.typical = true}};
    enum request request = read_options(words, count, all);
    if (request != GO_ON)
        return request;
    /* Without even a name, the place after it is past the end. */
    int first = optind < count ? optind : count;
    const char *command = first < count ? all[first] : "";
    words->command = strcmp(command, "info") == 0 ? INFO : strcmp(command, "write") == 0 ? WRITE : DRAW;
    first += words->command != DRAW;
    words->inputs = all + first;
    words->input_count = (size_t)(count - first);
    if (words->jobs == 0) {
        long processors = sysconf(_SC_NPROCESSORS_ONLN);
        words->jobs = processors < 1 ? 1 : processors > MOST_JOBS ? MOST_JOBS : (unsigned)processors;
    }
    return check_words(words);
}

void free_words(struct words *words) { free(words->ranges); }

bool is_wanted(const struct words *words, size_t page) {
    bool is_in_range = words->range_count == 0;
    for (size_t i = 0; i < words->range_count; i++)
        is_in_range = is_in_range || (page >= words->ranges[i].first && page <= words->ranges[i].last);
    return is_in_range;
}
