/* What --help and --version print. */
#ifndef HAYRO_TOOL_HELP_H
#define HAYRO_TOOL_HELP_H

void print_help(void);
void print_version(void);

#endif
