/* Options of the form --name value, and files, shared by the programs. */
#ifndef OPTIONS_H
#define OPTIONS_H

#include <stdbool.h>
#include <stddef.h>

typedef struct {
    const char *name;      /* without its dashes */
    const char **text;     /* where a text goes, or NULL */
    unsigned long *number; /* where a number goes, or NULL */
    unsigned long most;    /* the largest number */
    bool *flag;            /* set for an option without a value, or NULL */
} program_option;

/* Reads the options with getopt_long. False with a message on standard error where one is unknown, lacks its value or has a bad one, and
 * where not as many words are left as wanted (`words`); they stand last in argv then. True at once at --help. */
bool options_read(int argc, char **argv, const program_option *options, size_t count, int words);

/* Whether of a thousand frames so many can be lost, repeated and spoiled. False with a message. */
bool faults_check(unsigned long lose, unsigned long repeat, unsigned long spoil);

/* The two addresses of --unit and --tool: two hexadecimal digits each, with or without 0x; one without a text (NULL) stays as it is. False
 * with a message where a text is none, or both are the same. */
bool addresses_read(const char *unit_text, const char *tool_text, unsigned char *unit, unsigned char *tool);

/* Puts the help out: the status. */
int help_said(const char *help);

/* The whole file; NULL with a message on standard error. Longer than `most` is an error too. */
unsigned char *file_read(const char *path, size_t most, size_t *len);

/* Whether a file can be written there, asked before the work is done that fills it. False with a message. */
bool file_may_be_written(const char *path);

/* Writes the bytes to a file beside the path and renames it, so that the path never has half a file; a device, a pipe or a link is
 * written itself. False with a message. */
bool file_write(const char *path, const unsigned char *bytes, size_t len);

#endif
