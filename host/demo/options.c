#define _GNU_SOURCE
#include "options.h"

#include <ctype.h>
#include <errno.h>
#include <getopt.h>
#include <stdio.h>
#include <stdlib.h>
#include <string.h>
#include <sys/stat.h>

enum { OPTIONS_MOST = 24 };

static bool read_value(const program_option *o, const char *value)
{
    char *end;
    if (o->text) {
        *o->text = value;
        return true;
    }
    errno = 0;
    unsigned long n = strtoul(value, &end, 0);
    if (errno || end == value || *end || value[0] == '-' || n > o->most) {
        fprintf(stderr, "--%s %s: wants a number up to %lu\n", o->name, value, o->most);
        return false;
    }
    *o->number = n;
    return true;
}

bool options_read(int argc, char **argv, const program_option *options, size_t count, int words)
{
    struct option table[OPTIONS_MOST + 1] = {0};
    if (count > OPTIONS_MOST) return false;
    for (size_t i = 0; i < count; i++)
        table[i] = (struct option){options[i].name, options[i].flag ? no_argument : required_argument, NULL, 0};
    for (int found, at; (found = getopt_long(argc, argv, "", table, &at)) != -1;) {
        if (found != 0) {
            fputs("--help lists the options\n", stderr);
            return false;
        }
        if (options[at].flag) {
            *options[at].flag = true;
            if (strcmp(options[at].name, "help") == 0) return true;
        } else if (!read_value(&options[at], optarg)) {
            return false;
        }
    }
    if (argc - optind > words) {
        fprintf(stderr, "%s: '%s' is not expected; --help lists the options\n", argv[0], argv[optind + words]);
        return false;
    }
    if (argc - optind < words) {
        fprintf(stderr, "%s: a word is missing; --help says which\n", argv[0]);
        return false;
    }
    return true;
}

unsigned char *file_read(const char *path, size_t most, size_t *len)
{
    FILE *f = fopen(path, "rb");
    unsigned char *bytes = f ? malloc(most + 1) : NULL;
    if (!bytes) {
        fprintf(stderr, "'%s': %s\n", path, strerror(errno));
        if (f) fclose(f);
        return NULL;
    }
    *len = fread(bytes, 1, most + 1, f);
    bool bad = ferror(f);
    fclose(f);
    if (bad || *len > most) {
        fprintf(stderr, "'%s': %s\n", path, bad ? "cannot be read" : "is too long");
        free(bytes);
        return NULL;
    }
    return bytes;
}

bool faults_check(unsigned long lose, unsigned long repeat, unsigned long spoil)
{
    if (lose + repeat + spoil <= 1000) return true;
    fputs("--lose, --repeat and --spoil are more than a thousand together\n", stderr);
    return false;
}

static bool address_read(const char *name, const char *text, unsigned char *address)
{
    if (!text) return true;
    const char *digits = strncmp(text, "0x", 2) ? text : text + 2;
    if (strlen(digits) != 2 || !isxdigit((unsigned char)digits[0]) || !isxdigit((unsigned char)digits[1])) {
        fprintf(stderr, "--%s %s: wants an address of two hexadecimal digits\n", name, text);
        return false;
    }
    *address = (unsigned char)strtoul(digits, NULL, 16);
    return true;
}

bool addresses_read(const char *unit_text, const char *tool_text, unsigned char *unit, unsigned char *tool)
{
    if (!address_read("unit", unit_text, unit) || !address_read("tool", tool_text, tool)) return false;
    if (*unit == *tool) fprintf(stderr, "the unit's and the tool's address must differ: both are %02X\n", *unit);
    return *unit != *tool;
}

int help_said(const char *help)
{
    return fputs(help, stdout) < 0 || fflush(stdout) ? 2 : 0;
}

/* Where the bytes for the path go first: beside it, or to the path itself where it is a device, a pipe or a link. NULL
 * without memory, and for an empty path: it names no file, though one could be written beside it. */
static char *place_for(const char *path, bool *beside)
{
    struct stat s;
    char *place = NULL;
    if (*path == 0) {
        errno = ENOENT;
        return NULL;
    }
    *beside = lstat(path, &s) != 0 || S_ISREG(s.st_mode);
    return asprintf(&place, "%s%s", path, *beside ? ".part" : "") < 0 ? NULL : place;
}

bool file_may_be_written(const char *path)
{
    bool beside, good = false;
    char *place = place_for(path, &beside);
    FILE *f = place ? fopen(place, "ab") : NULL;
    if (f) good = fclose(f) == 0 && (!beside || remove(place) == 0);
    if (!good) fprintf(stderr, "'%s': %s\n", path, strerror(errno));
    free(place);
    return good;
}

bool file_write(const char *path, const unsigned char *bytes, size_t len)
{
    bool beside;
    char *place = place_for(path, &beside);
    FILE *f = place ? fopen(place, "wb") : NULL;
    bool good = f && (len == 0 || fwrite(bytes, 1, len, f) == len) && fflush(f) == 0;
    int why = errno;
    if (f && fclose(f)) good = false;
    if (good && beside && rename(place, path)) good = false, why = errno;
    if (!good) {
        fprintf(stderr, "'%s': %s\n", path, strerror(why));
        if (f && beside) remove(place);
    }
    free(place);
    return good;
}
