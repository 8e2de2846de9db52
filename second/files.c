#include "files.h"

#include <stdio.h>
#include <unistd.h>

static bool failed(const char *name)
{
    perror(name);
    return false;
}

bool load(const char *name, uint8_t *out, size_t size, size_t *got)
{
    FILE *file = name ? fopen(name, "rb") : stdin;
    *got = file ? fread(out, 1, size, file) : 0;
    if (!file || ferror(file))
        return failed(name ? name : "standard input");
    if (name)
        fclose(file);
    return true;
}

bool exists(const char *name)
{
    return access(name, F_OK) == 0;
}

static bool put(const char *name, const uint8_t *bytes, size_t size)
{
    FILE *file = fopen(name, "wbx");
    if (!file)
        return false;
    bool whole = fwrite(bytes, 1, size, file) == size;
    return fclose(file) == 0 && whole;
}

bool appear(const char *name, const uint8_t *bytes, size_t size, bool replace)
{
    char beside[4096];
    snprintf(beside, sizeof beside, "%.4000s.%ld", name, (long)getpid());
    bool there = put(beside, bytes, size) && (replace ? rename(beside, name) : link(beside, name)) == 0;
    if (!there)
        failed(name);
    unlink(beside);
    return there;
}

long take_line(char *line, size_t counts)
{
    size_t length = 0;
    int c;
    while ((c = getchar()) != EOF && c != '\n') {
        if (length < counts)
            line[length] = (char)c;
        length++;
    }
    return c == EOF && length == 0 ? -1 : (long)length;
}
