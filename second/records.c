/* The programs about records: list, show, write, watch. */
#include "programs.h"

#include "files.h"
#include "session.h"
#include "words.h"

#include <stdio.h>
#include <unistd.h>

static uint8_t session[SESSION_MAX + 1];

int list(const char *name)
{
    static char text[LISTING_MAX];
    size_t size;
    if (!load(name, session, sizeof session, &size))
        return 2;
    listed made = listing(session, size, text);
    fwrite(text, 1, made.length, stdout);
    return made.refused;
}

int show(const char *name)
{
    size_t size;
    if (!load(name, session, sizeof session, &size))
        return 2;
    for (place from = { 0, 0 };;) {
        char text[TEXT_MAX];
        reading read = read_record(session, size, from);
        if (read.refused)
            printf("# refused %d at %zu\n", read.refused, read.place.byte);
        if (read.refused || read.end)
            return read.refused != 0;
        show_record(&read.record, read.place.offset, text);
        fputs(text, stdout);
        from = read.place;
    }
}

/* One line more of a session; false with the word for the one that wrote it. */
static bool add_line(const char *line, size_t length, size_t *used, char word[32])
{
    record r;
    int unread = read_text(line, length, &r);
    if (unread == NOTHING)
        return true;
    if (unread != READ) {
        sprintf(word, "unread %d", unread);
        return false;
    }
    writing made = append_record(session, SESSION_MAX, *used, &r);
    *used = made.used;
    sprintf(word, "refused %d", made.refused);
    return made.refused == 0;
}

int write_session(const char *name, bool replace)
{
    char line[LINE_MAX], word[32];
    size_t used = 0;
    if (!replace && exists(name)) {
        fprintf(stderr, "%s is there already\n", name);
        return 2;
    }
    long length, number = 0;
    while ((length = take_line(line, sizeof line)) >= 0) {
        number++;
        if (!add_line(line, (size_t)length, &used, word)) {
            fprintf(stderr, "line %ld: %s\n", number, word);
            return 1;
        }
    }
    if (ferror(stdin)) {
        perror("standard input");
        return 2;
    }
    return appear(name, session, used, replace) ? 0 : 2;
}

static void say_line(const reading *read)
{
    char line[64];
    fwrite(line, 1, listing_line(read, line), stdout);
}

/* The lines of a part, up to its end or a refusal. */
static reading watch_part(stream *s, const uint8_t *part, size_t size)
{
    reading read;
    size_t taken = 0;
    do {
        read = take_part(s, part, size, &taken);
        say_line(&read);
    } while (!read.used_up && !read.refused);
    fflush(stdout);
    return read;
}

int watch(void)
{
    stream s = { 0 };
    ssize_t size;
    fputs(listing_heading, stdout);
    fflush(stdout);
    while ((size = read(STDIN_FILENO, session, sizeof session)) > 0)
        if (watch_part(&s, session, (size_t)size).refused)
            return 1;
    if (size < 0) {
        perror("standard input");
        return 2;
    }
    reading end = end_parts(&s);
    say_line(&end);
    return end.refused != 0;
}
