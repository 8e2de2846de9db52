/* 01, 'Session records', and 02, T-03, T-01 and T-08: the reader, whole and in parts, the writer, the listing, and the
 * text form. */
#ifndef SESSION_H
#define SESSION_H

#include <stdbool.h>
#include <stddef.h>
#include <stdint.h>

enum { STATE = 1, BURN = 2, MARK = 3, OFFSET = 4, SESSION_MAX = 65536, RECORD_MAX = 62 };

typedef struct {
    int kind;
    int64_t offset; /* in minutes: all that an offset record holds, and no other does */
    uint64_t vehicle, byte;
    int64_t time;
    double numbers[6]; /* as many as the kind has */
} record;

const char *name_of(int kind);
int numbers_of(int kind);
size_t length_of(int kind);

/* Where a reader stands: the byte, and the session's offset in minutes. */
typedef struct { size_t byte; int64_t offset; } place;

/* A record and the place behind it, the end, a refusal and its place, or (in parts alone) that a part is used up. */
typedef struct { int refused; bool end, used_up; place place; record record; } reading;

reading read_record(const uint8_t *session, size_t size, place from);

/* T-08: a session in parts. It begins as all zeros; `last` is the answer that is given again. */
typedef struct {
    place at;
    uint8_t unfinished[RECORD_MAX];
    size_t kept;
    bool over;
    reading last;
} stream;

/* The next record of a part that was read from *taken on, with *taken moved behind what it took. */
reading take_part(stream *s, const uint8_t *part, size_t size, size_t *taken);
reading end_parts(stream *s);

/* The bytes of a record, whatever it holds; answers how many. */
size_t write_record(uint8_t out[RECORD_MAX], const record *r);

/* T-01: a record behind the used part of a buffer, and the part then used; or a refusal, and no byte changed. */
typedef struct { int refused; size_t used; } writing;

writing append_record(uint8_t *buffer, size_t size, size_t used, const record *r);

/* A time by the session's own offset. */
typedef struct { int64_t day, cs; } local_time;

local_time local_of(int64_t time, int64_t offset);

/* The heading, a line a record, and the refusal's line: a line takes at most 40 bytes, a record that gets
 * one at least 30. */
enum { LISTING_MAX = (SESSION_MAX / 30 + 2) * 40 };

extern const char listing_heading[];

/* The line of a record or a refusal; answers its length, 0 for none. */
size_t listing_line(const reading *read, char out[40]);

typedef struct { size_t length; bool refused; } listed;

listed listing(const uint8_t *session, size_t size, char out[LISTING_MAX]);

/* The text form: a comment for people and a line that can be written again, each with its newline. */
enum { TEXT_MAX = 600 };

void show_record(const record *r, int64_t offset, char out[TEXT_MAX]);

/* A record of a line: READ, NOTHING, or the number of the first word that cannot be read. */
int read_text(const char *line, size_t length, record *out);

#endif
