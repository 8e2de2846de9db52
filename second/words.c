#include "words.h"

#include "real.h"

static bool is_blank(char c)
{
    return c == ' ' || c == '\t' || c == '\r';
}

/* Takes the next word off the front of a line; an empty one at its end. */
static span take_word(span *line)
{
    while (line->length > 0 && is_blank(*line->at))
        line->at++, line->length--;
    span w = { line->at, 0 };
    while (line->length > 0 && !is_blank(*line->at))
        line->at++, line->length--, w.length++;
    return w;
}

bool span_is(span w, const char *text)
{
    return w.length == strlen(text) && memcmp(w.at, text, w.length) == 0;
}

bool span_begins(span w, const char *text)
{
    return w.length >= strlen(text) && memcmp(w.at, text, strlen(text)) == 0;
}

span behind(span w, size_t bytes)
{
    return (span){ w.at + bytes, w.length - bytes };
}

static bool is_digit(char c)
{
    return '0' <= c && c <= '9';
}

static int hex_digit(char c)
{
    if (is_digit(c))
        return c - '0';
    if ('a' <= c && c <= 'f')
        return c - 'a' + 10;
    return 'A' <= c && c <= 'F' ? c - 'A' + 10 : -1;
}

static bool read_bits(span w, double *out)
{
    if (w.length != 16)
        return false;
    uint64_t bits = 0;
    for (size_t k = 0; k < w.length; k++) {
        if (hex_digit(w.at[k]) < 0)
            return false;
        bits = bits << 4 | (uint64_t)hex_digit(w.at[k]);
    }
    *out = of_bits(bits);
    return true;
}

/* At most 15 digits and the power of ten are exact in f64, so the one division gives the nearest. */
static bool read_decimal(span w, double *out)
{
    bool negative = span_begins(w, "-"), point = false;
    if (negative || span_begins(w, "+"))
        w = behind(w, 1);
    uint64_t digits = 0;
    int count = 0;
    double power = 1;
    for (size_t k = 0; k < w.length; k++) {
        if (w.at[k] == '.' && !point && count > 0) {
            point = true;
            continue;
        }
        if (!is_digit(w.at[k]) || ++count > 15)
            return false;
        digits = digits * 10 + (uint64_t)(w.at[k] - '0');
        power = point ? power * 10 : 1;
    }
    if (count == 0 || !is_digit(w.at[w.length - 1]))
        return false;
    double size = (double)digits / power;
    *out = negative ? -size : size;
    return true;
}

bool read_number(span w, double *out)
{
    return span_begins(w, "x") ? read_bits(behind(w, 1), out) : read_decimal(w, out);
}

static bool read_digits(span w, uint64_t *out)
{
    *out = 0;
    for (size_t k = 0; k < w.length; k++) {
        uint64_t digit = (uint64_t)(w.at[k] - '0');
        if (!is_digit(w.at[k]) || *out > (UINT64_MAX - digit) / 10)
            return false;
        *out = *out * 10 + digit;
    }
    return w.length > 0;
}

bool read_whole(span w, int64_t *out)
{
    bool negative = span_begins(w, "-");
    uint64_t size;
    if (!read_digits(behind(w, negative), &size) || size > (uint64_t)INT64_MAX + negative)
        return false;
    *out = !negative ? (int64_t)size : size == 0 ? 0 : -1 - (int64_t)(size - 1);
    return true;
}

bool read_count(span w, uint64_t *out)
{
    bool negative = span_begins(w, "-");
    return read_digits(behind(w, negative), out) && !(negative && *out > 0);
}

span next_word(reader *from)
{
    from->number++;
    return take_word(&from->rest);
}

int first_word(const char *line, size_t length, reader *from, span *word)
{
    *from = (reader){ { line, length }, 0 };
    if (span_begins(from->rest, "#"))
        return NOTHING;
    if (length > LINE_MAX)
        return 0;
    *word = next_word(from);
    return word->length == 0 ? NOTHING : READ;
}

bool next_is(reader *from, const char *text)
{
    reader ahead = *from;
    if (!span_is(next_word(&ahead), text))
        return false;
    *from = ahead;
    return true;
}
