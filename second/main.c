/* The second program: document 01 once more, in C, as a witness for the first. See README.md. */
#include "desk.h"
#include "files.h"
#include "programs.h"

#include <inttypes.h>
#include <stdio.h>
#include <stdlib.h>
#include <string.h>

/* Without a file there is no version. */
static int desk(const char *file)
{
    char line[LINE_MAX], answer[ANSWER_MAX];
    settings kept = { NULL, 0 };
    if (file && !settings_if_any(file, &kept))
        return 2;
    for (long length; (length = take_line(line, sizeof line)) >= 0;) {
        request asked;
        int unread = read_request(line, (size_t)length, &asked);
        if (unread == NOTHING)
            continue;
        answer_line(unread, &asked, &kept, answer);
        puts(answer);
    }
    return 0;
}

static int run_bench(const char *name, uint64_t count)
{
    uint64_t checksum;
    if (!bench(name, count, &checksum)) {
        fprintf(stderr, "no such bench: %s\n", name);
        return 2;
    }
    printf("%016" PRIX64 "\n", checksum);
    return 0;
}

static int help(void)
{
    fputs("second desk [SETTINGS]           a line in, a line out\n"
          "second settings FILE WORD..      list, show K, store BODY MU RADIUS CLOSED FAIR, back K\n"
          "second list [FILE]               the listing of a session\n"
          "second show [FILE]               a session as text\n"
          "second write [--replace] FILE    a session of the text on standard input\n"
          "second watch                     the listing of a session as it comes on standard input\n"
          "second replay FILE [EARTH MOON]  a session flown again; or --settings SETTINGS EARTH MOON\n"
          "second requests SEED COUNT       lines for the desk\n"
          "second sessions SEED COUNT DIR   sessions, whole and damaged\n"
          "second texts SEED COUNT DIR      sessions as text, with faults\n"
          "second flights SEED COUNT DIR    sessions to fly again\n"
          "second bench NAME [COUNT]        root, advance, lambert, theta or list: a checksum\n",
          stderr);
    return 2;
}

int main(int words, char **word)
{
    const char *what = words > 1 ? word[1] : "";
    uint64_t a = words > 2 ? strtoull(word[2], NULL, 10) : 0;
    uint64_t b = words > 3 ? strtoull(word[3], NULL, 10) : 0;
    if (strcmp(what, "desk") == 0 && words <= 3)
        return desk(word[2]);
    if (strcmp(what, "settings") == 0 && words > 3)
        return settings_program(words - 2, word + 2);
    if (strcmp(what, "list") == 0 && words <= 3)
        return list(word[2]);
    if (strcmp(what, "show") == 0 && words <= 3)
        return show(word[2]);
    if (strcmp(what, "write") == 0 && words == 3)
        return write_session(word[2], false);
    if (strcmp(what, "write") == 0 && words == 4 && strcmp(word[2], "--replace") == 0)
        return write_session(word[3], true);
    if (strcmp(what, "watch") == 0 && words == 2)
        return watch();
    if (strcmp(what, "replay") == 0 && words > 2)
        return replay_program(words - 2, word + 2);
    if (strcmp(what, "requests") == 0 && words == 4)
        return make_requests(a, b), 0;
    if (strcmp(what, "sessions") == 0 && words == 5)
        return make_sessions(a, b, word[4]);
    if (strcmp(what, "texts") == 0 && words == 5)
        return make_texts(a, b, word[4]);
    if (strcmp(what, "flights") == 0 && words == 5)
        return make_flights(a, b, word[4]);
    if (strcmp(what, "bench") == 0 && (words == 3 || words == 4))
        return run_bench(word[2], b);
    return help();
}
