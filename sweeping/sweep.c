/* For every place of a track and every value of the byte there: what the reader answers, and what is printed of it.
 * What is read is what the proved entries read (include/apkarewe.h). README.md, "What one wrong byte does", is for its users. */
#include <errno.h>
#include <getopt.h>
#include <stdarg.h>
#include <stdio.h>
#include <stdlib.h>
#include <string.h>
#include <unistd.h>

#include "apkarewe.h"
#include "apkarewe_answers.h"
#include "output.h"
#include "reading.h"

enum { VALUES = 256 };

static const char usage[] =
    "usage: ./sweep [FILE] [--strict] [--from PLACE] [--to PLACE] [--summary]\n"
    "Alters each byte of a track to each value, and prints of each altered track a line: place value answer events at.\n"
    "  FILE           the bytes of one track, at most 65,536; standard input where none is named\n"
    "  --strict       reads strictly, else leniently\n"
    "  --from, --to   only the places from one to another, both included, counted from 0\n"
    "  --summary      a table of how many alterations are refused by which number, and what the others are read as\n"
    "Exit status: 0 all was printed; 2 it was not, and standard error says why.\n";

/* What was asked for. */
struct asked {
    const char *name;
    uint8_t rules;
    int summary;
    const char *from_word, *to_word; /* places as they were typed, NULL where they were not */
    size_t from, to;                 /* both included */
};

static uint8_t bytes[MOST_BYTES + 1]; /* one more, which tells a file that is too long */

/* Says what is wrong with a file, and what to do about it, and ends the program. */
static void refuse(const char *name, const char *format, ...) {
    va_list words;
    fprintf(stderr, "sweep: %s: ", name);
    va_start(words, format);
    vfprintf(stderr, format, words);
    va_end(words);
    fputc('\n', stderr);
    exit(2);
}

static void refuse_words(void) {
    fputs(usage, stderr);
    exit(2);
}

static void print_usage(void) {
    fputs(usage, stdout);
    if (fflush(stdout) != 0) {
        refuse("standard output", "it took not all (%s): make room, or let its reader read to the end", strerror(errno));
    }
    exit(0);
}

static struct asked ask(int words, char **word) {
    static const struct option options[] = {
        {"strict", no_argument, NULL, 's'}, {"from", required_argument, NULL, 'f'},
        {"to", required_argument, NULL, 't'}, {"summary", no_argument, NULL, 'u'},
        {"help", no_argument, NULL, 'h'}, {NULL, 0, NULL, 0},
    };
    struct asked asked = {NULL, 0, 0, NULL, NULL, 0, 0};
    int option;
    unsetenv("POSIXLY_CORRECT"); /* options may stand behind the file too */
    while ((option = getopt_long(words, word, "h", options, NULL)) != -1) {
        switch (option) {
        case 's': asked.rules |= APK_STRICT; break;
        case 'f': asked.from_word = optarg; break;
        case 't': asked.to_word = optarg; break;
        case 'u': asked.summary = 1; break;
        case 'h': print_usage(); break;
        default: refuse_words();
        }
    }
    if (optind + 1 < words || (optind == words && isatty(STDIN_FILENO))) {
        refuse_words();
    }
    asked.name = optind < words ? word[optind] : NULL;
    return asked;
}

/* The bytes of the file, or of standard input: how many. */
static size_t load(struct asked *asked) {
    FILE *file = asked->name == NULL ? stdin : fopen(asked->name, "rb");
    asked->name = asked->name == NULL ? "standard input" : asked->name;
    if (file == NULL) {
        refuse(asked->name, "it cannot be opened (%s): name a file that can be read", strerror(errno));
    }
    size_t length = fread(bytes, 1, sizeof bytes, file);
    if (ferror(file)) {
        refuse(asked->name, "it cannot be read (%s): name a file with the bytes of a track", strerror(errno));
    }
    if (length == 0) {
        refuse(asked->name, "it is empty, and there is no byte to alter: name a file with the bytes of a track");
    }
    if (length > MOST_BYTES) {
        refuse(asked->name, "it has more than %d bytes: cut it, or name a shorter track", MOST_BYTES);
    }
    return length;
}

/* A place as it was typed, one of so many; none is one of its own. */
static size_t place_of(const char *name, const char *word, size_t none, size_t length) {
    if (word == NULL) {
        return none;
    }
    if (*word == '\0' || strspn(word, "0123456789") != strlen(word)) {
        refuse(name, "\"%s\" is no place: name one in digits, from 0 to %zu", word, length - 1);
    }
    unsigned long place = strtoul(word, NULL, 10); /* the largest number where it is larger still */
    if (place >= length) {
        refuse(name, "place %s is outside: name places from 0 to %zu", word, length - 1);
    }
    return place;
}

/* Holds the places that were asked for to those that there are. */
static void bound(struct asked *asked, size_t length) {
    asked->from = place_of(asked->name, asked->from_word, 0, length);
    asked->to = place_of(asked->name, asked->to_word, length - 1, length);
    if (asked->from > asked->to) {
        refuse(asked->name, "no place lies from %zu to %zu: name the lower one with --from", asked->from, asked->to);
    }
}

static void sweep(const struct asked *asked) {
    for (size_t place = asked->from; place <= asked->to && !must_stop(); place++) {
        for (uint32_t value = 0; value < VALUES; value++) {
            struct stop stop = read_altered(place, (uint8_t)value);
            uint32_t line[] = {(uint32_t)place, value, stop.answer, stop.events, stop.at};
            put_numbers(line, sizeof line / sizeof line[0]);
        }
        show_progress(place + 1 - asked->from, asked->to + 1 - asked->from);
    }
}

/* How many alterations there were of each outcome. */
struct tally {
    size_t refused[VALUES];
    size_t read_as[READ_AS];
};

static void count_alterations(const struct asked *asked, struct tally *tally) {
    for (size_t place = asked->from; place <= asked->to && !must_stop(); place++) {
        for (uint32_t value = 0; value < VALUES; value++) {
            if (value == byte_at(place)) {
                continue; /* the track as it is */
            }
            struct stop stop = read_altered(place, (uint8_t)value);
            if (stop.answer == APK_ACCEPTED) {
                tally->read_as[read_altered_as(place, (uint8_t)value, stop)]++;
            } else {
                tally->refused[stop.answer]++;
            }
        }
        show_progress(place + 1 - asked->from, asked->to + 1 - asked->from);
    }
}

static void put_share(size_t count, size_t all, const char *what, const char *meaning) {
    put_text("%11zu %6.2f%%  %s%s", count, 100.0 * (double)count / (double)all, what, meaning);
}

static void summarise(const struct asked *asked, size_t length) {
    static const char *const read_as[READ_AS] = {
        [AS_THE_SAME] = "the same events", [AS_OTHERS] = "as many events, not the same",
        [AS_FEWER] = "fewer events", [AS_MORE] = "more events",
    };
    struct tally tally = {{0}, {0}};
    struct stop stop = read_unaltered();
    size_t all = (asked->to + 1 - asked->from) * (VALUES - 1), read = 0;
    count_alterations(asked, &tally);
    if (must_stop()) {
        return;
    }
    put_text("%s: %zu bytes, %u events, answer %u at %u, %s", asked->name, length, (unsigned)stop.events,
             (unsigned)stop.answer, (unsigned)stop.at, asked->rules & APK_STRICT ? "strict" : "lenient");
    put_text("places %zu to %zu, each byte altered to the %d other values", asked->from, asked->to, VALUES - 1);
    put_text("alterations   share  what becomes of the track");
    for (int as = 0; as < READ_AS; as++) {
        read += tally.read_as[as];
        put_share(tally.read_as[as], all, "0, read to the end: ", read_as[as]);
    }
    for (int answer = APK_NUMBER_CUT_OFF; answer < APK_READING_ANSWERS; answer++) {
        char number[32];
        snprintf(number, sizeof number, "%d, ", answer);
        put_share(tally.refused[answer], all, number, apk_reading[answer]);
    }
    put_share(read, all, "read to the end in all", "");
    put_share(all - read, all, "refused in all, a fetch each", "");
}

/* Not all was printed: says how to go on. */
static void refuse_output(const struct asked *asked, int error) {
    size_t lines = lines_written();
    if (asked->summary) {
        refuse(asked->name, "standard output took no more (%s): make room, or let its reader read to the end", strerror(error));
    }
    refuse(asked->name, "standard output took %zu lines and no more (%s): make room, or let its reader read to the end; then "
           "go on with --from %zu, of which %zu lines stand there", lines, strerror(error),
           asked->from + lines / VALUES, lines % VALUES);
}

int main(int words, char **word) {
    struct asked asked = ask(words, word);
    size_t length = load(&asked);
    bound(&asked, length);
    if (length >= 4 && memcmp(bytes, "MThd", 4) == 0) {
        fprintf(stderr, "sweep: %s: this is a whole MIDI file, and its bytes are read as those of one track: "
                "tools/track %s N | ./sweep\n", asked.name, optind < words ? asked.name : "FILE");
    }
    if (!take_track(bytes, length, asked.rules)) {
        refuse(asked.name, "there is not enough memory for it: end another program, and try again");
    }
    begin_output();
    if (asked.summary) {
        summarise(&asked, length);
    } else {
        sweep(&asked);
    }
    int error = end_output();
    if (error != 0) {
        refuse_output(&asked, error);
    }
    return 0;
}
