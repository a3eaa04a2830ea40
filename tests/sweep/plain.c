/* What ./sweep says, found out the plain way: every altered track is read from its beginning, list after list, and its
 * lists are compared with those of the track as it is. The test holds ./sweep to it.
 * usage: plain FILE lenient|strict
 * Prints of every place and value a line: place value answer events at as. The last is what a track that is read to its
 * end is read as, by the events of the track as it is: same, others (as many), fewer or more; of one that is refused "-".
 * Exit status: 0 printed; 2 no such file, an empty one, or one of above 65,536 bytes. */
#include <stdio.h>
#include <stdlib.h>
#include <string.h>

#include "apkarewe.h"

enum { MOST = 65536 };

/* A track, and all that is read of it. */
struct track {
    uint8_t bytes[MOST + 1];
    uint64_t rows[MOST + APK_LIST_ROWS][APK_CELLS];
    size_t events, at;
    uint8_t answer;
};

static struct track own, altered;
static size_t length;
static uint8_t rules;

static void read_all(struct track *track) {
    uint8_t running = 0;
    track->events = track->at = 0;
    do {
        size_t count = 0, padding = 0; /* padding is not looked at, as in ./sweep */
        track->answer = apk_list_read(track->bytes, length, track->at, running, rules, track->rows[track->events],
                                      APK_LIST_CELLS, &count, &track->at, &running, &padding);
        track->events += count;
    } while (track->answer == APK_FULL);
}

static int same_events(void) {
    uint8_t same = 1;
    for (size_t at = 0; same && at < own.events; at += APK_LIST_ROWS) {
        size_t count = own.events - at < APK_LIST_ROWS ? own.events - at : APK_LIST_ROWS;
        if (apk_list_same(own.rows[at], APK_LIST_CELLS, count, own.bytes, length, altered.rows[at], APK_LIST_CELLS,
                          count, altered.bytes, length, &same) != APK_ACCEPTED) {
            abort(); /* never so: rows that were read are events' */
        }
    }
    return same;
}

static const char *read_as(void) {
    if (altered.answer != APK_ACCEPTED) {
        return "-";
    }
    if (altered.events != own.events) {
        return altered.events < own.events ? "fewer" : "more";
    }
    return same_events() ? "same" : "others";
}

int main(int words, char **word) {
    FILE *file = words == 3 ? fopen(word[1], "rb") : NULL;
    if (file == NULL || (length = fread(own.bytes, 1, sizeof own.bytes, file)) == 0 || length > MOST) {
        fprintf(stderr, "usage: plain FILE lenient|strict    a track's bytes, 1 to %d\n", MOST);
        return 2;
    }
    rules = strcmp(word[2], "strict") == 0 ? APK_STRICT : 0;
    memcpy(altered.bytes, own.bytes, length);
    read_all(&own);
    for (size_t place = 0; place < length; place++) {
        for (unsigned value = 0; value < 256; value++) {
            altered.bytes[place] = (uint8_t)value;
            read_all(&altered);
            printf("%zu %u %u %zu %zu %s\n", place, value, (unsigned)altered.answer, altered.events, altered.at, read_as());
        }
        altered.bytes[place] = own.bytes[place];
    }
    return 0;
}
