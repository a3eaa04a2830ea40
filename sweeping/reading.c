/* Reading a track of which one byte is altered, again and again, without reading all of it each time.
 *
 * An altered byte leaves every event before its own as it was, so reading begins at the event that holds it. Behind the
 * altered byte the bytes are the track's own: what is read from there on is a matter of the place and the running
 * status alone, of which there are so few that each is read once and kept. */
#include "reading.h"

#include <stdlib.h>
#include <string.h>

#include "apkarewe.h"

/* A reader between two events. */
struct reader {
    uint32_t at;
    uint32_t events; /* read before */
    uint8_t running;
};

/* The running statuses that a reader can have: none, and 80..EF. */
enum { STATUSES = 1 + 0xF0 - 0x80 };

static uint8_t own[MOST_BYTES];     /* the track as it is */
static uint8_t altered[MOST_BYTES]; /* the same, but for one byte while it is tried */
static uint32_t length;
static uint8_t rules;

static struct stop unaltered;
static uint64_t rows[MOST_BYTES][APK_CELLS];  /* of the track as it is: its events, */
static struct reader before[MOST_BYTES + 1];  /* the reader before each of them, and where it stopped, */
static uint32_t holder[MOST_BYTES];           /* and which of those holds a place, the last one what is left */

/* What was found out of a place and a running status, where the track as it is is read from there on. */
struct onward {
    struct stop stop;     /* where it stops, and how many events that is, */
    uint8_t stop_known;   /* if it was found out */
    uint8_t same;         /* whether its events are those that the track has behind so many, */
    uint32_t same_behind; /* one more than so many; 0 if nothing was found out */
};

static struct onward *onwards;
static struct onward *passed[MOST_BYTES + 1]; /* on the way to something that is known */

/* Reads the next event of some bytes. Where one is refused, the number is answered and the reader stays. */
static uint8_t next_event(const uint8_t *bytes, struct reader *reader, uint64_t *row) {
    size_t used = 0, padding = 0; /* padding is not looked at: only what is read counts here */
    uint8_t after = 0;
    uint8_t answer = apk_event_read(bytes, length, reader->at, reader->running, rules, row, &used, &after, &padding);
    if (answer == APK_ACCEPTED) {
        reader->at += (uint32_t)used;
        reader->events++;
        reader->running = after;
    }
    return answer;
}

static struct stop stopped(struct reader reader, uint8_t answer) {
    struct stop stop = {reader.events, reader.at, answer};
    return stop;
}

int take_track(const uint8_t *bytes, size_t count, uint8_t by) {
    struct reader reader = {0, 0, 0};
    uint8_t answer = APK_ACCEPTED;
    memcpy(own, bytes, count);
    memcpy(altered, bytes, count);
    length = (uint32_t)count;
    rules = by;
    onwards = calloc((count + 1) * STATUSES, sizeof *onwards);
    while (answer == APK_ACCEPTED && reader.at < length) {
        before[reader.events] = reader;
        answer = next_event(own, &reader, rows[reader.events]);
    }
    before[reader.events] = reader;
    unaltered = stopped(reader, answer);
    for (uint32_t place = 0, event = 0; place < length; place++) {
        event += event < reader.events && before[event + 1].at <= place;
        holder[place] = event;
    }
    return onwards != NULL;
}

struct stop read_unaltered(void) {
    return unaltered;
}

uint8_t byte_at(size_t place) {
    return own[place];
}

static struct onward *onward_from(struct reader reader) {
    size_t status = reader.running == 0 ? 0 : 1 + (size_t)(reader.running - 0x80);
    return &onwards[reader.at * STATUSES + status];
}

/* Where the track as it is stops when it is read from here on, and how many events that is. Each state is read once:
 * what is found out is kept for every state on the way there, which has an event more than the one behind it. */
static struct stop stop_from(struct reader reader) {
    size_t count = 0;
    uint64_t row[APK_CELLS];
    struct onward *here = onward_from(reader);
    while (!here->stop_known) {
        uint8_t answer = reader.at == length ? APK_ACCEPTED : next_event(own, &reader, row);
        struct onward *next = onward_from(reader);
        if (next == here) { /* the reader did not move: the end, or a refusal */
            reader.events = 0;
            here->stop = stopped(reader, answer);
            here->stop_known = 1;
        } else {
            passed[count++] = here;
            here = next;
        }
    }
    while (count > 0) {
        struct stop behind = here->stop;
        here = passed[--count];
        here->stop = behind;
        here->stop.events++;
        here->stop_known = 1;
    }
    return here->stop;
}

struct stop read_altered(size_t place, uint8_t value) {
    struct reader reader = before[holder[place]];
    uint8_t answer = APK_ACCEPTED;
    uint64_t row[APK_CELLS];
    altered[place] = value;
    while (answer == APK_ACCEPTED && reader.at <= place) {
        answer = next_event(altered, &reader, row);
    }
    altered[place] = own[place];
    if (answer != APK_ACCEPTED) {
        return stopped(reader, answer);
    }
    struct stop stop = stop_from(reader);
    stop.events += reader.events;
    return stop;
}

/* Whether an event of the altered track is the same as one of the track as it is. Long payloads are not compared byte by
 * byte where both rows name the same range and the altered byte stands in it: then the payloads differ. */
static int same_event(const uint64_t *row, const uint64_t *of_own, size_t place) {
    uint8_t same = 0;
    if (place - row[APK_START] < row[APK_LENGTH] && memcmp(row, of_own, sizeof rows[0]) == 0) {
        return 0;
    }
    return apk_event_same(row, altered, length, of_own, own, length, &same) == APK_ACCEPTED && same;
}

/* Whether a reader stands where the track's own reader stood after as many events: then all that follows is the same. */
static int met(struct reader reader) {
    const struct reader *there = &before[reader.events];
    return reader.at == there->at && reader.running == there->running;
}

/* Whether the track as it is, read from here on to its end, has the events that it has from as many events on. What is
 * found out is kept for every state on the way. */
static int same_from(struct reader reader) {
    size_t count = 0, first = reader.events;
    uint64_t row[APK_CELLS];
    int same = -1;
    while (same < 0) {
        struct onward *here = onward_from(reader);
        if (here->same_behind == reader.events + 1) {
            same = here->same;
        } else if (reader.at == length || met(reader)) {
            same = 1;
        } else {
            const uint64_t *of_own = rows[reader.events];
            passed[count++] = here;
            if (next_event(own, &reader, row) != APK_ACCEPTED || !same_event(row, of_own, length)) {
                same = 0;
            }
        }
    }
    for (size_t i = 0; i < count; i++) {
        passed[i]->same = (uint8_t)same;
        passed[i]->same_behind = (uint32_t)(first + i + 1);
    }
    return same;
}

enum read_as read_altered_as(size_t place, uint8_t value, struct stop stop) {
    struct reader reader = before[holder[place]];
    int same = 1;
    uint64_t row[APK_CELLS];
    if (stop.events != unaltered.events) {
        return stop.events < unaltered.events ? AS_FEWER : AS_MORE;
    }
    altered[place] = value;
    while (same && reader.at <= place) {
        const uint64_t *of_own = rows[reader.events];
        same = next_event(altered, &reader, row) == APK_ACCEPTED && same_event(row, of_own, place);
    }
    altered[place] = own[place];
    return same && same_from(reader) ? AS_THE_SAME : AS_OTHERS;
}
