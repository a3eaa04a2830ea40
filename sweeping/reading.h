/* A track, and what becomes of it when one of its bytes is altered: the quick way. What is read is what the proved entries
 * read; what is known here besides is that an event is read off its own bytes and the running status before it alone. */
#ifndef READING_H
#define READING_H

#include <stddef.h>
#include <stdint.h>

enum { MOST_BYTES = 65536 };

/* Where and why reading a track stopped: its events were read, and there it ends (0), or the next one is refused. */
struct stop {
    uint32_t events;
    uint32_t at;
    uint8_t answer;
};

/* What an altered track is read as that is read to its end, by the events of the track as it is. */
enum read_as { AS_THE_SAME, AS_OTHERS, AS_FEWER, AS_MORE, READ_AS };

/* Takes the bytes of a track, and reads it as it is, from no running status. Answers 0 where there is no memory. */
int take_track(const uint8_t *bytes, size_t length, uint8_t rules);

/* What was read of the track as it is. */
struct stop read_unaltered(void);

/* The byte of the track as it is. */
uint8_t byte_at(size_t place);

/* What is read of the track when the byte at a place of it has another value, or its own. */
struct stop read_altered(size_t place, uint8_t value);

/* What the altered track is read as, where it was read to its end and the value is not the byte's own: `stop` is what
 * read_altered answered. */
enum read_as read_altered_as(size_t place, uint8_t value, struct stop stop);

#endif
