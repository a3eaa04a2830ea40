/* Reads the events of a MIDI track strictly, prints them, says how many of the bytes are padding, writes the events
 * back, and says whether the bytes are the same.
 * usage: track FILE    the bytes of one track, behind MTrk and its length; at most 65,536
 * Exit status: 0 all read and the same bytes written; 1 anything else of the track; 2 the file is none, or too long. */
#include <inttypes.h>
#include <stdio.h>
#include <string.h>

#include "apkarewe.h"
#include "apkarewe_answers.h"

enum { MOST = 65536 };
static uint8_t bytes[MOST + 1]; /* one more, which tells a file that is too long */
static uint8_t out[MOST];       /* what is read strictly is written no longer */
static uint64_t rows[APK_LIST_CELLS];

/* What a kind is called, how many of its six fields it has, and whether it carries a payload. */
struct kind {
    uint64_t number;
    const char *name;
    int fields;
    int payload;
};

static const struct kind kinds[] = {
    {APK_NOTE_OFF, "NoteOff", 3, 0},
    {APK_NOTE_ON, "NoteOn", 3, 0},
    {APK_AFTERTOUCH, "Aftertouch", 3, 0},
    {APK_CONTROLLER, "Controller", 3, 0},
    {APK_PROGRAM_CHANGE, "ProgramChange", 2, 0},
    {APK_CHANNEL_AFTERTOUCH, "ChannelAftertouch", 2, 0},
    {APK_PITCH_BEND, "PitchBend", 2, 0},
    {APK_SYSEX, "SysEx", 0, 1},
    {APK_ESCAPE, "Escape", 0, 1},
    {APK_TRACK_NUMBER, "TrackNumber", 2, 0},
    {APK_TEXT, "Text", 0, 1},
    {APK_COPYRIGHT, "Copyright", 0, 1},
    {APK_TRACK_NAME, "TrackName", 0, 1},
    {APK_INSTRUMENT_NAME, "InstrumentName", 0, 1},
    {APK_LYRIC, "Lyric", 0, 1},
    {APK_MARKER, "Marker", 0, 1},
    {APK_CUE_POINT, "CuePoint", 0, 1},
    {APK_PROGRAM_NAME, "ProgramName", 0, 1},
    {APK_DEVICE_NAME, "DeviceName", 0, 1},
    {APK_MIDI_CHANNEL, "MidiChannel", 1, 0},
    {APK_MIDI_PORT, "MidiPort", 1, 0},
    {APK_END_OF_TRACK, "EndOfTrack", 0, 0},
    {APK_TEMPO, "Tempo", 1, 0},
    {APK_SMPTE_OFFSET, "SmpteOffset", 6, 0},
    {APK_TIME_SIGNATURE, "TimeSignature", 4, 0},
    {APK_KEY_SIGNATURE, "KeySignature", 2, 0},
    {APK_SEQUENCER_SPECIFIC, "SequencerSpecific", 0, 1},
    {APK_UNKNOWN, "Unknown", 1, 1},
};

/* The last kind stands for any other number, which the reader does not give. */
static const struct kind *kind_of(uint64_t number) {
    const struct kind *kind = kinds;
    while (kind->number != number && kind->number != APK_UNKNOWN) {
        kind++;
    }
    return kind;
}

static void print_event(size_t index, const uint64_t *row) {
    const struct kind *kind = kind_of(row[APK_KIND]);
    int16_t bend;
    printf("%zu %" PRIu64 " %s", index, row[APK_DELTA], kind->name);
    for (int field = 0; field < kind->fields; field++) {
        if (kind->number == APK_PITCH_BEND && APK_A + field == APK_B
            && apk_bend_as_int((uint16_t)row[APK_B], &bend) == APK_ACCEPTED) {
            printf(" %d", bend);
        } else if (kind->number == APK_KEY_SIGNATURE && APK_A + field == APK_A) {
            printf(" %d", (int8_t)row[APK_A]); /* a byte in two's complement */
        } else {
            printf(" %" PRIu64, row[APK_A + field]);
        }
    }
    if (kind->payload) {
        printf(" %" PRIu64 " bytes at %" PRIu64, row[APK_LENGTH], row[APK_START]);
    }
    printf("\n");
}

/* The bytes of a file: how many, or MOST + 1 where there are more; -1 where there is no such file. */
static long load(const char *name) {
    FILE *file = fopen(name, "rb");
    if (file == NULL) {
        return -1;
    }
    size_t length = fread(bytes, 1, sizeof bytes, file);
    int failed = ferror(file);
    fclose(file);
    return failed ? -1 : (long)length;
}

int main(int words, char **word) {
    long loaded = words == 2 ? load(word[1]) : -1;
    if (loaded < 0 || loaded > MOST) {
        fprintf(stderr, "usage: track FILE    a track's bytes, at most %d\n", MOST);
        return 2;
    }
    size_t length = (size_t)loaded;

    /* A list holds APK_LIST_ROWS events. A full one is printed and written, and reading goes on behind it. */
    size_t place = 0, events = 0, padding = 0, written = 0;
    uint8_t running = 0, out_running = 0, stopped;
    do {
        size_t count = 0, padded = 0;
        stopped = apk_list_read(bytes, length, place, running, APK_STRICT, rows, APK_LIST_CELLS,
                                &count, &place, &running, &padded);
        for (size_t i = 0; i < count; i++) {
            print_event(events + i, rows + i * APK_CELLS);
        }
        size_t more = 0, illegal = 0;
        uint8_t refused = apk_list_write(rows, APK_LIST_CELLS, count, bytes, length, out_running, APK_STRICT,
                                         out + written, sizeof out - written, &more, &out_running, &illegal);
        if (refused != APK_ACCEPTED) { /* never so: what was read is legal, and no longer in writing */
            printf("event %zu was not written: refusal %u\n", events + illegal, (unsigned)refused);
            return 1;
        }
        events += count;
        padding += padded;
        written += more;
    } while (stopped == APK_FULL);

    printf("%zu events, %zu of %zu bytes read, %zu of them padding\n", events, place, length, padding);
    if (stopped != APK_ACCEPTED) {
        printf("refused at byte %zu: %u, %s\n", place, (unsigned)stopped, apk_reading[stopped]);
    }
    int same = written == place && memcmp(out, bytes, written) == 0;
    printf("%zu bytes written, %s\n", written, same ? "the same" : "not the same");
    return stopped == APK_ACCEPTED && same ? 0 : 1;
}
