/* Apkarewe: reading and writing the events of MIDI tracks, which of their notes still sound, and banks of tracks, for C
 * and C++.
 *
 * To build. `tools/native apkarewe.o` proves the entries and writes them as one object file for x86-64, of level v2: some
 * instructions are of SSE4. Link it with your program, gcc -Iinclude program.c apkarewe.o. The proofs take size_t to be
 * 64 bits wide, and the machine to be little-endian. example/track.c is a program that reads a track, prints it and
 * writes it back.
 *
 * What it needs. No heap, no files, nothing of libc but memcpy, memmove and memset. Nothing is kept between calls, so
 * that calls from several threads do not meet. The stack, read off the machine code for x86-64 by tools/stack: 17.7 KB
 * for apk_sounding_after, 12.0 KB for apk_bank_list, 10.9 KB for apk_list_read, 4.4 KB for apk_sounding_counts, 3.3 KB
 * for apk_sounding_silence, 1.2 KB for apk_bank_track, 0.8 KB for apk_list_write, 0.7 KB for apk_list_same, 0.6 KB for
 * apk_event_same, half a KB at most for each of the rest, beside what memcpy and its kind take.
 *
 * What an entry answers. A uint8_t: 0 where it accepts, else the number of a refusal (enum apk_answer). An entry that
 * refuses nothing answers its value, or nothing where it only fills what it is lent. After a refusal every value and
 * every byte that was lent is as it came, unless the entry says otherwise.
 *
 * Pointers. A slice is a pointer and a length in elements. An array, as ranges[APK_BANK_CELLS] is, has all its
 * elements, also where the entry makes use of some alone. A pointer is never NULL, also not where the length is 0.
 * What an entry may write overlaps with nothing else that the same call is lent. `rules` is a set of bits,
 * those of enum apk_rules; the others mean nothing yet and are not looked at: pass them as 0. A place is an index into
 * the bytes lent; one past their end is like their end.
 *
 * The running status is the status byte that the next event may leave out: 0x80 to 0xEF, or 0 for none. A track begins
 * with none. Any other number is an invalid running status, which reading and writing refuse by 1.
 *
 * Padding. A number of a track may use more bytes than it needs, as 80 00 does for 0, which is read as any other. Its
 * padding is the bytes used less the fewest that hold the value, and 0 where no byte was there; an event's is the sum
 * over its delta and, where it has one, its payload's length; a list's is the sum over its events. What is written has
 * none: read strictly, its padding is 0.
 *
 * What is proved. Of each entry, for all numbers and bytes that it can be given: it ends, it reads and writes within
 * the slices only, its answer is the one that its definition gives, and so is what each lent value and each lent byte
 * holds at the end, after a refusal too. The definition is named with each entry: smf.Lists.list_at is list_at in
 * crates/smf/specs/Lists.antt. Those of smf are written from Standard MIDI Files 1.0 and from the project's rules
 * (docs/RULES.md), those of player and bank from the rules, and none from the code; those of loader, loader_track,
 * rows, same and write, and player.Entries and bank.Entries, say how C sees an event, a table or ranges, and are made
 * of them. Proved of the definitions: what is written is read back, strictly and leniently, whatever follows it; every
 * event that is read is legal; no bytes that are read strictly as an event are shorter than those that are written for
 * it. Proved of banks: what apk_bank_write writes, apk_bank_read reads back as those tracks, byte for byte; bytes that
 * apk_bank_read accepts are what apk_bank_write writes for the ranges that it gives, so that no other bytes read as the
 * same tracks; and apk_bank_write accepts exactly when the count, the ranges and the size allow it.
 * Not proved, but compared in runs: that midly 0.5.3 answers alike, and, of what it does not have, a model that is
 * written from the rules, see docs/DIFFERENCES.md.
 * Assumed: Rattle's prover and compiler, LLVM, and that the caller keeps to "Pointers" above. */
#ifndef APKAREWE_H
#define APKAREWE_H

#include <stddef.h>
#include <stdint.h>

#ifdef __cplusplus
extern "C" {
#endif

/* The rules of a call: a set of these bits, 0 for lenient. Writers are given them too; no rule touches those yet. */
enum apk_rules {
    APK_STRICT = 1 /* reading refuses what it else takes as it stands: 2, 3, 11, 12 */
};

/* What entries answer: the numbers of the table of refusals (docs/RULES.md, "Refusal numbers"), and two that are no
 * refusal's. */
enum apk_answer {
    APK_ACCEPTED = 0,
    APK_RUNNING_STATUS = 1,       /* the running status is invalid, neither none (0) nor 80..EF */
    APK_NUMBER_CUT_OFF = 2,       /* strict: a number is cut off by the end of the bytes */
    APK_NUMBER_CONTINUES = 3,     /* strict: the fourth byte of a number has bit 7 set, as if a fifth followed */
    APK_NO_STATUS = 4,            /* no byte stands where the status is due */
    APK_NO_RUNNING_STATUS = 5,    /* a data byte stands there, and the running status is none */
    APK_SYSTEM_COMMON = 6,        /* the status is F1..F6, which no track may have */
    APK_SYSTEM_REALTIME = 7,      /* the status is F8..FE, which no track may have */
    APK_CHANNEL_DATA_SHORT = 8,   /* a channel message has too few data bytes */
    APK_CHANNEL_DATA_TOP_BIT = 9, /* a data byte of a channel message has bit 7 set */
    APK_NO_META_TYPE = 10,        /* no type byte of a meta message is there */
    APK_PAYLOAD_CUT_OFF = 11,     /* strict: a payload is cut off by the end of the bytes */
    APK_CHANNEL_OR_PORT = 12,     /* strict: a channel is above 15, or a port above 127 */
    APK_SMPTE_TIME = 13,          /* an SMPTE time is outside its ranges, also where one is built, or its position or
                                     seconds asked */
    APK_KEY_SIGNATURE_SHORT = 14, /* a key signature has under two bytes */
    APK_NO_SUCH_FORMAT = 15,      /* a format is above 2 */
    APK_NO_SUCH_RATE = 16,        /* a number is no rate of SMPTE times */
    APK_HEADER_FIELD_SHORT = 17,  /* a header field has under two bytes */
    APK_ABOVE_WIDTH = 18,         /* written: a restricted field is above its width, or an SMPTE time outside its
                                     ranges; also a bend's value asked of a number above its width; of a table: a delta
                                     or restricted field of a list, or a channel or key asked for, above its width */
    APK_PAYLOAD_OUTSIDE = 19,     /* written: a payload's range is not inside the payload bytes; a start beyond their
                                     end counts even at length 0; of a bank: a track's range is not inside the bytes
                                     lent, a start counting so too */
    APK_NO_ROOM = 20,             /* written: there is no room; of a bank also: it would be above APK_BANK_BYTES;
                                     apk_list_read, apk_bank_list and apk_sounding_silence alone: the cells are too few
                                     for the rows */
    APK_TOO_MANY_EVENTS = 21,     /* written: the count is above what a list holds, APK_LIST_ROWS; also of a list that
                                     is put into a table */
    APK_PAYLOAD_TOO_LONG = 22,    /* written: a payload is above 268,435,455 bytes */
    APK_UNKNOWN_NAMED = 23,       /* written: an Unknown that would be read as a named kind, or refused as a short key
                                     signature */
    APK_BANK_SHORT = 24,          /* a bank is shorter than its header and entries */
    APK_TOO_MANY_TRACKS = 25,     /* a bank's count is above the tracks that a bank may have, APK_BANK_TRACKS; read
                                     wherever its four bytes are there, and written */
    APK_BANK_DISAGREES = 26,      /* any other disagreement in a bank, or one above its most bytes, APK_BANK_BYTES */
    APK_NO_SUCH_TRACK = 34,       /* a bank has no track of this index */
    APK_FULL = 255                /* apk_list_read and apk_bank_list alone: APK_LIST_ROWS events read, and bytes left.
                                     No refusal */
};

/* An event is a row of cells. */
enum apk_cell {
    APK_DELTA = 0,  /* ticks since the event before, 0 to 268,435,455 */
    APK_KIND = 1,   /* enum apk_kind */
    APK_A = 2,      /* six fields, by the kind; those that a kind does not have are 0, and not looked at in writing */
    APK_B = 3,
    APK_C = 4,
    APK_D = 5,
    APK_E = 6,
    APK_F = 7,
    APK_START = 8,  /* where the payload starts in the bytes, and how long it is; 0 and 0 for kinds that have none */
    APK_LENGTH = 9,
    APK_CELLS = 10  /* how many cells a row has */
};

/* A list is at most so many rows, one behind the other, from the first cell on. */
enum { APK_LIST_ROWS = 128, APK_LIST_CELLS = APK_LIST_ROWS * APK_CELLS };

/* A table of velocities is so many channels by so many keys, a byte each. */
enum { APK_CHANNELS = 16, APK_KEYS = 128, APK_TABLE_BYTES = APK_CHANNELS * APK_KEYS };

/* A bank has at most so many tracks and bytes. Its ranges are so many cells: for each track two, start and length. */
enum { APK_BANK_TRACKS = 16, APK_BANK_CELLS = 2 * APK_BANK_TRACKS, APK_BANK_BYTES = 65536 };

/* The kinds: a channel message by the upper half of its status, a meta message by 0x100 and its type. */
enum apk_kind {
    APK_NOTE_OFF = 8,               /* A channel 0..15, B key 0..127, C velocity 0..127 */
    APK_NOTE_ON = 9,                /* the same; velocity 0 stays a note-on */
    APK_AFTERTOUCH = 10,            /* the same */
    APK_CONTROLLER = 11,            /* A channel, B controller 0..127, C value 0..127 */
    APK_PROGRAM_CHANGE = 12,        /* A channel, B program 0..127 */
    APK_CHANNEL_AFTERTOUCH = 13,    /* A channel, B velocity 0..127 */
    APK_PITCH_BEND = 14,            /* A channel, B raw bend 0..16,383; apk_bend_as_int makes it signed */
    APK_SYSEX = 0xF0,               /* payload */
    APK_ESCAPE = 0xF7,              /* payload */
    APK_TRACK_NUMBER = 0x100,       /* A 1 where there is a number, else 0; B the number 0..65,535 */
    APK_TEXT = 0x101,               /* payload; so the others up to APK_DEVICE_NAME */
    APK_COPYRIGHT = 0x102,
    APK_TRACK_NAME = 0x103,
    APK_INSTRUMENT_NAME = 0x104,
    APK_LYRIC = 0x105,
    APK_MARKER = 0x106,
    APK_CUE_POINT = 0x107,
    APK_PROGRAM_NAME = 0x108,
    APK_DEVICE_NAME = 0x109,
    APK_MIDI_CHANNEL = 0x120,       /* A channel 0..15 */
    APK_MIDI_PORT = 0x121,          /* A port 0..127 */
    APK_END_OF_TRACK = 0x12F,       /* no field; it does not stop a list */
    APK_TEMPO = 0x151,              /* A microseconds in a beat, 0..16,777,215 */
    APK_SMPTE_OFFSET = 0x154,       /* A hour, B minute, C second, D frame, E subframe, F rate */
    APK_TIME_SIGNATURE = 0x158,     /* A numerator, B denominator as a power of two, C clocks in a click, D 32nd notes
                                       in a beat */
    APK_KEY_SIGNATURE = 0x159,      /* A sharps, as a byte in two's complement (0xFE: two flats); B 1 minor, 0 major */
    APK_SEQUENCER_SPECIFIC = 0x17F, /* payload */
    APK_UNKNOWN = 0x200             /* A the type byte; payload */
};

/* Lists ---------------------------------------------------------------------------------------------------------- */

/* Reads the list of events at a place, from a running status: at most APK_LIST_ROWS.
 *   rows, cells  where the rows go, from rows[0] on; APK_LIST_CELLS cells are always enough. Cells behind the rows stay
 *   count        how many events were read
 *   place        the place of the next unread byte; after a refusal, of the refused event
 *   after        the running status there
 *   padding      the sum over the events that were read; a refused one adds nothing
 * Answers why it stopped: 0 at the end of the bytes; APK_FULL, and the list goes on at *place from *after; 1 to 14
 * where an event was refused, and the events before it stand: rows, count, place, after and padding are set as ever. 20
 * where the cells are too few for the events read, and only then everything is as it came.
 * Payloads are start and length in these bytes, which are not copied. An empty slice is an empty list.
 * Definition: smf.Lists.list_at, laid out by rows.Sheet.sheet_of. */
uint8_t apk_list_read(const uint8_t *bytes, size_t bytes_len, size_t at, uint8_t running, uint8_t rules,
                      uint64_t *rows, size_t cells, size_t *count, size_t *place, uint8_t *after, size_t *padding);

/* How many bytes so many rows have when written from a running status.
 *   rows, cells           the rows; those past the count are not looked at
 *   payload, payload_len  the bytes that the rows' starts and lengths speak of: those that the list was read from
 *   length                how many bytes; as it came after a refusal
 *   after                 the running status after them; after a refusal, as given
 *   index                 after a refusal the index of the first illegal event, 0 for 1, 20 and 21; else as it came
 * Refuses 1, then 21, then the first illegal event by 18, 19, 22 or 23. A row that is no event's is refused by 18: no
 * such kind; a field that is no byte (of a bend or a track number above 65,535, of a tempo or the delta above
 * 4,294,967,295); a rate that is none; or not all of its cells there.
 * Definition: loader_track.Lists.sheet_size, that is smf.Lists.size_list of the rows' events. */
uint8_t apk_list_length(const uint64_t *rows, size_t cells, size_t count, const uint8_t *payload, size_t payload_len,
                        uint8_t running, uint8_t rules, size_t *length, uint8_t *after, size_t *index);

/* Writes so many rows from out[0] on, in the shortest form, as apk_list_length measures them.
 *   out, out_len  where the bytes go; nothing behind them is changed, and after a refusal nothing at all
 * The rest, and the refusals, as there; last of all 20 where out is too short. An empty list fits in no bytes.
 * Definition: loader_track.Lists.sheet_written, that is smf.Lists.write_list of the rows' events. */
uint8_t apk_list_write(const uint64_t *rows, size_t cells, size_t count, const uint8_t *payload, size_t payload_len,
                       uint8_t running, uint8_t rules, uint8_t *out, size_t out_len, size_t *length, uint8_t *after,
                       size_t *index);

/* Whether two lists are the same, each over the bytes that its payloads stand in: counts, deltas, kinds, fields and
 * payload bytes agree; where payloads start does not count. *same is 1 where they are, 0 where they are not.
 * Refuses 21 where a count is above APK_LIST_ROWS, then 18 where a row of either is no event's, or its cells are not
 * all there; then *same is as it came. Definition: smf.Lists.SameList, asked by same.OfRows.lists_asked. */
uint8_t apk_list_same(const uint64_t *rows_a, size_t cells_a, size_t count_a,
                      const uint8_t *bytes_a, size_t bytes_a_len,
                      const uint64_t *rows_b, size_t cells_b, size_t count_b,
                      const uint8_t *bytes_b, size_t bytes_b_len, uint8_t *same);

/* Single events -------------------------------------------------------------------------------------------------- */

/* Reads the event at a place, from a running status: its row, how many bytes it uses, the running status after it, its
 * padding. Refuses 1 to 14; then the row is as it came, *used and *padding are 0, whatever was read of the event, and
 * *after is the running status that it leaves: as given for 1, 4 to 7, and for 2 and 3 in a delta; its own status for 8
 * and 9; none for the others.
 * Definition: smf.Event.event_at, laid out by rows.Rows.event_row. */
uint8_t apk_event_read(const uint8_t *bytes, size_t bytes_len, size_t at, uint8_t running, uint8_t rules,
                       uint64_t row[APK_CELLS], size_t *used, uint8_t *after, size_t *padding);

/* How many bytes a row's event has when written from a running status, and the running status after it.
 * Refuses 1, 18, 19, 22, 23; then both are as they came. Definition: write.Size.size_event of the row's event. */
uint8_t apk_event_length(const uint64_t row[APK_CELLS], const uint8_t *payload, size_t payload_len, uint8_t running,
                         uint8_t rules, size_t *length, uint8_t *after);

/* Writes a row's event at a place of out, in the shortest form: *next is the place after it, *after the running status.
 * Refuses 1, 18, 19, 22, 23, 20; then every byte and *next are as they came, and *after is the running status as given.
 * Definition: smf.Event.write_event of the row's event. */
uint8_t apk_event_write(const uint64_t row[APK_CELLS], const uint8_t *payload, size_t payload_len, uint8_t running,
                        uint8_t rules, uint8_t *out, size_t out_len, size_t at, size_t *next, uint8_t *after);

/* Whether two events are the same, by the rule of apk_list_same: *same is 1 where they are, 0 where they are not.
 * Refuses 18 where a row is no event's; then *same is as it came.
 * Definition: smf.Event.Same, asked by same.OfRows.rows_asked. */
uint8_t apk_event_same(const uint64_t row_a[APK_CELLS], const uint8_t *bytes_a, size_t bytes_a_len,
                       const uint64_t row_b[APK_CELLS], const uint8_t *bytes_b, size_t bytes_b_len, uint8_t *same);

/* Notes still sounding ------------------------------------------------------------------------------------------- */
/* What a device holds on: a table has the velocity of each key of each channel, that of channel c and key k in the byte
 * APK_KEYS * c + k. A key sounds where its byte is not 0, and a byte above 127 is not 0 either: every table gets an
 * answer. A fresh table is all 0, as memset makes it. The caller keeps it, and lends it with each list of a track in
 * turn: two lists one after the other leave what their events leave together. */

/* Puts so many rows into a table: each byte becomes the velocity of the last note message for its channel and key, 0
 * where that is an APK_NOTE_OFF, and stays where there is none. An APK_NOTE_ON of velocity 0 leaves 0, which is its
 * velocity. Aftertouch, and every other kind, changes nothing.
 *   rows, cells  the rows; those past the count are not looked at
 *   table        the table, changed in place; as it came after a refusal
 * Refuses 21, then 18 where any of the rows has a delta or a restricted field above its width (a channel, key,
 * velocity, controller, value, program, bend, port or tempo), or is no event's, as for apk_list_length. An SMPTE time
 * outside its ranges and a payload's start and length are not looked at.
 * Definition: player.Notes.table_after of the rows' events, which are accepted by player.Entries.rows_accepted. */
uint8_t apk_sounding_after(const uint64_t *rows, size_t cells, size_t count, uint8_t table[APK_TABLE_BYTES]);

/* How many keys of each channel sound, 0 to APK_KEYS. Refuses nothing, and answers nothing.
 * Definition: player.Sounding.counts. */
void apk_sounding_counts(const uint8_t table[APK_TABLE_BYTES], uint8_t sounding[APK_CHANNELS]);

/* The list that silences a table: an APK_NOTE_OFF with delta 0 and velocity 0 for each sounding key, by channel, then
 * key, from a channel and key on, that key included; the first APK_LIST_ROWS of them. The table stays as it is.
 *   rows, cells  where the rows go, from rows[0] on; APK_LIST_CELLS cells are always enough. Cells behind the rows stay
 *   count        how many rows. Where there are APK_LIST_ROWS, more keys may sound: ask again from the key behind the last
 *                one named, which is key 0 of the next channel behind key 127. Behind channel 15, key 127 nothing is left
 *                to ask for
 * Refuses 18 where the channel is above 15 or the key above 127, then 20 where the cells are too few for the rows; then
 * there is no row: count is 0, and every cell is as it came.
 * Definition: player.Sounding.silence, laid out by rows.Sheet.sheet_of. */
uint8_t apk_sounding_silence(const uint8_t table[APK_TABLE_BYTES], uint8_t channel, uint8_t key,
                             uint64_t *rows, size_t cells, size_t *count);

/* Banks of tracks ------------------------------------------------------------------------------------------------ */
/* A bank is several tracks in one block of bytes. It begins with numbers of 32 bits, the highest byte first: the count
 * of the tracks, the total, which is how many bytes the block has, then an offset and a length for each track. The
 * tracks follow in that order with no gap: the first starts at 8 + 8 * count, each next where the one before it ends,
 * and the last ends where the block does. A track may be empty, and a bank of no tracks is 8 bytes.
 * A block that is no bank is refused by 25 where the count is above APK_BANK_TRACKS, wherever its four bytes are there;
 * then by 24 where the block is shorter than the two numbers and the entries of all tracks; then by 26 for any other
 * disagreement, and above APK_BANK_BYTES bytes. No sum of an offset and a length wraps. */

/* Reads a bank: where each of its tracks stands in the block.
 *   ranges  two cells for each track, its start and its length; the cells past the count are 0
 *   count   how many tracks there are
 * Refuses 25, 24, 26; then everything is as it came. What the tracks hold is not looked at.
 * Definition: bank.Read.read_bank, laid out by bank.Entries.cells_of. */
uint8_t apk_bank_read(const uint8_t *block, size_t block_len, uint64_t ranges[APK_BANK_CELLS], size_t *count);

/* Where the track of an index, counted from 0, stands in the block. Refuses 25, 24, 26, then 34; then both values are
 * as they came. Definition: bank.Read.track_at. */
uint8_t apk_bank_track(const uint8_t *block, size_t block_len, size_t index, size_t *start, size_t *length);

/* Lists the track of an index: what apk_list_read does with the track's bytes by themselves, from place 0 and no
 * running status. Places, and the starts of payloads, count from the track's first byte. A list that is full goes on by
 * apk_list_read, of the `length` bytes at `block + start`, both of which apk_bank_track gives, at *place from *after.
 *   rows, cells, count, place, after, padding  as for apk_list_read
 * Refuses 25, 24, 26, then 34; then everything is as it came. Else it answers what apk_list_read answers, and leaves
 * what that leaves. Definition: bank.Read.track_listed, laid out by bank.Entries.list_cells. */
uint8_t apk_bank_list(const uint8_t *block, size_t block_len, size_t index, uint8_t rules,
                      uint64_t *rows, size_t cells, size_t *count, size_t *place, uint8_t *after, size_t *padding);

/* Writes the bank of so many ranges of the bytes, in their order, from out[0] on.
 *   bytes, bytes_len  the bytes that the ranges speak of
 *   ranges            two cells for each track, its start and its length. All APK_BANK_CELLS cells must be there; what
 *                     those past the count hold does not matter. Ranges may be empty, overlap and repeat
 *   out, out_len      where the bank goes; nothing behind it is changed, and after a refusal nothing at all
 *   total             how many bytes the bank has; as it came after a refusal
 * Refuses 25 where the count is above APK_BANK_TRACKS; then 19 where a range is not inside the bytes, and a start
 * beyond their end counts even at length 0; then 20 where the bank would be above APK_BANK_BYTES bytes, or out is too
 * short.
 * Definition: bank.Write.write_bank, of the ranges that bank.Entries.ranges_in makes of the cells. */
uint8_t apk_bank_write(const uint8_t *bytes, size_t bytes_len, const uint64_t ranges[APK_BANK_CELLS], size_t count,
                       uint8_t *out, size_t out_len, size_t *total);

/* Numbers and payloads ------------------------------------------------------------------------------------------- */

/* Reads the variable-length number at a place: its value, the place after it, and its padding. Refuses 2, 3.
 * Definition: smf.Place.number_at. */
uint8_t apk_number_read(const uint8_t *bytes, size_t bytes_len, size_t at, uint8_t rules,
                        uint32_t *value, size_t *next, size_t *padding);

/* How many bytes the shortest form of a number has, 1 to 4; 4 above 268,435,455. Refuses nothing.
 * Definition: the length of smf.Number.encode_number. */
size_t apk_number_length(uint32_t value);

/* Writes a number at a place of out, in the shortest form: *next is the place after it. Refuses 18, 20.
 * Definition: smf.Write.write of smf.Write.number_bytes. */
uint8_t apk_number_write(uint32_t value, uint8_t *out, size_t out_len, size_t at, size_t *next);

/* Reads the payload at a place, a number and so many bytes: where these start, how many there are, and the padding of
 * the number, also where lenient reading takes fewer bytes than it says. The place after them is the sum of start and
 * length. Refuses 2, 3, 11. Definition: smf.Place.payload_at. */
uint8_t apk_payload_read(const uint8_t *bytes, size_t bytes_len, size_t at, uint8_t rules,
                         size_t *start, size_t *length, size_t *padding);

/* Writes a range of the payload bytes, with its number in front, at a place of out: *next is the place after it.
 * Refuses 19, 22, 20. Definition: smf.Write.write of smf.Write.payload_bytes. */
uint8_t apk_payload_write(const uint8_t *payload, size_t payload_len, size_t start, size_t length,
                          uint8_t *out, size_t out_len, size_t at, size_t *next);

/* Header fields -------------------------------------------------------------------------------------------------- */

/* The format that the bytes begin with, 0 to 2; what follows its two bytes is not looked at. Refuses 17, 15.
 * Definition: smf.Header.read_format. */
uint8_t apk_format_read(const uint8_t *bytes, size_t bytes_len, uint8_t *format);

/* The two bytes of a format. Refuses 15. Definition: loader.Fields.encode_format. */
uint8_t apk_format_encode(uint8_t format, uint8_t bytes[2]);

/* The timing that the bytes begin with. *rate 0: *ticks in a beat, *subframe 0. Any other rate: *subframe ticks in a
 * frame, *ticks 0. Refuses 17, 16. Definition: smf.Header.read_timing. */
uint8_t apk_timing_read(const uint8_t *bytes, size_t bytes_len, uint16_t *ticks, uint8_t *rate, uint8_t *subframe);

/* The two bytes of a timing, given as it is read. Refuses 16, and 18 for ticks above 32,767.
 * Definition: smf.Header.encode_timing of loader.Fields.timing_given. */
uint8_t apk_timing_encode(uint16_t ticks, uint8_t rate, uint8_t subframe, uint8_t bytes[2]);

/* Rates and SMPTE times ------------------------------------------------------------------------------------------ */
/* A rate is its number: 24, 25, 29 (30 drop frame), 30. A time is hour below 24, minute and second below 60, frame
 * below the rate's number, subframe below 100, and the rate. Each entry that takes a time refuses 16 first. */

/* The rate of a code's low two bits. Refuses nothing. Definition: smf.Smpte.rate_of_code. */
uint8_t apk_fps_from_code(uint8_t code);

/* The two-bit code of a rate. Refuses 16. Definition: smf.Smpte.code_of_rate. */
uint8_t apk_fps_as_code(uint8_t rate, uint8_t *code);

/* The rate of a whole number of frames in a second. Refuses 16. Definition: smf.Smpte.to_rate. */
uint8_t apk_fps_from_int(uint8_t raw, uint8_t *rate);

/* The frames in a second at a rate, 30 / 1.001 for 29. Refuses 16. Definition: smf.Seconds.rate_float. */
uint8_t apk_fps_as_f32(uint8_t rate, float *frames);

/* Whether six numbers are a time: 0 if so. Refuses 16, 13. Definition: smf.Smpte.to_time. */
uint8_t apk_smpte_new(uint8_t hour, uint8_t minute, uint8_t second, uint8_t frame, uint8_t subframe, uint8_t rate,
                      uint8_t rules);

/* The time of a message's five bytes, the first of which holds hour and rate code: the six numbers. Refuses 13.
 * Definition: smf.Smpte.time_of. */
uint8_t apk_smpte_read(uint8_t first, uint8_t minute, uint8_t second, uint8_t frame, uint8_t subframe,
                       uint8_t rules, uint8_t time[6]);

/* The five bytes of a time. Refuses 16, 18. Definition: smf.Smpte.encode_time. */
uint8_t apk_smpte_encode(uint8_t hour, uint8_t minute, uint8_t second, uint8_t frame, uint8_t subframe, uint8_t rate,
                         uint8_t rules, uint8_t bytes[5]);

/* A time's seconds, with frames and subframes as their fraction, without hours and minutes. Refuses 16, 13.
 * Definition: smf.Seconds.seconds_of, operation for operation. */
uint8_t apk_smpte_second_f32(uint8_t hour, uint8_t minute, uint8_t second, uint8_t frame, uint8_t subframe,
                             uint8_t rate, uint8_t rules, float *seconds);

/* A time's place in the day, in subframes. Refuses 16, 13. Definition: smf.Smpte.position. */
uint8_t apk_smpte_position(uint8_t hour, uint8_t minute, uint8_t second, uint8_t frame, uint8_t subframe, uint8_t rate,
                           uint8_t rules, uint32_t *subframes);

/* Bends ---------------------------------------------------------------------------------------------------------- */
/* A raw bend is 0 to 16,383, no bend at 8,192; signed, it is -8,192 to 8,191; as a float, that by 8,192, exactly. */

/* The raw bends of full bend downwards, of no bend, and of full bend upwards. They refuse nothing.
 * Definition: smf.Bend.raw_bend. */
uint16_t apk_bend_min_raw_value(void);
uint16_t apk_bend_mid_raw_value(void);
uint16_t apk_bend_max_raw_value(void);

/* The raw bend of a signed one; beyond the range the nearest end. Refuses nothing. Definition: smf.Bend.raw_bend. */
uint16_t apk_bend_from_int(int16_t bend);

/* The raw bend of a float: clamped to -1..1, times 8,192, the fraction dropped. NaN gives the lowest, 1.0 the highest.
 * They refuse nothing. Definition: smf.Bend.raw_bend_of_float. */
uint16_t apk_bend_from_f32(float bend);
uint16_t apk_bend_from_f64(double bend);

/* A raw bend as a signed one, and as a float. Refuse 18. Definitions: smf.Bend.ask_bend, smf.Bend.ask_float. */
uint8_t apk_bend_as_int(uint16_t raw, int16_t *bend);
uint8_t apk_bend_as_f32(uint16_t raw, float *bend);
uint8_t apk_bend_as_f64(uint16_t raw, double *bend);

#ifdef __cplusplus
}
#endif

#endif
