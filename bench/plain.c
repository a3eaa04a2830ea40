/* The readers and writers of events and lists once more, in plain C with no proof, as one would write them to be fast: what
 * the machine can do with the same bytes and the same rows. bench/run measures them beside the port, and asserts that they
 * give the same rows, the same padding and the same bytes.
 *
 * Reading is lenient. What a refused call leaves is not looked after: no measurement comes there. */
#include <string.h>

#include "apkarewe.h"

static inline size_t number_length(uint64_t value) {
    return 1 + (value >= 1 << 7) + (value >= 1 << 14) + (value >= 1 << 21);
}

/* Reading -------------------------------------------------------------------------------------------------------- */

/* The place behind the number at a place that is there; its padding is added. A byte by itself has none. */
static inline size_t number_at(const uint8_t *bytes, size_t length, size_t at, uint32_t *value, size_t *padding) {
    size_t start = at;
    uint32_t byte = bytes[at++];
    uint32_t bits = byte & 0x7F;
    for (int more = 3; byte >= 0x80 && more > 0 && at < length; more--) {
        byte = bytes[at++];
        bits = bits << 7 | (byte & 0x7F);
    }
    if (at - start > 1) {
        *padding += at - start - number_length(bits);
    }
    *value = bits;
    return at;
}

static inline void fill(uint64_t *row, uint64_t kind, uint64_t a, uint64_t b, uint64_t start, uint64_t length) {
    row[APK_KIND] = kind;
    row[APK_A] = a;
    row[APK_B] = b;
    row[APK_C] = row[APK_D] = row[APK_E] = row[APK_F] = 0;
    row[APK_START] = start;
    row[APK_LENGTH] = length;
}

static uint8_t read_time(const uint8_t *p, uint64_t *row) {
    static const uint8_t rates[] = {24, 25, 29, 30};
    uint8_t hour = p[0] & 0x1F, rate = rates[p[0] >> 5 & 3];
    fill(row, APK_SMPTE_OFFSET, hour, p[1], 0, 0);
    row[APK_C] = p[2];
    row[APK_D] = p[3];
    row[APK_E] = p[4];
    row[APK_F] = rate;
    return hour < 24 && p[1] < 60 && p[2] < 60 && p[3] < rate && p[4] < 100 ? 0 : APK_SMPTE_TIME;
}

/* A meta message by its type and its payload, n bytes from p on. */
static uint8_t read_meta(uint8_t type, const uint8_t *p, size_t start, size_t n, uint64_t *row) {
    switch (type) {
    case 0x00: fill(row, APK_TRACK_NUMBER, n >= 2, n >= 2 ? p[0] << 8 | p[1] : 0, 0, 0); return 0;
    case 0x20: if (n < 1) break; fill(row, APK_MIDI_CHANNEL, p[0] & 15, 0, 0, 0); return 0;
    case 0x21: if (n < 1) break; fill(row, APK_MIDI_PORT, p[0] & 127, 0, 0, 0); return 0;
    case 0x2F: fill(row, APK_END_OF_TRACK, 0, 0, 0, 0); return 0;
    case 0x51: if (n < 3) break; fill(row, APK_TEMPO, (uint64_t)p[0] << 16 | p[1] << 8 | p[2], 0, 0, 0); return 0;
    case 0x54: if (n < 5) break; return read_time(p, row);
    case 0x58: if (n < 4) break; fill(row, APK_TIME_SIGNATURE, p[0], p[1], 0, 0); row[APK_C] = p[2]; row[APK_D] = p[3]; return 0;
    case 0x59: if (n < 2) return APK_KEY_SIGNATURE_SHORT; fill(row, APK_KEY_SIGNATURE, p[0], p[1] != 0, 0, 0); return 0;
    case 0x7F: fill(row, APK_SEQUENCER_SPECIFIC, 0, 0, start, n); return 0;
    default: if (type > 0x09) break; fill(row, 0x100 + type, 0, 0, start, n); return 0;
    }
    fill(row, APK_UNKNOWN, type, 0, start, n);
    return 0;
}

/* What stands behind the delta of an event that is no channel message. */
static uint8_t read_other(const uint8_t *bytes, size_t length, size_t at, uint8_t status, uint64_t *row, size_t *next,
                          size_t *padding) {
    uint32_t n = 0;
    uint8_t type = 0;
    if (status != 0xF0 && status != 0xF7 && status != 0xFF) {
        return status < 0xF7 ? APK_SYSTEM_COMMON : APK_SYSTEM_REALTIME;
    }
    if (status == 0xFF) {
        if (at == length) {
            return APK_NO_META_TYPE;
        }
        type = bytes[at++];
    }
    at = at < length ? number_at(bytes, length, at, &n, padding) : at;
    n = n <= length - at ? n : (uint32_t)(length - at);
    *next = at + n;
    if (status == 0xFF) {
        return read_meta(type, bytes + at, at, n, row);
    }
    fill(row, status, 0, 0, at, n);
    return 0;
}

/* The event at a place that is there; its padding is added. */
static inline uint8_t read_event(const uint8_t *bytes, size_t length, size_t at, uint8_t *running, uint64_t *row,
                                 size_t *next, size_t *padding) {
    uint32_t delta;
    at = number_at(bytes, length, at, &delta, padding);
    row[APK_DELTA] = delta;
    if (at == length) {
        return APK_NO_STATUS;
    }
    uint8_t status = bytes[at] < 0x80 ? *running : bytes[at];
    at += bytes[at] >= 0x80;
    if (status >= 0xF0) {
        *running = 0;
        return read_other(bytes, length, at, status, row, next, padding);
    }
    size_t pair = status >> 5 != 6;
    if (status == 0 || length - at < 1 + pair) {
        return status == 0 ? APK_NO_RUNNING_STATUS : APK_CHANNEL_DATA_SHORT;
    }
    uint32_t a = bytes[at], b = pair ? bytes[at + 1] : 0, bend = status >> 4 == APK_PITCH_BEND;
    if ((a | b) >= 0x80) {
        return APK_CHANNEL_DATA_TOP_BIT;
    }
    fill(row, status >> 4, status & 15, bend ? a | b << 7 : a, 0, 0);
    row[APK_C] = bend ? 0 : b;
    *running = status;
    *next = at + 1 + pair;
    return 0;
}

uint8_t plain_event_read(const uint8_t *bytes, size_t length, size_t at, uint8_t running, uint8_t rules, uint64_t *row,
                         size_t *used, uint8_t *after, size_t *padding) {
    size_t next = at;
    *padding = 0;
    uint8_t answer = at < length ? read_event(bytes, length, at, &running, row, &next, padding) : APK_NO_STATUS;
    (void)rules;
    *used = next - at;
    *after = running;
    return answer;
}

uint8_t plain_list_read(const uint8_t *bytes, size_t length, size_t at, uint8_t running, uint8_t rules, uint64_t *rows,
                        size_t cells, size_t *count, size_t *place, uint8_t *after, size_t *padding) {
    size_t n = 0, sum = 0;
    uint8_t answer = 0;
    (void)rules, (void)cells;
    while (at < length && answer == 0) {
        size_t padded = 0;
        if (n == APK_LIST_ROWS) {
            answer = APK_FULL;
        } else if ((answer = read_event(bytes, length, at, &running, rows + n * APK_CELLS, &at, &padded)) == 0) {
            n++;
            sum += padded;
        }
    }
    *count = n;
    *place = at;
    *after = running;
    *padding = sum;
    return answer;
}

/* Writing -------------------------------------------------------------------------------------------------------- */

static inline uint8_t *put_number(uint8_t *out, uint32_t value) {
    switch (number_length(value)) {
    case 4: *out++ = (uint8_t)(0x80 | value >> 21); /* fall through */
    case 3: *out++ = (uint8_t)(0x80 | value >> 14); /* fall through */
    case 2: *out++ = (uint8_t)(0x80 | value >> 7);  /* fall through */
    default: *out++ = value & 0x7F;
    }
    return out;
}

/* The data bytes of a channel message: a bend is one number in a row. */
static inline size_t data_of(const uint64_t *row, uint64_t *a, uint64_t *b) {
    uint64_t kind = row[APK_KIND];
    size_t pair = kind >> 1 != 6;
    *a = kind == APK_PITCH_BEND ? row[APK_B] & 0x7F : row[APK_B];
    *b = kind == APK_PITCH_BEND ? row[APK_B] >> 7 : pair ? row[APK_C] : 0;
    return 1 + pair;
}

/* The payload of a meta message that has its own bytes, and how many; or -1 where a number of it is above its width. */
static int own_payload(const uint64_t *row, uint8_t *own) {
    uint64_t a = row[APK_A], b = row[APK_B], c = row[APK_C], d = row[APK_D], e = row[APK_E], rate = row[APK_F];
    uint64_t code = rate == 24 ? 0 : rate == 25 ? 1 : rate == 29 ? 2 : 3;
    memcpy(own, (uint8_t[5]){(uint8_t)a, (uint8_t)b, (uint8_t)c, (uint8_t)d, (uint8_t)e}, 5);
    switch (row[APK_KIND]) {
    case APK_TRACK_NUMBER: own[0] = (uint8_t)(b >> 8); own[1] = (uint8_t)b; return a == 0 ? 0 : b > 0xFFFF ? -1 : 2;
    case APK_MIDI_CHANNEL: return a > 15 ? -1 : 1;
    case APK_MIDI_PORT: return a > 127 ? -1 : 1;
    case APK_END_OF_TRACK: return 0;
    case APK_TEMPO: own[0] = (uint8_t)(a >> 16); own[1] = (uint8_t)(a >> 8); own[2] = (uint8_t)a; return a >> 24 ? -1 : 3;
    case APK_SMPTE_OFFSET: own[0] |= (uint8_t)(code << 5); return a < 24 && b < 60 && c < 60 && d < rate && e < 100 ? 5 : -1;
    case APK_TIME_SIGNATURE: return (a | b | c | d) > 0xFF ? -1 : 4;
    default: own[1] = b != 0; return a > 0xFF ? -1 : 2;
    }
}

/* Whether a kind carries a payload of the bytes lent. */
static inline int lends(uint64_t kind) {
    return kind < APK_TRACK_NUMBER || (kind > APK_TRACK_NUMBER && kind <= APK_DEVICE_NAME) || kind >= APK_SEQUENCER_SPECIFIC;
}

/* How long an event is that is no channel message, or the number of what forbids it. */
static uint8_t judge_other(const uint64_t *row, size_t payload_length, size_t *length) {
    uint64_t kind = row[APK_KIND], n = row[APK_LENGTH];
    uint8_t own[5];
    if (lends(kind)) {
        if (n > payload_length || payload_length - n < row[APK_START]) {
            return APK_PAYLOAD_OUTSIDE;
        }
        *length = (kind < APK_TRACK_NUMBER ? 1 : 2) + number_length(n) + n;
        return n >> 28 ? APK_PAYLOAD_TOO_LONG : 0;
    }
    int bytes = own_payload(row, own);
    *length = 3 + (size_t)bytes;
    return bytes < 0 ? APK_ABOVE_WIDTH : 0;
}

/* How long an event is from a running status, or the number of what forbids it. */
static inline uint8_t judge(const uint64_t *row, size_t payload_length, uint8_t *running, size_t *length) {
    uint64_t kind = row[APK_KIND], a, b;
    if (row[APK_DELTA] >> 28) {
        return APK_ABOVE_WIDTH;
    }
    if (kind - APK_NOTE_OFF <= APK_PITCH_BEND - APK_NOTE_OFF) {
        size_t data = data_of(row, &a, &b);
        if (row[APK_A] > 15 || (a | b) > 0x7F) {
            return APK_ABOVE_WIDTH;
        }
        uint8_t status = (uint8_t)(kind << 4 | row[APK_A]);
        *length = number_length(row[APK_DELTA]) + (status != *running) + data;
        *running = status;
        return 0;
    }
    uint8_t answer = judge_other(row, payload_length, length);
    *length += number_length(row[APK_DELTA]);
    *running = 0;
    return answer;
}

static uint8_t *put_other(uint8_t *out, const uint64_t *row, const uint8_t *payload) {
    uint64_t kind = row[APK_KIND];
    uint8_t own[5];
    const uint8_t *from = own;
    size_t n = row[APK_LENGTH];
    if (kind < APK_TRACK_NUMBER) {
        *out++ = (uint8_t)kind;
    } else {
        *out++ = 0xFF;
        *out++ = (uint8_t)(kind == APK_UNKNOWN ? row[APK_A] : kind & 0xFF);
    }
    if (lends(kind)) {
        from = payload + row[APK_START];
    } else {
        n = (size_t)own_payload(row, own);
    }
    out = put_number(out, (uint32_t)n);
    memcpy(out, from, n);
    return out + n;
}

/* Puts an event that was judged. A second data byte is put also where there is none: what follows stands over it. */
static inline uint8_t *put(uint8_t *out, const uint64_t *row, const uint8_t *payload, uint8_t *running, const uint8_t *end) {
    uint64_t kind = row[APK_KIND], a, b;
    out = put_number(out, (uint32_t)row[APK_DELTA]);
    if (kind > APK_PITCH_BEND) {
        *running = 0;
        return put_other(out, row, payload);
    }
    size_t data = data_of(row, &a, &b);
    uint8_t status = (uint8_t)(kind << 4 | row[APK_A]);
    *out = status;
    out += status != *running;
    *running = status;
    *out++ = (uint8_t)a;
    if (out < end) {
        *out = (uint8_t)b;
    }
    return out + (data - 1);
}

uint8_t plain_event_write(const uint64_t *row, const uint8_t *payload, size_t payload_length, uint8_t running, uint8_t rules,
                          uint8_t *out, size_t out_length, size_t at, size_t *next, uint8_t *after) {
    size_t length;
    uint8_t before = running;
    uint8_t answer = judge(row, payload_length, &running, &length);
    (void)rules;
    if (answer != 0 || at > out_length || out_length - at < length) {
        return answer != 0 ? answer : APK_NO_ROOM;
    }
    put(out + at, row, payload, &before, out + at + length);
    *next = at + length;
    *after = running;
    return 0;
}

uint8_t plain_list_write(const uint64_t *rows, size_t cells, size_t count, const uint8_t *payload, size_t payload_length,
                         uint8_t running, uint8_t rules, uint8_t *out, size_t out_length, size_t *length, uint8_t *after,
                         size_t *index) {
    size_t all = 0, one = 0;
    uint8_t status = running;
    (void)rules, (void)cells;
    for (size_t i = 0; i < count; i++, all += one) {
        uint8_t answer = judge(rows + i * APK_CELLS, payload_length, &status, &one);
        if (answer != 0) {
            *index = i;
            return answer;
        }
    }
    if (out_length < all) {
        return APK_NO_ROOM;
    }
    uint8_t *at = out;
    for (size_t i = 0; i < count; i++) {
        at = put(at, rows + i * APK_CELLS, payload, &running, out + all);
    }
    *length = all;
    *after = status;
    return 0;
}
