/* What the answers of reading mean, in a few words: for a program that tells its user why a track was refused.
 * apk_reading[4] is "no byte where the status stands". What the refusals of a bank mean, read or written, is in
 * apk_banking, which has a null pointer for the other numbers. Of apk_bank_list the answers of a bank are there, and
 * those of reading its track in apk_reading; but its 20, as that of apk_list_read, is neither's: too few cells for the
 * rows. The rule behind each number stands in apkarewe.h, enum apk_answer. APK_FULL has none: a list that is full goes
 * on. The number behind each table is how many places it has. For C alone, since C++ has no such table. */
#ifndef APKAREWE_ANSWERS_H
#define APKAREWE_ANSWERS_H

#include "apkarewe.h"

static const char *const apk_reading[] = {
    [APK_ACCEPTED] = "read to the end",
    [APK_RUNNING_STATUS] = "running status neither none nor 80..EF",
    [APK_NUMBER_CUT_OFF] = "a number cut off by the end",
    [APK_NUMBER_CONTINUES] = "fourth byte of a number continues",
    [APK_NO_STATUS] = "no byte where the status stands",
    [APK_NO_RUNNING_STATUS] = "data byte there, no running status",
    [APK_SYSTEM_COMMON] = "status F1..F6",
    [APK_SYSTEM_REALTIME] = "status F8..FE",
    [APK_CHANNEL_DATA_SHORT] = "channel data too short",
    [APK_CHANNEL_DATA_TOP_BIT] = "channel data byte with bit 7 set",
    [APK_NO_META_TYPE] = "no meta type byte",
    [APK_PAYLOAD_CUT_OFF] = "payload cut off",
    [APK_CHANNEL_OR_PORT] = "channel above 15 or port above 127",
    [APK_SMPTE_TIME] = "SMPTE time outside its ranges",
    [APK_KEY_SIGNATURE_SHORT] = "key signature under two bytes",
};

enum { APK_READING_ANSWERS = sizeof apk_reading / sizeof apk_reading[0] };

static const char *const apk_banking[] = {
    [APK_PAYLOAD_OUTSIDE] = "a track's range outside the bytes",
    [APK_NO_ROOM] = "bank above 65,536 bytes, or no room",
    [APK_BANK_SHORT] = "bank shorter than its header and entries",
    [APK_TOO_MANY_TRACKS] = "above 16 tracks",
    [APK_BANK_DISAGREES] = "numbers that do not agree with the bank, or above 65,536 bytes",
    [APK_NO_SUCH_TRACK] = "no track of this index",
};

enum { APK_BANKING_ANSWERS = sizeof apk_banking / sizeof apk_banking[0] };

#endif
