/* Makes a bank of track files, each of which is a track, in the order in which they are named. What is written is what
 * the proved entry writes (include/apkarewe.h). README.md, "A bank of programs", is for its users. */
#include <errno.h>
#include <stdio.h>
#include <stdlib.h>
#include <string.h>
#include <sys/stat.h>
#include <unistd.h>

#include "apkarewe.h"
#include "apkarewe_answers.h"

static const char usage[] =
    "usage: tools/bank OUT FILE ..\n"
    "Writes OUT, the bank of the tracks that the FILEs hold: at most 16, and 65,536 bytes with the bank's header.\n"
    "Exit status: 0 OUT is written; 1 the bank is refused; 2 a file cannot be read or written.\n";

/* The tracks one behind the other. There is room for a byte more than a bank may have: so many are too long for any
 * bank, and what follows them need not be read. */
static uint8_t bytes[APK_BANK_BYTES + 1];
static uint8_t bank[APK_BANK_BYTES];

/* Says what is wrong with a file, and ends the program. */
static void fail(const char *name, const char *why) {
    fprintf(stderr, "bank: %s: %s\n", name, why);
    exit(2);
}

/* Reads a file behind the bytes that are held, and answers how many are held then. */
static size_t read_behind(const char *name, size_t held) {
    FILE *file = fopen(name, "rb");
    if (file == NULL) {
        fail(name, strerror(errno));
    }
    size_t length = fread(bytes + held, 1, sizeof bytes - held, file);
    if (ferror(file)) {
        fail(name, strerror(errno));
    }
    fclose(file);
    if (length >= 4 && memcmp(bytes + held, "MThd", 4) == 0) {
        fprintf(stderr, "bank: %s is a whole MIDI file, and a bank holds tracks: tools/track %s N\n", name, name);
    }
    return held + length;
}

/* Writes the bank into a file beside OUT, which then gets OUT's name: where anything fails, OUT is as it was. A folder,
 * a device or a link is not replaced. */
static void put(const char *out, size_t total) {
    struct stat found;
    if (lstat(out, &found) == 0 && !S_ISREG(found.st_mode)) {
        fail(out, "it is there and no plain file");
    }
    char *part = malloc(strlen(out) + sizeof ".XXXXXX");
    if (part == NULL) {
        fail(out, strerror(errno));
    }
    strcpy(part, out);
    strcat(part, ".XXXXXX");
    int file = mkstemp(part);
    if (file < 0) {
        fail(out, strerror(errno));
    }
    mode_t mask = umask(0); /* a file of mkstemp's is its owner's alone */
    errno = ENOSPC;         /* a write that takes less than it is given sets nothing */
    int is_put = write(file, bank, total) == (ssize_t)total && fchmod(file, 0666 & ~mask) == 0;
    if (close(file) != 0 || !is_put || rename(part, out) != 0) {
        int why = errno;
        unlink(part);
        fail(out, strerror(why));
    }
    free(part);
}

int main(int argc, char **argv) {
    if (argc < 2 || argv[1][0] == '-') { /* a name that begins so can be given as ./-name */
        fputs(usage, stderr);
        return 2;
    }
    uint64_t ranges[APK_BANK_CELLS] = {0};
    size_t count = (size_t)argc - 2, held = 0, total = 0;
    for (size_t i = 0; i < count; i++) {
        size_t start = held;
        held = read_behind(argv[2 + i], held);
        if (i < APK_BANK_TRACKS) { /* of more tracks the writer looks at no range */
            ranges[2 * i] = start;
            ranges[2 * i + 1] = held - start;
        }
    }
    uint8_t answer = apk_bank_write(bytes, held, ranges, count, bank, sizeof bank, &total);
    if (answer != APK_ACCEPTED) {
        fprintf(stderr, "bank: refused by %u, %s: %s is not written\n", (unsigned)answer, apk_banking[answer], argv[1]);
        return 1;
    }
    put(argv[1], total);
    return 0;
}
