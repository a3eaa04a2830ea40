/* Whole lines on standard output, and a progress line on standard error. */
#include "output.h"

#include <errno.h>
#include <poll.h>
#include <signal.h>
#include <stdarg.h>
#include <stdio.h>
#include <string.h>
#include <time.h>
#include <unistd.h>

/* A block is written when a further line may not fit in it. The longest line has a file's name. */
enum { BLOCK = 65536, LINE = 8192 };
/* No progress line is longer. */
enum { PROGRESS = 40 };

static char block[BLOCK];
static size_t filled;
static size_t lines;
static int failed; /* the error number of standard output */
static int closed; /* lines were lost: what would follow them is not written either */
static volatile sig_atomic_t stop_signal; /* the signal that asked to stop */
static struct timespec began, shown;
static int progress_stands;

static void keep_signal(int number) {
    stop_signal = number;
}

/* Keeps a signal from now on, unless whoever started the program has it ignored, as nohup does. */
static void await_signal(int number) {
    struct sigaction action;
    if (sigaction(number, NULL, &action) == 0 && action.sa_handler != SIG_IGN) {
        memset(&action, 0, sizeof action);
        action.sa_handler = keep_signal;
        action.sa_flags = (int)SA_RESETHAND; /* a second one ends the program at once */
        sigaction(number, &action, NULL);
    }
}

void begin_output(void) {
    await_signal(SIGINT);
    await_signal(SIGTERM);
    await_signal(SIGHUP);
    signal(SIGPIPE, SIG_IGN);
    signal(SIGXFSZ, SIG_IGN);
    clock_gettime(CLOCK_MONOTONIC, &began);
    shown = began;
}

static double seconds_since(const struct timespec *then) {
    struct timespec now;
    clock_gettime(CLOCK_MONOTONIC, &now);
    return (double)(now.tv_sec - then->tv_sec) + (double)(now.tv_nsec - then->tv_nsec) / 1e9;
}

static void hide_progress(void) {
    if (progress_stands) {
        fprintf(stderr, "\r%*s\r", PROGRESS, "");
        progress_stands = 0;
    }
}

void show_progress(size_t done, size_t all) {
    if (seconds_since(&began) > 1 && seconds_since(&shown) > 0.1 && isatty(STDERR_FILENO)) {
        hide_progress();
        fprintf(stderr, "sweep: %zu of %zu places, %.0f%%", done, all, 100.0 * (double)done / (double)all);
        progress_stands = 1;
        clock_gettime(CLOCK_MONOTONIC, &shown);
    }
}

/* How much of the block is still to be written after a signal: up to the end of the line that was begun. */
static size_t to_line_end(size_t done) {
    while (done > 0 && done < filled && block[done - 1] != '\n') {
        done++;
    }
    return done;
}

/* A file keeps no part of a line that could not be written whole. */
static void take_back(size_t part) {
    off_t end = lseek(STDOUT_FILENO, 0, SEEK_CUR);
    if (part > 0 && end >= (off_t)part && ftruncate(STDOUT_FILENO, end - (off_t)part) == 0) {
        lseek(STDOUT_FILENO, end - (off_t)part, SEEK_SET);
    }
}

static void write_block(void) {
    size_t done = 0, goal = filled;
    if (isatty(STDOUT_FILENO)) { /* it may be the terminal on which the progress line stands */
        hide_progress();
    }
    while (!closed && !failed && done < goal) {
        ssize_t count = write(STDOUT_FILENO, block + done, goal - done);
        if (count >= 0) {
            done += (size_t)count;
        } else if (errno == EAGAIN) {
            struct pollfd out = {STDOUT_FILENO, POLLOUT, 0};
            poll(&out, 1, -1);
        } else if (errno != EINTR) {
            failed = errno;
        }
        goal = stop_signal ? to_line_end(done) : filled;
    }
    closed |= done < filled;
    size_t whole = done;
    while (whole > 0 && block[whole - 1] != '\n') {
        whole--;
    }
    if (failed) {
        take_back(done - whole);
    }
    for (size_t i = 0; i < whole; i++) {
        lines += block[i] == '\n';
    }
    filled = 0;
}

static void end_line(size_t length) {
    filled += length;
    block[filled++] = '\n';
    if (filled + LINE > BLOCK) {
        write_block();
    }
}

void put_numbers(const uint32_t *numbers, size_t count) {
    char digits[LINE]; /* so many numbers are never put in one line */
    size_t length = 0;
    for (size_t i = count; i-- > 0;) { /* from the last digit to the first */
        uint32_t number = numbers[i];
        do {
            digits[length++] = (char)('0' + number % 10);
            number /= 10;
        } while (number > 0);
        digits[length++] = ' ';
    }
    for (size_t i = 0; i + 1 < length; i++) {
        block[filled + i] = digits[length - 2 - i];
    }
    end_line(length - 1);
}

void put_text(const char *format, ...) {
    va_list words;
    va_start(words, format);
    int length = vsnprintf(block + filled, LINE - 1, format, words);
    va_end(words);
    end_line(length < LINE - 1 ? (size_t)length : LINE - 2);
}

int must_stop(void) {
    return failed || stop_signal;
}

int end_output(void) {
    hide_progress();
    write_block();
    if (stop_signal) {
        signal(stop_signal, SIG_DFL);
        raise(stop_signal);
    }
    if (!failed && close(STDOUT_FILENO) != 0) {
        failed = errno;
    }
    return failed;
}

size_t lines_written(void) {
    return lines;
}
