/* What the program says: whole lines on standard output, however it ends, and how far it is on standard error. */
#ifndef OUTPUT_H
#define OUTPUT_H

#include <stddef.h>
#include <stdint.h>

/* From here on a signal to stop is kept until the lines are whole, and a closed pipe is an error of writing. */
void begin_output(void);

/* Adds a line of numbers, or one of text; they are written when there are many, and by end_output. */
void put_numbers(const uint32_t *numbers, size_t count);
void put_text(const char *format, ...);

/* Tells on standard error how much of the work is done, if that is a terminal and more than a second has passed. */
void show_progress(size_t done, size_t all);

/* Whether the work is to stop: a signal came, or standard output takes no more. */
int must_stop(void);

/* Writes what is left. Answers 0, or the error number where standard output took not all; it then ends with a whole line
 * if it is a file. After a signal to stop the program ends here, by that signal. */
int end_output(void);

/* How many whole lines were written. */
size_t lines_written(void);

#endif
