/* The program that answers, and the lines that it is asked. */
#ifndef SERVER_H
#define SERVER_H

#include <stddef.h>
#include <stdint.h>
#include <sys/types.h>

/* where the program that answers finds the number of the memory that it shares */
#define RINGS_VARIABLE "ZENDROUZ_RINGS"

/* program.c: which program answers, and the library that is loaded into it. */
const char *program_path(void);
const char *program_library(void);

/* rings.c: the bytes between the device and the program. */
int rings_make(int *socket, int *memory);
void rings_note_program(pid_t program);
int rings_stand_for(int descriptor);
ssize_t rings_read(char *to, size_t most);
ssize_t rings_write(const char *from, size_t length);
int server_is_lost(void);
void server_lose(void);

/* pipe.c: the program. Each answer is read whole before the next line is sent. */
int server_start(const char *program, const char *head, size_t length);
int server_ask(const char *line, size_t length, void (*each)(char *line));
int server_hear(void (*each)(char *line));
const char *server_answer(void);

/* lines.c: a line is answered 0 for `ok`, the negative number of `err`, and -EIO where there is no answer. */
int line_of_session(const char *form, ...) __attribute__((format(printf, 1, 2)));
int line_of_values(const char *start, const uint32_t *values, unsigned count);
int question_info(int file, int subdevice);
int question_await(int file, int subdevice, unsigned count);
int question_peek(int file, int subdevice, unsigned from, unsigned most);
int question_codes(int file, int subdevice, unsigned most);
int question_fetch(int file, int subdevice, unsigned wanted, unsigned most);
int question_untimed(const char *key, const char *words, void (*each)(char *line));
const char *entry_text(unsigned entry);
const char *answer_words(void);
int answer_numbers(uint64_t *numbers, int most);
const char *answer_end(void);
int answer_state(void);

/* messages.c: lines on standard error */
void message(const char *form, ...) __attribute__((format(printf, 1, 2)));
void messages_hold(void);
void messages_let_go(void);

/* record.c, and the last line of a record of which nothing is missing */
#define WHOLE "# the record is whole\n"
int record_open(void);
int record_is_there(void);
void record_begin_child(void);
void record_line(const char *text, size_t length);
void record_question(const char *text, size_t length, const char *answer);
void record_put(const char *text, size_t length);
void record_flush(void);
void record_note(const char *form, ...) __attribute__((format(printf, 1, 2)));
void record_sleep(uint64_t nanoseconds);

/* tail.c: the end of a record, in memory. */
void tail_begin_child(void);
int tail_can_map(int descriptor);
int tail_put(int descriptor, const char *lines, size_t length);
int tail_end(int descriptor);

/* folding.c: which questions a record leaves out. */
int folding_leaves_out(uint64_t time, const char *words, size_t length, const char *answer);
void folding_end(void);

#endif
