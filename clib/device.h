/*
 * A Comedi device file over a modelled board.
 *
 * Nothing here decides what a board does. The program `comedi_serve` holds the board and the session; what a client
 * asks is put into lines of a session (docs/FORMATS.md), and the answers are put into the client's structs. What is
 * kept here is how the board describes itself, the board's time, and what answers have said.
 */
#ifndef DEVICE_H
#define DEVICE_H

#include "versions.h"
#include <comedi.h>
#include <limits.h>
#include <pthread.h>
#include <signal.h>
#include <stddef.h>
#include <stdint.h>
#include <sys/types.h>

/* the limits of a board text and of a session */
#define MOST_SUBDEVICES 16
#define MOST_CHANNELS 256
#define MOST_RANGES 32
#define MOST_FILES 16
#define MOST_ENTRIES 1024
/* how many samples a line asks for at once, and how many values a line of a write has */
#define SAMPLES_OF_A_LINE 4096
#define VALUES_OF_A_LINE 1024
/* bytes that are copied at once: whole pages */
#define MOST_COPIED 65536
/* readings of one line of an instruction */
#define READINGS_OF_A_LINE 64
#define NO_FILE (-1)
#define NO_SUBDEVICE (-1)
/* what a take answers where the end of a command was reported: a read then gives 0 bytes */
#define END_REPORTED (-ENODATA)

struct channel {
	unsigned maxdata, ranges;
	comedi_krange range[MOST_RANGES];
};

struct subdevice {
	/* what the board says, with the flags that don't change */
	unsigned kind, flags, channels, list_length, buffer, sample_bytes;
	struct channel channel[MOST_CHANNELS];
	/* what is handed over at once, in entries of the list and in the client's samples: a scan of a digital subdevice, and
	 * else one entry, which is one sample; and how many samples a scan has where the end of each wakes a read, or 0 */
	unsigned unit_entries, unit_samples, waking_samples;
	/* how many samples its command has at its end; NEVER if it has no end, and 0 if that isn't known */
	uint64_t total;
	/* samples on their way: an input's that the session has given and the client not taken, or an output's that the client
	 * has given and the session not taken. They are a part of such a piece, or what the client couldn't take */
	unsigned rests;
	uint32_t rest[SAMPLES_OF_A_LINE + MOST_ENTRIES / 16];
	/* a client may move a part of a sample: how many bytes an input has given of its first rest, or how many an output has
	 * got of its next sample, and these bytes */
	unsigned part;
	char part_bytes[sizeof(lsampl_t)];
	/* the memory that clients map, where it starts in the file of all such memory, whether anyone has mapped it, and
	 * up to which sample it is filled */
	void *memory;
	size_t memory_offset;
	int is_mapped;
	uint64_t filled;
};

struct file {
	/* whether it has no descriptor yet, whether a child may have it too, whether its last read had to wait, and whether its
	 * calls never wait: O_NONBLOCK as it was set last */
	int is_open, is_new, is_shared, has_waited, never_waits;
	/* O_RDONLY, O_WRONLY or O_RDWR, as it was opened, the signal that the client wants of it (F_SETSIG), or 0, the number of the
	 * device by whose name it was opened, and the inode of its descriptors */
	int mode, signal, minor;
	/* the other flags of its open that the kernel shows of a file, and doesn't know of a socket */
	int flags;
	uint64_t inode;
	pid_t opener;
	int read_subdevice, write_subdevice;
};

/* a board's text as the program gets it, and how many of its lines are the file's */
struct text {
	char *bytes;
	size_t length;
	unsigned lines;
};

enum wake { WAKE_SAMPLE, WAKE_SCAN, WAKE_FULL };

/* how many lines a round of questions has at most, and how many bytes a line has with its answer */
#define MOST_OF_A_ROUND 16
#define LONGEST_ASKED (1 << 15)

/* folding.c: a question as it was recorded, with its answer. */
struct asked {
	size_t length;
	char text[LONGEST_ASKED];
};

/* The questions since something has happened: those that were recorded last, and how many were. For each number of lines, how
 * often in a row a line was the same as the one so many lines before. How many lines the round has that isn't recorded any
 * more, or 0; how many lines were left out, and the time of the last one. */
struct folding {
	struct asked asked[MOST_OF_A_ROUND];
	uint64_t recorded, same[MOST_OF_A_ROUND + 1];
	unsigned round;
	uint64_t left_out, last_time;
};

/* how many clocks the system numbers */
#define CLOCKS 12
/* a time that never comes */
#define NEVER UINT64_MAX

struct device {
	pthread_mutex_t lock;
	char path[4096], name[64];
	unsigned subdevices;
	struct subdevice subdevice[MOST_SUBDEVICES];
	struct file file[MOST_FILES];
	/* board time, in nanoseconds, which ends at the horizon; and the client's, which is the same and has no end. They are
	 * changed within the device, and looked at by threads that wait outside it */
	_Atomic uint64_t now, client_now;
	uint64_t horizon, call_time;
	double pace;
	/* how often a call changed what others wait for: a command, a trigger, a cancel, a close, and that nothing is answered; and
	 * how often waits for the board were ended, by these and by changes of sets */
	uint64_t commands, changes;
	/* when signals were sent last since something had come (signals.c), or 0 */
	uint64_t signalled;
	uint64_t wall_start;
	/* whether the client's clocks show its time, what each showed at 0, and the date at 0 if it's set, in seconds */
	int shows_time;
	uint64_t clock_start[CLOCKS], start_date;
	/* whether the time has begun: the first file was opened */
	int has_begun;
	/* how many bytes the lines of the record have, where the room behind them ends, if there is any, and whether its next
	 * lines couldn't be written */
	uint64_t record_length, record_end;
	int record_is_cut;
	struct folding folding;
	enum wake wake;
	/* the start of the memory of all buffers, which is there before a client makes children: through it is copied */
	char *copied;
};

/* The device is in memory that a client's children share. It is there once a board was opened. */
extern struct device *device;

/* quiet.c: what the thread's signals and its cancellation were before a part of a call that nothing interrupts, and whether
 * signals are let in meanwhile, since there is no handler. */
struct quiet {
	sigset_t signals;
	int cancels, lets_signals_in;
};
void quiet_begin(struct quiet *quiet);
void quiet_end(const struct quiet *quiet);
void quiet_begin_call(struct quiet *quiet);
void quiet_end_call(const struct quiet *quiet);
void quiet_block_signals(void);
void quiet_begin_child(void);

/* handlers.c */
void handlers_look(void);

/* device.c */
int device_open(const char *path);
void device_close(int file);
void device_close_left(void);
int device_has_name(const char *path);
int device_minor(const char *path);
int device_serves(const char *path, int flags);
void device_enter(void);
int device_try_enter(void);
void device_leave(void);
int device_begin_call(int file);
void device_end_call(int file);
void device_begin_calls(unsigned files);
void device_end_calls(void *files);
int device_callers(void);
uint64_t device_changes(void);
void device_wake(void);
void device_changed(void);
void device_hold(void);
void device_let_go(void);
void device_share(void);
void device_begin_child(void);

/* text.c */
int text_read(const char *path, struct text *text);
void text_say_refusal(const char *path, const struct text *text, const char *answer);

/* ioctl.c */
int device_ioctl(int file, unsigned long request, void *argument);

/* stream.c */
ssize_t device_read(int file, void *to, size_t bytes, int waits);
ssize_t device_write(int file, const void *from, size_t bytes, int waits);
int take_samples(int file, int number, unsigned most, uint32_t *samples);
ssize_t stream_take(int file, int number, char *to, size_t bytes);
int stream_ready_to_read(int file);
int stream_ready_to_write(int file);
int stream_next_time(int file, int reads, int writes, uint64_t *time);
int stream_next_event(int file, int number, uint64_t *time);
int stream_next_change(int file, int reads, int writes, uint64_t *time);

/* How much has happened to a file: how often commands of the board were changed, and what those of the file have read and put
 * out. */
struct happened {
	uint64_t commands, read, written;
};
void stream_happened(int file, struct happened *happened);

/* lines.c: the state of a command, as an answer to `info` has it. */
enum state { STATE_IDLE, STATE_RUNS, STATE_DONE, STATE_DRY, STATE_OVERRUN, STATE_UNDERRUN, STATE_FIFO };
#define STATES 7

/* scans.c: the client's samples. How many were read and written, for an output how many more have room, and the state of their
 * command. */
struct counts {
	uint64_t read, written, room;
	enum state state;
};
void scans_begin(struct subdevice *s, unsigned entries, int each_wakes, uint64_t stops_after);
unsigned scans_capacity(const struct subdevice *s);
unsigned scans_of_line(const struct subdevice *s, unsigned values);
int scans_count(int file, int number, struct counts *counts);
int scans_await(int file, int number, uint64_t count, uint64_t *time);
int scans_take(int file, int number, unsigned most, uint32_t *samples);
int scans_can_fetch(int number);
int scans_fetch(int file, int number, uint32_t *sample);
void scans_give_back(struct subdevice *s, unsigned count, const uint32_t *samples);
int scans_put(int file, int number, unsigned count, const uint32_t *samples);
int scans_end(int file, int number);
int scans_have_failed(int file, int number, const struct counts *counts);
int scans_map(int file, int number, uint64_t count);
int scans_peek(int file, int number, uint64_t from, uint32_t *samples);
int scans_release(int file, int number, unsigned count);

/* buffer.c */
int buffer_info(int file, comedi_bufinfo *info);
int buffer_make_memory(void);
int buffer_map(int file, int number);
int buffer_take(int file, int number, unsigned most, uint32_t *samples);
int buffer_memory(void);
int buffer_is_mapped(int number);

/* board.c */
int board_ask(void);
int board_runner(unsigned number);
void board_runners(int *runners);
int board_is_input(const struct subdevice *s);
int board_is_digital(const struct subdevice *s);
int board_subdevices(int file, comedi_subdinfo *to);
int board_channels(const comedi_chaninfo *asked);
int board_ranges(const comedi_rangeinfo *asked);

/* command.c */
int command_test(comedi_cmd *command);
int command_call(int file, comedi_cmd *command);

/* instruction.c; and how many values an instruction has at most, as in the kernel */
#define MOST_DATA 65536
int instruction_do(int file, comedi_insn *instruction, unsigned *data);
int instruction_list(int file, const comedi_insnlist *list);
int instruction_one(int file, const comedi_insn *instruction);

/* settings.c */
int settings_read(void);

/* time.c */
void time_start(void);
void time_call(void);
void time_to(uint64_t time);
void time_say_end(void);
void time_spend(uint64_t nanoseconds);
void time_catch_up(void);
uint64_t time_left(uint64_t end);
int time_wait(uint64_t time);
int time_is_board_time(void);
int time_is_shown(void);
uint64_t time_look(void);
void time_forget_look(void);
uint64_t time_after(int64_t nanoseconds);
uint64_t time_until(uint64_t end);
uint64_t time_of_wall(void);

/*
 * turns.c. A wait, with all that can end it before its time. `pause` waits really, for up to so many nanoseconds of the wall
 * clock, with the client's signals unblocked, and returns 0 if nothing came. What else it returns ends the wait, and is its
 * result. `due`, if any, has the time at which something comes by itself, which other threads may change. `seen`, if any, is
 * the count of changes of the board (device_changes) that the thread has seen: one more ends the wait with BOARD_CHANGED.
 * `signals`, if any, is the mask with which the client waits, in place of its own: then all signals are blocked already.
 * `goes_on` is set of a wait that goes on after the handler of a signal has run.
 */
struct wait {
	int (*pause)(void *what, uint64_t nanoseconds, const sigset_t *signals);
	uint64_t (*due)(void *what);
	void *what;
	const uint64_t *seen;
	const sigset_t *signals;
	int goes_on;
};
#define BOARD_CHANGED INT_MAX
int turns_wait(uint64_t end, const struct wait *wait);
int turns_is_alone(void);
int turns_is_only_thread(void);
uint64_t turns_number(pid_t thread);
uint64_t turns_number_of(pthread_t thread);
void turns_note_signal(pthread_t thread, uint64_t turn, int number);
int turns_let_in(pid_t thread, int number);
void turns_hold(void);
void turns_let_go(void);
void turns_begin_child(void);

/* threads.c */
uint64_t threads_sleep(void);
unsigned threads_number(void);
void threads_hold(void);
void threads_let_go(void);

/* a wait for nothing but its end, in time.c */
extern const struct wait time_sleep;

/* clocks.c */
void clocks_start(void);

/* memory.c: within the device */
int copy_in(void *to, const void *from, size_t bytes);
int copy_out(void *to, const void *from, size_t bytes);
int memory_lengthen(int descriptor, size_t bytes);
/* anywhere */
int memory_is_there(const void *from, size_t bytes);
int memory_takes_events(void *to);

#endif
