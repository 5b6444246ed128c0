/*
 * Threads and children that read one command: four threads read while the client makes 64 children, which read too, some of
 * them made while a thread is within a call. Each sample is given to one of them.
 *
 * On wide.board sample k comes at 3,000 + k * 10,000 ns, so 100 of them have the same code, and 25,500 of them the sum
 * 100 * 254 * 255 / 2 = 3,238,500. The buffer holds them all.
 */
#include "client.h"
#include <pthread.h>
#include <sys/wait.h>

#define THREADS 4
#define CHILDREN 64
#define SAMPLES 25500

struct part {
	long samples, sum;
};

static int descriptor;
static struct part parts[THREADS];

/* Reads until the command has ended; the end is reported to one. */
static void read_part(struct part *part)
{
	sampl_t samples[16];
	ssize_t got;
	while ((got = read(descriptor, samples, sizeof samples)) > 0)
		for (size_t i = 0; i < got / sizeof *samples; i++, part->samples++)
			part->sum += samples[i];
}

static void *run_thread(void *part)
{
	read_part(part);
	return NULL;
}

/* Children that have answered, and what they and the threads have read. */
static void report_all(int answers, int children)
{
	struct part whole = { 0, 0 }, part;
	int answered = 0, ended = 0;
	for (int status; answered < children && read(answers, &part, sizeof part) == sizeof part; answered++) {
		whole.samples += part.samples;
		whole.sum += part.sum;
		ended += wait(&status) > 0 && !status;
	}
	for (int i = 0; i < THREADS; i++) {
		whole.samples += parts[i].samples;
		whole.sum += parts[i].sum;
	}
	printf("%d children, %ld samples, sum %ld\n", ended, whole.samples, whole.sum);
}

int main(void)
{
	comedi_t *device = open_board();
	pthread_t threads[THREADS];
	int ends[2], children = 0;
	descriptor = comedi_fileno(device);
	if (pipe(ends) || report("command", give_command(device, 0, TRIG_NOW, 10000, SAMPLES)))
		return 1;
	for (int i = 0; i < THREADS; i++)
		pthread_create(threads + i, NULL, run_thread, parts + i);
	for (pid_t child; children < CHILDREN && (child = fork()) >= 0; children++)
		if (!child) {
			struct part part = { 0, 0 };
			read_part(&part);
			_exit(write(ends[1], &part, sizeof part) != sizeof part);
		}
	for (int i = 0; i < THREADS; i++)
		pthread_join(threads[i], NULL);
	close(ends[1]);
	report_all(ends[0], children);
	comedi_close(device);
	return 0;
}
