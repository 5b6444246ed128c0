/*
 * Children that are made while another thread maps the next part of the record: they have what that thread had done by then,
 * and record their own reads all the same.
 *
 * The thread stays within mmap until its child is there. That name stands here before the C library's. The first child is
 * made before that, since the device waits then for the end of calls that let signals in.
 */
#include "client.h"
#include <pthread.h>
#include <semaphore.h>
#include <sys/mman.h>
#include <sys/syscall.h>
#include <sys/wait.h>

#define CHILDREN 4
#define SAMPLES 5100
#define SAMPLES_OF_A_CHILD 100

static int descriptor;
static long samples_of_thread;
static sem_t is_within, is_made;
static __thread int left;

void *mmap(void *place, size_t bytes, int protection, int flags, int file, off_t offset)
{
	if (left) {
		left--;
		sem_post(&is_within);
		sem_wait(&is_made);
	}
	return (void *)syscall(SYS_mmap, place, bytes, protection, flags, file, offset);
}

static int read_samples(int most)
{
	sampl_t sample;
	int samples = 0;
	while (samples < most && read(descriptor, &sample, sizeof sample) == sizeof sample)
		samples++;
	return samples;
}

static void *run_thread(void *unused)
{
	left = CHILDREN;
	samples_of_thread = read_samples(SAMPLES);
	return unused;
}

/* Makes a child, which reads some samples. Answers its process. */
static pid_t make_child(int samples)
{
	pid_t child = fork();
	if (!child)
		_exit(read_samples(samples));
	return child;
}

/* Waits for a child's end. Answers how many samples it has read. */
static int end_of_child(pid_t child)
{
	int status = 0;
	waitpid(child, &status, 0);
	if (!WIFEXITED(status))
		printf("a child is ended by signal %d\n", WTERMSIG(status));
	return WIFEXITED(status) ? WEXITSTATUS(status) : 0;
}

int main(void)
{
	comedi_t *device = open_board();
	pthread_t thread;
	pid_t children[CHILDREN];
	long samples = 0;
	descriptor = comedi_fileno(device);
	if (sem_init(&is_within, 0, 0) || sem_init(&is_made, 0, 0) || report("command", give_command(device, 0, TRIG_NOW, 10000, SAMPLES)))
		return 1;
	samples += end_of_child(make_child(0));
	pthread_create(&thread, NULL, run_thread, NULL);
	for (int i = 0; i < CHILDREN; i++) {
		sem_wait(&is_within);
		children[i] = make_child(SAMPLES_OF_A_CHILD);
		sem_post(&is_made);
	}
	for (int i = 0; i < CHILDREN; i++)
		samples += end_of_child(children[i]);
	pthread_join(thread, NULL);
	printf("%ld samples of children, %ld of all\n", samples, samples + samples_of_thread);
	comedi_close(device);
	return 0;
}
