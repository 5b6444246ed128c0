/* The buffer in memory: sizes and kinds of maps, which buffer is mapped, and what a map keeps from being changed.
 *     maps PART */
#include "probe.h"

static unsigned list[] = { 2, 3 };

static void kinds(char **words)
{
	/* how much may be mapped privately for writing depends on the machine's memory */
	static const size_t sizes[] = { 0, 1, 2, 4095, 4096, 4097, 8192, 65536, 131071, 131072, 131073, 135168, 1 << 21, 1 << 22,
		1 << 25, 0x7fffffff, 0x80000000, 0x100000000ul, -4096ul };
	static const off_t offsets[] = { 0, 1, 4096, 131072, -4096 };
	static const struct {
		const char *name;
		int value;
	} protections[] = { { "r", PROT_READ }, { "w", PROT_WRITE }, { "rw", PROT_READ | PROT_WRITE }, { "none", PROT_NONE },
		{ "x", PROT_READ | PROT_EXEC } },
	  flags[] = { { "shared", MAP_SHARED }, { "private", MAP_PRIVATE } };
	int file = open_device(O_RDWR);
	(void)words;
	set_buffers(file);
	for (size_t f = 0; f < LENGTH(flags); f++)
		for (size_t p = 0; p < LENGTH(protections); p++)
			for (size_t s = 0; s < LENGTH(sizes); s++)
				for (size_t o = 0;
					(f == 0 || sizes[s] <= 1 << 25) && o < (sizes[s] == 4096 ? LENGTH(offsets) : 1); o++)
					row("%s %s of %zd from %ld = %s", flags[f].name, protections[p].name, (ssize_t)sizes[s],
						(long)offsets[o],
						map_answer(file, sizes[s], protections[p].value, flags[f].value, offsets[o]));
	close(file);
}

static const char *size_answer(int file, unsigned subdevice, unsigned size)
{
	comedi_bufconfig asked = { .subdevice = subdevice, .size = size };
	return answer(ioctl(file, COMEDI_BUFCONFIG, &asked));
}

static void kept(char **words)
{
	int file = open_device(O_RDWR);
	(void)words;
	set_buffers(file);
	char *map = mmap(NULL, 8192, PROT_READ, MAP_SHARED, file, 0);
	row("map = %s", map == MAP_FAILED ? error_name(errno) : "mapped");
	row("smaller while it is mapped = %s", size_answer(file, INPUT, 65536));
	row("the same size while it is mapped = %s", size_answer(file, INPUT, BUFFER_BYTES));
	row("question while it is mapped = %s", size_answer(file, INPUT, 0));
	row("the other buffer = %s", size_answer(file, OUTPUT, BUFFER_BYTES));
	row("half is let go = %s", answer(munmap(map + 4096, 4096)));
	row("the same size while half is mapped = %s", size_answer(file, INPUT, BUFFER_BYTES));
	row("the rest is let go = %s", answer(munmap(map, 4096)));
	row("the same size = %s", size_answer(file, INPUT, BUFFER_BYTES));
	map = mmap(NULL, 4096, PROT_READ, MAP_SHARED, file, 0);
	row("close while it is mapped = %s", answer(close(file)));
	file = open_device(O_RDWR);
	row("the same size while a closed file's map is there = %s", size_answer(file, INPUT, BUFFER_BYTES));
	munmap(map, 4096);
	row("the same size = %s", size_answer(file, INPUT, BUFFER_BYTES));
	give(file, input_command(list, 2, SLOW, 0));
	row("the same size while it runs = %s", size_answer(file, INPUT, BUFFER_BYTES));
	row("question while it runs = %s", size_answer(file, INPUT, 0));
	row("the other buffer = %s", size_answer(file, OUTPUT, BUFFER_BYTES));
	close(file);
}

/* Which buffer is mapped: that of the subdevice that is written, if the map can be written, else that of the one that is read. */
static void which(char **words)
{
	int file = open_device(O_RDWR | O_NONBLOCK);
	comedi_bufinfo b;
	sampl_t samples[10];
	unsigned same = 0;
	(void)words;
	set_buffers(file);
	sampl_t *both = mmap(NULL, 4096, PROT_READ | PROT_WRITE, MAP_SHARED, file, 0),
		*input = mmap(NULL, 4096, PROT_READ, MAP_SHARED, file, 0);
	if (both == MAP_FAILED || input == MAP_FAILED) {
		row("maps = %s", error_name(errno));
		return;
	}
	memset(both, 0, 4096);
	both[0] = 0x1234;
	row("both are one buffer = %d", input[0] == 0x1234);
	both[0] = 0;
	give(file, input_command(list, 2, 100000, 5));
	await_end(file, INPUT);
	row("counts = %s", answer(buffer_call(file, INPUT, 0, 0, &b)));
	for (int i = 0; i < 10; i++)
		same += input[i] == MIDDLE;
	row("samples in the map for reading = %u", same);
	row("samples in the map for writing = %d", both[0] == MIDDLE);
	row("read = %s", answer(read(file, samples, sizeof samples)));
	row("they are still in the map = %d", input[0] == MIDDLE && input[9] == MIDDLE);
	munmap(both, 4096);
	munmap(input, 4096);
	close(file);
}

int main(int argc, char **argv)
{
	static const struct part parts[] = { { "kinds", kinds }, { "kept", kept }, { "which", which } };
	(void)argc;
	return run_part(parts, LENGTH(parts), argv, 120);
}
