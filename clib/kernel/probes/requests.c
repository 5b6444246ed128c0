/* Calls of the descriptor: numbers of requests, flags, modes, and the names under which the board is opened.
 *     requests PART */
#include "probe.h"
#include <signal.h>
#include <sys/stat.h>
#include <sys/uio.h>

static char bytes[512];

static void numbers(char **words)
{
	static const struct {
		const char *name;
		unsigned long number;
	} list[] = {
		{ "DEVCONFIG", COMEDI_DEVCONFIG },
		{ "TRIG", 0x6404 },
		{ "16 of d", _IO('d', 16) },
		{ "17 of d", _IO('d', 17) },
		{ "18 of d", _IO('d', 18) },
		{ "255 of d", _IO('d', 255) },
		{ "zero", 0 },
		{ "minus one", -1ul },
		{ "DEVINFO of another size", _IOR('d', 1, long) },
		{ "CANCEL with a size", _IOR('d', 7, int) },
		{ "LOCK of e", _IO('e', 5) },
		{ "TCGETS", 0x5401 },
		{ "FIONREAD", 0x541b },
		{ "TIOCGWINSZ", 0x5413 },
		{ "FIGETBSZ", 2 },
		{ "FIOQSIZE", 0x5460 },
		{ "FS_IOC_GETFLAGS", 0x80086601 },
		{ "DEVINFO with high bits", 0x100000000ul | COMEDI_DEVINFO },
	};
	int file = open_device(O_RDWR);
	(void)words;
	for (size_t i = 0; i < LENGTH(list); i++) {
		comedi_devconfig room = { .board_name = "comedi_test" };
		row("request %s = %s", list[i].name, answer(ioctl(file, list[i].number, &room)));
		row("request %s at no page = %s", list[i].name, answer(ioctl(file, list[i].number, no_page)));
	}
	row("request of a closed one = %s", answer(ioctl(999, COMEDI_DEVINFO, bytes)));
	close(file);
}

static void subdevice_numbers(char **words)
{
	static const unsigned long some[] = { 0, 1, 2, 3, 15, 16, 127, 128, 254, 255, 256, 257, 65535, 65536, 0x7fffffff,
		0x80000000, 0xffffffff, 0x100000000ul, 0x100000001ul, 0x8000000000000000ul, -1ul };
	static const struct {
		const char *name;
		unsigned long number;
	} list[] = { { "LOCK", COMEDI_LOCK }, { "UNLOCK", COMEDI_UNLOCK }, { "CANCEL", COMEDI_CANCEL }, { "POLL", COMEDI_POLL },
		{ "SETRSUBD", COMEDI_SETRSUBD }, { "SETWSUBD", COMEDI_SETWSUBD } };
	int file = open_device(O_RDWR);
	(void)words;
	for (size_t i = 0; i < LENGTH(list); i++)
		for (size_t n = 0; n < LENGTH(some); n++) {
			row("%s %lu = %s", list[i].name, some[n], answer(ioctl(file, list[i].number, some[n])));
			row("%s %lu: state = %s", list[i].name, some[n], state_of(file));
			if (list[i].number == COMEDI_LOCK)
				ioctl(file, COMEDI_UNLOCK, some[n]);
		}
	close(file);
}

static void show_flags(int file, const char *what)
{
	int flags = fcntl(file, F_GETFL);
	row("%s: non-blocking = %d", what, !!(flags & O_NONBLOCK));
	row("%s: asynchronous = %d", what, !!(flags & O_ASYNC));
	row("%s: appends = %d", what, !!(flags & O_APPEND));
	row("%s: mode = %d", what, flags & O_ACCMODE);
	row("%s: closed by exec = %d", what, fcntl(file, F_GETFD));
}

static void flags(char **words)
{
	int file = open_device(O_RDWR), one = 1, zero = 0;
	(void)words;
	show_flags(file, "opened");
	row("FIONBIO 1 = %s", answer(ioctl(file, FIONBIO, &one)));
	show_flags(file, "FIONBIO 1");
	row("FIONBIO 0 = %s", answer(ioctl(file, FIONBIO, &zero)));
	row("FIONBIO at no page = %s", answer(ioctl(file, FIONBIO, no_page)));
	row("FIOCLEX = %s", answer(ioctl(file, FIOCLEX)));
	show_flags(file, "FIOCLEX");
	row("FIONCLEX = %s", answer(ioctl(file, FIONCLEX)));
	row("FIOASYNC 1 = %s", answer(ioctl(file, FIOASYNC, &one)));
	show_flags(file, "FIOASYNC 1");
	row("FIOASYNC 0 = %s", answer(ioctl(file, FIOASYNC, &zero)));
	show_flags(file, "FIOASYNC 0");
	row("F_SETFL O_APPEND = %s", answer(fcntl(file, F_SETFL, O_APPEND)));
	show_flags(file, "F_SETFL O_APPEND");
	row("F_SETFL O_NONBLOCK = %s", answer(fcntl(file, F_SETFL, O_NONBLOCK)));
	show_flags(file, "F_SETFL O_NONBLOCK");
	row("F_SETFL 0 = %s", answer(fcntl(file, F_SETFL, 0)));
	row("F_SETFD FD_CLOEXEC = %s", answer(fcntl(file, F_SETFD, FD_CLOEXEC)));
	show_flags(file, "F_SETFD FD_CLOEXEC");
	row("F_GETOWN = %s", answer(fcntl(file, F_GETOWN)));
	row("F_SETOWN = %s", answer(fcntl(file, F_SETOWN, getpid())));
	row("F_GETOWN is this process = %d", fcntl(file, F_GETOWN) == getpid());
	row("F_GETSIG = %s", answer(fcntl(file, F_GETSIG)));
	row("F_SETSIG = %s", answer(fcntl(file, F_SETSIG, SIGUSR1)));
	row("F_GETSIG is SIGUSR1 = %d", fcntl(file, F_GETSIG) == SIGUSR1);
	row("F_GETPIPE_SZ = %s", answer(fcntl(file, F_GETPIPE_SZ)));
	row("F_SETFL of everything = %s", answer(fcntl(file, F_SETFL, O_NONBLOCK | O_APPEND | O_CREAT | O_TRUNC | O_RDONLY)));
	show_flags(file, "F_SETFL of everything");
	close(file);
}

static void descriptor(char **words)
{
	int file = open_device(O_RDWR);
	struct stat s = { 0 };
	(void)words;
	row("fstat = %s", answer(fstat(file, &s)));
	row("fstat: character device = %d", S_ISCHR(s.st_mode));
	row("fstat: device = %#lx", (unsigned long)s.st_rdev);
	row("isatty = %d", isatty(file));
	row("lseek 0 from the start = %s", answer(lseek(file, 0, SEEK_SET)));
	row("lseek 100 from the start = %s", answer(lseek(file, 100, SEEK_SET)));
	row("lseek 0 from here = %s", answer(lseek(file, 0, SEEK_CUR)));
	row("lseek 0 from the end = %s", answer(lseek(file, 0, SEEK_END)));
	row("lseek from elsewhere = %s", answer(lseek(file, 0, 99)));
	row("ftruncate = %s", answer(ftruncate(file, 0)));
	row("fsync = %s", answer(fsync(file)));
	row("fdatasync = %s", answer(fdatasync(file)));
	row("posix_fadvise = %d", posix_fadvise(file, 0, 0, POSIX_FADV_NORMAL));
	row("posix_fallocate = %d", posix_fallocate(file, 0, 1) != 0);
	row("close = %s", answer(close(file)));
	row("close again = %s", answer(close(file)));
	row("read of a closed one = %s", answer(read(file, bytes, 2)));
	row("write of a closed one = %s", answer(write(file, bytes, 2)));
	row("poll of a closed one = %s", poll_answer(file, POLLIN, 0));
	row("map of a closed one = %s", map_answer(file, 4096, PROT_READ, MAP_SHARED, 0));
}

static void move_bytes(char **words)
{
	static const size_t some[] = { 0, 1, 2, 3, 131072, 0x7ffff000, 0x7fffffff, 0x80000000, 0xffffffff, 0x100000000ul,
		0x7fffffffffffffff, 0x8000000000000000ul, -1ul };
	static struct iovec pieces[1025] = { { bytes, 2 }, { bytes + 2, 2 } };
	int file = open_device(O_RDWR);
	(void)words;
	for (size_t i = 0; i < LENGTH(some); i++) {
		row("read %zu while idle = %s", some[i], answer(read(file, bytes, some[i])));
		row("read %zu to 1 while idle = %s", some[i], answer(read(file, (void *)1, some[i])));
		row("write %zu while idle = %s", some[i], answer(write(file, bytes, some[i])));
		row("write %zu from 1 while idle = %s", some[i], answer(write(file, (void *)1, some[i])));
	}
	for (int count = -1; count < 3; count++) {
		row("read in %d pieces = %s", count, answer(readv(file, pieces, count)));
		row("write in %d pieces = %s", count, answer(writev(file, pieces, count)));
	}
	row("read in 1025 pieces = %s", answer(readv(file, pieces, 1025)));
	row("pread while idle = %s", answer(pread(file, bytes, 2, 0)));
	row("pwrite while idle = %s", answer(pwrite(file, bytes, 2, 0)));
	close(file);
}

static void read_nowhere(char **words)
{
	(void)words;
	row("read in pieces at no page = %s", answer(readv(open_device(O_RDWR), no_page, 1)));
}

static void write_nowhere(char **words)
{
	(void)words;
	row("write in pieces at no page = %s", answer(writev(open_device(O_RDWR), no_page, 1)));
}

/* Calls of a file that was opened with flags of open. */
static void use_mode(const char *name, int mode)
{
	static unsigned list[] = { 2, 3 };
	int file = open(DEVICE, mode | O_NONBLOCK);
	row("%s: open = %s", name, file < 0 ? error_name(errno) : "opened");
	int other = open_device(O_RDWR | O_NONBLOCK);
	comedi_devinfo d;
	lsampl_t data[2] = { MIDDLE, 0 };
	set_buffers(other);
	row("%s: mode = %d", name, file < 0 ? -1 : fcntl(file, F_GETFL) & O_ACCMODE);
	row("%s: DEVINFO = %s", name, answer(ioctl(file, COMEDI_DEVINFO, &d)));
	row("%s: read while idle = %s", name, answer(read(file, bytes, 2)));
	row("%s: write while idle = %s", name, answer(write(file, bytes, 2)));
	row("%s: read 0 = %s", name, answer(read(file, bytes, 0)));
	row("%s: write 0 = %s", name, answer(write(file, bytes, 0)));
	row("%s: lock = %s", name, answer(ioctl(file, COMEDI_LOCK, 0)));
	row("%s: instruction = %s", name, answer(instruction(file, INSN_WRITE, OUTPUT, 5, 1, data)));
	row("%s: map for reading = %s", name, map_answer(file, 4096, PROT_READ, MAP_SHARED, 0));
	row("%s: map for writing = %s", name, map_answer(file, 4096, PROT_READ | PROT_WRITE, MAP_SHARED, 0));
	row("%s: output = %s", name, answer(give(file, output_command(list, 2, 100000, 5))));
	row("%s: write = %s", name, answer(write(file, bytes, 4)));
	row("%s: poll = %s", name, poll_answer(file, POLLIN | POLLOUT, 0));
	row("%s: input = %s", name, answer(give(file, input_command(list, 2, 100000, 5))));
	await_end(other, INPUT);
	row("%s: read = %s", name, answer(read(file, bytes, 4)));
	row("%s: state = %s", name, state_of(other));
	row("%s: close = %s", name, answer(close(file)));
	row("%s: state then = %s", name, state_of(other));
	close(other);
}

static void modes(char **words)
{
	(void)words;
	use_mode("read and write", O_RDWR);
	use_mode("read only", O_RDONLY);
	use_mode("write only", O_WRONLY);
	use_mode("mode 3", O_ACCMODE);
	use_mode("O_APPEND", O_RDWR | O_APPEND);
	use_mode("O_TRUNC", O_RDWR | O_TRUNC);
	use_mode("O_CREAT", O_RDWR | O_CREAT);
	use_mode("O_CREAT and O_EXCL", O_RDWR | O_CREAT | O_EXCL);
	use_mode("O_DIRECTORY", O_RDWR | O_DIRECTORY);
	use_mode("O_NOFOLLOW", O_RDWR | O_NOFOLLOW);
	use_mode("O_PATH", O_PATH);
	use_mode("O_NOCTTY", O_RDWR | O_NOCTTY);
	use_mode("O_SYNC", O_RDWR | O_SYNC);
	use_mode("O_CLOEXEC", O_RDWR | O_CLOEXEC);
}

static void try_name(const char *name)
{
	struct stat s = { 0 };
	comedi_devinfo d;
	int file = open(name, O_RDWR);
	row("open %s = %s", name, file < 0 ? error_name(errno) : "opened");
	row("DEVINFO of %s = %s", name, answer(ioctl(file, COMEDI_DEVINFO, &d)));
	close(file);
	row("stat %s = %s", name, answer(stat(name, &s)));
	row("stat %s: character device = %d", name, S_ISCHR(s.st_mode));
	row("access %s = %s", name, answer(access(name, R_OK | W_OK)));
	FILE *stream = fopen(name, "rb");
	row("fopen %s = %s", name, stream ? "opened" : error_name(errno));
	if (stream)
		fclose(stream);
}

static void names(char **words)
{
	(void)words;
	try_name("/dev/comedi0");
	try_name("/dev//comedi0");
	try_name("/dev/./comedi0");
	try_name("/dev/../dev/comedi0");
	try_name("/dev/comedi0/");
	try_name("/dev/comedi0_subd0");
	try_name("/dev/comedi0_subd9");
	try_name("/dev/comedi1");
	try_name("/dev/comedi");
	try_name("/dev/comedi999");
	try_name("/dev/nothing");
	if (!chdir("/dev"))
		try_name("comedi0");
}

int main(int argc, char **argv)
{
	static const struct part parts[] = { { "numbers", numbers }, { "subdevice_numbers", subdevice_numbers },
		{ "flags", flags }, { "descriptor", descriptor }, { "move_bytes", move_bytes }, { "read_nowhere", read_nowhere },
		{ "write_nowhere", write_nowhere }, { "modes", modes }, { "names", names } };
	(void)argc;
	make_pages();
	signal(SIGIO, SIG_IGN);
	return run_part(parts, LENGTH(parts), argv, 120);
}
