/* The machine under a driver: memory, time, ports and registers, what the kernel logs, and main. With libc's headers.
 *
 *     DRIVER list                        the entries of the driver's tables, a line each
 *     DRIVER dump ENTRY [OPTIONS]        attaches an entry, and says what its subdevices are
 *     DRIVER test ENTRY [OPTIONS]        and answers the commands on standard input, a line each (host.c)
 *
 * What a driver reads of its board is set by the environment:
 *     MACHINE_PORTS=PORT=VALUE,..        these ports and registers (the low 16 bits of an address)
 *     MACHINE_VALUE=VALUE                all others, without it 0
 *     MACHINE_BITS=PORT=BYTE             a port whose lowest bit gives a byte bit by bit, the highest first, over and over
 *     MACHINE_COUNT=PORT=N=FIRST=THEN    a port that gives FIRST for N reads, and THEN from then on
 *     MACHINE_ECHO=1                     a port gives what was written to it
 *     MACHINE_MEMORY=1                   a register gives what was written to it
 *     MACHINE_TOGGLE=1                   all bits change from read to read
 *     MACHINE_IO=1                       a PCI board has ports in place of memory
 *     MACHINE_VERBOSE=1                  what the driver logs on standard error; 2: and each access
 */
#define _GNU_SOURCE
#include <setjmp.h>
#include <signal.h>
#include <stdarg.h>
#include <stdint.h>
#include <stdio.h>
#include <stdlib.h>
#include <string.h>
#include <sys/time.h>
#include <unistd.h>

void list_entries(void);
int attach(const char *, const char *);
void describe(void);
void answer_tests(void);

volatile unsigned long jiffies;
volatile unsigned long jiffies_64;
static int verbose;

static void tick(int s) { jiffies += 25; jiffies_64 = jiffies; }
static sigjmp_buf guard_env;
static volatile int guarding;
int guarded(int (*f)(void *, void *, void *), void *a, void *b, void *c)
{
	int r;

	if (sigsetjmp(guard_env, 1)) {
		guarding = 0;
		return 99;
	}
	guarding = 1;
	r = f(a, b, c);
	guarding = 0;
	return r;
}
static void crash(int s)
{
	if (guarding)
		siglongjmp(guard_env, 1);

	printf("crash %d\n", s);
	fflush(stdout);
	_exit(3);
}

/* what the ports and registers give */
static long port_val[65536];
static unsigned long def;
static void setup(void)
{
	char *e = getenv("MACHINE_PORTS");
	def = getenv("MACHINE_VALUE") ? strtoul(getenv("MACHINE_VALUE"), 0, 0) : 0;
	for (int i = 0; i < 65536; i++)
		port_val[i] = -1;
	while (e && *e) {
		char *x;
		unsigned long o = strtoul(e, &x, 0);
		port_val[(o) & 0xffff] = strtoul(x + 1, &x, 0);
		e = *x == ',' ? x + 1 : x;
	}
}
static int toggling;
static unsigned long val(unsigned long p, int size)
{
	static unsigned long flip;
	unsigned long m = size == 8 ? ~0ul : (1ul << (8 * size)) - 1;
	long v = port_val[p & 0xffff];
	static long seq_port = -2, seq_byte, seq_k, cnt_port = -1, cnt_n, cnt_a, cnt_b, cnt_k;
	if (seq_port == -2) {
		char *e = getenv("MACHINE_BITS");
		seq_port = -1;
		if (e) {
			seq_port = strtol(e, &e, 0);
			seq_byte = strtol(e + 1, 0, 0);
		}
		if ((e = getenv("MACHINE_COUNT"))) {
			cnt_port = strtol(e, &e, 0);
			cnt_n = strtol(e + 1, &e, 0);
			cnt_a = strtol(e + 1, &e, 0);
			cnt_b = strtol(e + 1, &e, 0);
		}
	}
	if (seq_port >= 0 && (long)(p & 0xffff) == seq_port)
		return seq_byte >> (7 - seq_k++ % 8) & 1;
	if (cnt_port >= 0 && (long)(p & 0xffff) == cnt_port)
		return cnt_k++ < cnt_n ? cnt_a : cnt_b;
	if (v >= 0)
		return v & m;
	if (toggling)
		return (flip = ~flip) & m;
	return def & m;
}
unsigned int machine_in(unsigned long port, int size)
{
	unsigned long v = val(port, size);
	if (verbose > 1)
		fprintf(stderr, "in%d %lx -> %lx\n", size, port, v);
	return v;
}
void machine_out(unsigned long port, unsigned int v, int size)
{
	static int echo = -1;
	if (echo < 0)
		echo = getenv("MACHINE_ECHO") != 0;
	if (echo)
		port_val[port & 0xffff] = v;
	if (verbose > 1)
		fprintf(stderr, "out%d %lx <- %x\n", size, port, v);
}
unsigned long machine_read(const volatile void *p, int size)
{
	unsigned long off = (unsigned long)p & 0xfffff;
	unsigned long v = val(off, size);
	if (port_val[off & 0xffff] < 0 && getenv("MACHINE_MEMORY")) {
		v = 0;
		memcpy(&v, (void *)p, size);
	}
	if (verbose > 1)
		fprintf(stderr, "rd%d %lx -> %lx\n", size, off, v);
	return v;
}
void machine_write(volatile void *p, unsigned long v, int size)
{
	if (verbose > 1)
		fprintf(stderr, "wr%d %lx <- %lx\n", size, (unsigned long)p & 0xfffff, v);
	memcpy((void *)p, &v, size);
}
unsigned int ioread8(void *p) { return machine_read(p, 1); }
unsigned int ioread16(void *p) { return machine_read(p, 2); }
unsigned int ioread32(void *p) { return machine_read(p, 4); }
void iowrite8(unsigned v, void *p) { machine_write(p, v, 1); }
void iowrite16(unsigned v, void *p) { machine_write(p, v, 2); }
void iowrite32(unsigned v, void *p) { machine_write(p, v, 4); }

static void *map(void)
{
	void *p = aligned_alloc(0x100000, 0x100000);
	memset(p, 0, 0x100000);
	return p;
}
void *pci_ioremap_bar(void *d, int b) { return map(); }
void *ioremap(unsigned long a, unsigned long n) { return map(); }
void *pci_iomap(void *d, int b, unsigned long n) { return map(); }
void *dma_alloc_attrs(void *d, size_t n, uint64_t *h, int f, unsigned long a)
{
	*h = 0x100000;
	return calloc(1, n + 64);
}
static char a_resource[256];
void *__request_region(void *p, uint64_t a, uint64_t n, const char *s, int f)
{
	return a_resource;
}
void *__kmalloc(size_t n, unsigned f) { return calloc(1, n + 1024); }
void *__kmalloc_node(size_t n, unsigned f) { return calloc(1, n + 64); }
void *kmalloc_trace(void *c, unsigned f, size_t n) { return calloc(1, n + 64); }
void *kmem_cache_alloc_trace(void *c, unsigned f, size_t n) { return calloc(1, n + 64); }
void *kmalloc_large(size_t n, unsigned f) { return calloc(1, n + 64); }
void *kmalloc_order(size_t n, unsigned f, unsigned o) { return calloc(1, n + 64); }
void *kmalloc_order_trace(size_t n, unsigned f, unsigned o) { return calloc(1, n + 64); }
void *kmemdup(const void *p, size_t n, unsigned f) { return memcpy(calloc(1, n + 64), p, n); }
void *vzalloc(size_t n) { return calloc(1, n + 64); }
void *vmalloc(size_t n) { return calloc(1, n + 64); }
void *devm_kmalloc(void *d, size_t n, unsigned f) { return calloc(1, n + 64); }
void *usb_alloc_urb(int n, unsigned f) { return calloc(1, 4096); }
void *usb_alloc_coherent(void *d, size_t n, unsigned f, uint64_t *h) { *h = 0; return calloc(1, n + 64); }
void *get_device(void *d) { return d; }
void kfree(const void *p) { }
void vfree(const void *p) { }
void *comedi_usb_none(void) { return 0; }
void *__alloc_workqueue(void) { return calloc(1, 64); }
long IS_ERR_value(long x) { return x; }
size_t strlcpy(char *d, const char *s, size_t n)
{
	size_t l = strlen(s);
	if (n) {
		size_t k = l < n ? l : n - 1;
		memcpy(d, s, k);
		d[k] = 0;
	}
	return l;
}
size_t strscpy(char *d, const char *s, size_t n) { return strlcpy(d, s, n); }
#define SAY(name, ...) \
	int name(__VA_ARGS__, const char *fmt, ...) \
	{ \
		if (verbose) { va_list a; va_start(a, fmt); fprintf(stderr, #name ": "); vfprintf(stderr, fmt, a); va_end(a); } \
		return 0; \
	}
SAY(_dev_err, void *d)
SAY(_dev_warn, void *d)
SAY(_dev_info, void *d)
SAY(_dev_notice, void *d)
int _printk(const char *fmt, ...)
{
	if (verbose) { va_list a; va_start(a, fmt); vfprintf(stderr, fmt, a); va_end(a); }
	return 0;
}

int main(int argc, char **argv)
{
	struct itimerval t = { { 0, 1000 }, { 0, 1000 } };
	int ret;

	verbose = getenv("MACHINE_VERBOSE") ? atoi(getenv("MACHINE_VERBOSE")) : 0;
	toggling = getenv("MACHINE_TOGGLE") != 0;
	setup();
	signal(SIGSEGV, crash);
	signal(SIGILL, crash);
	signal(SIGBUS, crash);
	signal(SIGFPE, crash);
	signal(SIGALRM, tick);
	setitimer(ITIMER_REAL, &t, 0);
	if (argc == 2 && !strcmp(argv[1], "list")) {
		list_entries();
		return 0;
	}
	if (argc < 3)
		return 2;
	ret = attach(argv[2], argc > 3 ? argv[3] : "");
	/* the clock is only needed while attaching */
	memset(&t, 0, sizeof(t));
	setitimer(ITIMER_REAL, &t, 0);
	if (ret < 0) {
		printf("attach %d\n", ret);
		return 1;
	}
	setvbuf(stdout, 0, _IOFBF, 1 << 16);
	if (!strcmp(argv[1], "dump"))
		describe();
	else
		answer_tests();
	return 0;
}
