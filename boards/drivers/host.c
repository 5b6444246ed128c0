/* The kernel side of the harness: Comedi's own drivers.c, a fake bus, and the
 * calls of do_cmdtest. It is compiled with the kernel's headers. */
#define comedi_load_firmware comedi_load_firmware_real
#define comedi_driver_register comedi_driver_register_real
#include "drivers.c"
#undef comedi_load_firmware
#undef comedi_driver_register
#include <linux/usb.h>
#include <pcmcia/cistpl.h>
#include <pcmcia/ds.h>

extern int printf(const char *, ...);
extern int scanf(const char *, ...);
extern void *calloc(unsigned long, unsigned long);
extern int init_module(void);
extern long strtol(const char *, char **, int);
extern int fflush(void *);
/* calls f; 99 where it crashes (a division by 0 in the driver) */
extern int guarded(int (*f)(struct comedi_device *, struct comedi_subdevice *, struct comedi_cmd *),
		   struct comedi_device *, struct comedi_subdevice *, struct comedi_cmd *);
extern char *getenv(const char *);

static struct comedi_driver *drv;
static struct pci_driver *pcidrv;
static struct usb_driver *usbdrv;
static struct pcmcia_driver *cardrv;

int comedi_driver_register(struct comedi_driver *d)
{
	drv = d;
	return 0;
}
int __pci_register_driver(struct pci_driver *d, struct module *m, const char *n)
{
	pcidrv = d;
	return 0;
}
int comedi_usb_driver_register(struct comedi_driver *c, struct usb_driver *d)
{
	drv = c;
	usbdrv = d;
	return 0;
}
int comedi_pcmcia_driver_register(struct comedi_driver *c, struct pcmcia_driver *d)
{
	drv = c;
	cardrv = d;
	return 0;
}
struct pcmcia_device *comedi_to_pcmcia_dev(struct comedi_device *dev)
{
	return dev->hw_dev ? to_pcmcia_dev(dev->hw_dev) : NULL;
}
int comedi_pcmcia_enable(struct comedi_device *dev, int (*f)(struct pcmcia_device *, void *))
{
	return 0;
}
struct usb_interface *comedi_to_usb_interface(struct comedi_device *dev)
{
	return dev->hw_dev ? to_usb_interface(dev->hw_dev) : NULL;
}
struct usb_device *comedi_to_usb_dev(struct comedi_device *dev)
{
	struct usb_interface *intf = comedi_to_usb_interface(dev);

	return intf ? interface_to_usbdev(intf) : NULL;
}
int comedi_load_firmware(struct comedi_device *dev, struct device *hw, const char *name,
			 int (*cb)(struct comedi_device *, const u8 *, size_t, unsigned long),
			 unsigned long ctx)
{
	return 0;
}
int comedi_alloc_subdevice_minor(struct comedi_subdevice *s) { return 0; }
int comedi_buf_alloc(struct comedi_device *d, struct comedi_subdevice *s, unsigned long n)
{
	s->buf_change = NULL;	/* DMA rings of the buffer */
	s->async->prealloc_buf = calloc(1, 65536);
	s->async->prealloc_bufsz = 65536;
	return 0;
}

void *comedi_alloc_spriv(struct comedi_subdevice *s, size_t n)
{
	return s->private = calloc(1, n + 64);
}

static struct comedi_device *the_dev;

void list_entries(void)
{
	init_module();
	if (!drv) {
		printf("nodriver\n");
		return;
	}
	printf("driver %s\n", drv->driver_name);
	if (drv->attach) {
		if (drv->num_names) {
			for (int i = 0; i < drv->num_names; i++) {
				const char **p = (void *)drv->board_name + i * drv->offset;

				printf("legacy:%d %s\n", i, *p);
			}
		} else {
			printf("legacy:-1 %s\n", drv->driver_name);
		}
	}
	if (pcidrv)
		for (int i = 0; pcidrv->id_table[i].vendor; i++)
			printf("pci:%d %04x:%04x:%lu\n", i, pcidrv->id_table[i].vendor,
			       pcidrv->id_table[i].device, (long)pcidrv->id_table[i].driver_data);
	if (usbdrv)
		for (int i = 0; usbdrv->id_table[i].match_flags; i++)
			printf("usb:%d %04x:%04x:%lu\n", i, usbdrv->id_table[i].idVendor,
			       usbdrv->id_table[i].idProduct, (long)usbdrv->id_table[i].driver_info);
	if (cardrv)
		for (int i = 0; cardrv->id_table[i].match_flags; i++)
			printf("card:%d %04x:%04x\n", i, cardrv->id_table[i].manf_id,
			       cardrv->id_table[i].card_id);
}

/* Attaches a board of the ISA bus by its name in the driver's table and options of comedi_config. */
static int attach_legacy(struct comedi_device *dev, int n, const char *options)
{
	struct comedi_devconfig it;
	char *end;

	memset(&it, 0, sizeof(it));
	for (int i = 0; *options && i < COMEDI_NDEVCONFOPTS; i++) {
		it.options[i] = strtol(options, &end, 0);
		options = *end == ',' ? end + 1 : end;
	}
	if (n >= 0) {
		dev->board_ptr = (void *)drv->board_name + n * drv->offset;
		dev->board_name = *(const char **)dev->board_ptr;
	}
	strlcpy(it.board_name, dev->board_name, sizeof(it.board_name));
	return drv->attach(dev, &it);
}

/* A PCI board of an entry, with an interrupt and six resources. */
static unsigned long fake_pci(struct comedi_device *dev, const struct pci_device_id *id)
{
	struct pci_dev *p = calloc(1, sizeof(*p) + 4096);

	p->bus = calloc(1, sizeof(struct pci_bus));
	p->vendor = id->vendor;
	p->device = id->device;
	p->subsystem_vendor = id->subvendor == PCI_ANY_ID ? 0 : id->subvendor;
	p->subsystem_device = id->subdevice == PCI_ANY_ID ? 0 : id->subdevice;
	p->irq = 5;
	for (int i = 0; i < 6; i++) {
		p->resource[i].start = 0x10000 * (i + 1);
		p->resource[i].end = 0x10000 * (i + 1) + 0xffff;
		p->resource[i].flags = getenv("MACHINE_IO") ? IORESOURCE_IO : IORESOURCE_MEM;
	}
	dev->hw_dev = &p->dev;
	return id->driver_data;
}

/* Eight endpoints, of which four move blocks, in and out in turn. */
static void fake_endpoints(struct usb_host_interface *h)
{
	h->desc.bNumEndpoints = 8;
	h->endpoint = calloc(8, sizeof(*h->endpoint));
	for (int i = 0; i < 8; i++) {
		struct usb_endpoint_descriptor *e = &h->endpoint[i].desc;

		e->bEndpointAddress = (i % 2 ? 0x80 : 0) | (i + 1);
		e->bmAttributes = i < 4 ? USB_ENDPOINT_XFER_BULK : USB_ENDPOINT_XFER_INT;
		e->wMaxPacketSize = 512;
	}
}

/* A USB board of an entry, of high speed. */
static unsigned long fake_usb(struct comedi_device *dev, const struct usb_device_id *id)
{
	struct usb_device *u = calloc(1, sizeof(*u));
	struct usb_interface *f = calloc(1, sizeof(*f));

	f->altsetting = calloc(8, sizeof(*f->altsetting));
	for (int i = 0; i < 8; i++)
		fake_endpoints(&f->altsetting[i]);
	f->num_altsetting = 8;
	f->cur_altsetting = &f->altsetting[0];
	f->dev.parent = &u->dev;
	u->speed = USB_SPEED_HIGH;
	u->descriptor.idVendor = cpu_to_le16(id->idVendor);
	u->descriptor.idProduct = cpu_to_le16(id->idProduct);
	dev->hw_dev = &f->dev;
	return id->driver_info;
}

/* A PCMCIA card of an entry. */
static unsigned long fake_card(struct comedi_device *dev, const struct pcmcia_device_id *id)
{
	struct pcmcia_device *c = calloc(1, sizeof(*c) + 4096);

	for (int i = 0; i < PCMCIA_NUM_RESOURCES; i++) {
		c->resource[i] = calloc(1, sizeof(struct resource));
		c->resource[i]->start = 0x300;
		c->resource[i]->end = 0x33f;
	}
	c->irq = 5;
	c->manf_id = id->manf_id;
	c->card_id = id->card_id;
	dev->hw_dev = &c->dev;
	return 0;
}

/* Attaches the board of an entry, and answers a negative number where that fails. */
int attach(const char *entry, const char *options)
{
	struct comedi_device *dev = calloc(1, sizeof(*dev));
	int n = strtol(strchr(entry, ':') + 1, 0, 10), ret;

	init_module();
	if (!drv)
		return -1000;
	dev->class_dev = calloc(1, sizeof(struct device));
	dev->driver = drv;
	dev->board_name = drv->driver_name;
	spin_lock_init(&dev->spinlock);
	the_dev = dev;
	if (entry[0] == 'l')
		ret = attach_legacy(dev, n, options);
	else if (!drv->auto_attach)
		ret = -1001;
	else
		ret = drv->auto_attach(dev, entry[0] == 'p' ? fake_pci(dev, &pcidrv->id_table[n]) :
				       entry[0] == 'u' ? fake_usb(dev, &usbdrv->id_table[n]) :
							 fake_card(dev, &cardrv->id_table[n]));
	return ret < 0 ? ret : comedi_device_postconfig(dev);
}

static const char *const kinds[] = { "unused", "ai", "ao", "di", "do", "dio", "counter", "timer",
	"memory", "calib", "proc", "serial", "pwm" };

static void ranges(const struct comedi_lrange *r)
{
	printf(" %d", r ? r->length : 0);
	for (int i = 0; r && i < r->length; i++)
		printf(" %d,%d,%u", r->range[i].min, r->range[i].max, r->range[i].flags);
}

/* What a subdevice says of each channel, where channels differ. */
static void describe_channels(struct comedi_subdevice *s, int n)
{
	if (!s->maxdata_list && !s->range_table_list)
		return;
	for (int c = 0; c < s->n_chan; c++) {
		printf("chan %d %d maxdata %u ranges", n, c, s->maxdata_list ? s->maxdata_list[c] : s->maxdata);
		ranges(s->range_table_list ? s->range_table_list[c] : s->range_table);
		printf("\n");
	}
}

/* What its munge makes of some words, in each range: one bit each, none, and all. */
static void describe_munge(struct comedi_device *dev, struct comedi_subdevice *s, int n)
{
	static unsigned int list[256];
	int wide = s->subdev_flags & SDF_LSAMPL ? 4 : 2;

	if (!s->munge || !s->async)
		return;
	for (int r = 0; r < (s->range_table ? s->range_table->length : 1); r++) {
		union { u16 half[64]; u32 whole[32]; } words = { { 0 } };

		for (int k = 0; k < 256; k++)
			list[k] = CR_PACK(0, r, 0);
		memset(&s->async->cmd, 0, sizeof(s->async->cmd));
		s->async->cmd.chanlist = list;
		s->async->cmd.chanlist_len = 16;
		for (int k = 0; k < 16; k++) {
			unsigned int v = k == 15 ? 0xffffffff : k == 14 ? 0 : 1u << k;

			if (wide == 4)
				words.whole[k] = v;
			else
				words.half[k] = v;
		}
		s->munge(dev, s, &words, 16 * wide, 0);
		printf("munge %d range %d:", n, r);
		for (int k = 0; k < 16; k++)
			printf(" %x", wide == 4 ? words.whole[k] : words.half[k]);
		printf("\n");
	}
}

/* The board's name, and a line for each subdevice, with those about its channels and its munge. */
void describe(void)
{
	struct comedi_device *dev = the_dev;

	printf("name %s\n", dev->board_name ? dev->board_name : "?");
	for (int i = 0; i < dev->n_subdevices; i++) {
		struct comedi_subdevice *s = &dev->subdevices[i];

		printf("sub %d %s nchan %d maxdata %u list %d flags %x cmd %d %c lists %d %d ranges", i,
		       s->type < 13 ? kinds[s->type] : "?", s->n_chan, s->maxdata, s->len_chanlist, s->subdev_flags,
		       s->do_cmd && s->do_cmdtest && s->async, s->munge ? 'm' : '-', s->maxdata_list != 0,
		       s->range_table_list != 0);
		if (s->type != COMEDI_SUBD_UNUSED)
			ranges(s->range_table_list ? s->range_table_list[0] : s->range_table);
		printf("\n");
		if (s->type == COMEDI_SUBD_UNUSED)
			continue;
		describe_channels(s, i);
		describe_munge(dev, s, i);
	}
}

static void show(int step, struct comedi_cmd *c)
{
	printf("%d %u %u %u %u %u %u %u %u %u %u %u %u", step, c->flags, c->start_src, c->start_arg,
	       c->scan_begin_src, c->scan_begin_arg, c->convert_src, c->convert_arg, c->scan_end_src,
	       c->scan_end_arg, c->stop_src, c->stop_arg, c->chanlist_len);
}

/* Whether the kernel's core hands a list to the driver. */
static int core_takes(struct comedi_subdevice *s, unsigned int length, unsigned int *list)
{
	return length <= s->len_chanlist && !comedi_check_chanlist(s, length, list);
}

/* Answers a command: the core's errno for the list (0 or 22), the first answer and the last of at most ten repeated
 * tests, and how many there were. A list that is too long isn't shown to the driver: its step is -1. */
static void answer_test(struct comedi_subdevice *s, struct comedi_cmd *c, unsigned int *list)
{
	int core = core_takes(s, c->chanlist_len, list) ? 0 : 22, n = 0;
	int step = c->chanlist_len > s->len_chanlist ? -1 : 0;

	c->chanlist = core ? NULL : list;
	if (!step)
		step = guarded(s->do_cmdtest, the_dev, s, c);
	printf("%d ", core);
	show(step, c);
	while (step > 0 && step < 5 && n < 10) {
		step = guarded(s->do_cmdtest, the_dev, s, c);
		n++;
	}
	printf(" ");
	show(step, c);
	printf(" %d\n", n);
}

/* Answers the commands on standard input, a line each: SUB FLAGS and ten numbers (source and argument of each trigger),
 * the length of the list and so many entries. */
void answer_tests(void)
{
	static unsigned int list[65536];
	struct comedi_cmd c;
	int sub;

	memset(&c, 0, sizeof(c));
	while (scanf("%d %u %u %u %u %u %u %u %u %u %u %u %u", &sub, &c.flags, &c.start_src, &c.start_arg,
		     &c.scan_begin_src, &c.scan_begin_arg, &c.convert_src, &c.convert_arg, &c.scan_end_src,
		     &c.scan_end_arg, &c.stop_src, &c.stop_arg, &c.chanlist_len) == 13) {
		for (int i = 0; i < c.chanlist_len; i++)
			scanf("%u", &list[i]);
		c.subdev = sub;
		answer_test(&the_dev->subdevices[sub], &c, list);
	}
}
