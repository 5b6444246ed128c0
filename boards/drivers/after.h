/* After linux/io.h: every access to ports and registers goes to the harness. */
#ifndef AFTER_H
#define AFTER_H
extern unsigned int machine_in(unsigned long port, int size);
extern void machine_out(unsigned long port, unsigned int v, int size);
extern unsigned long machine_read(const volatile void *p, int size);
extern void machine_write(volatile void *p, unsigned long v, int size);
#undef inb
#undef inw
#undef inl
#undef outb
#undef outw
#undef outl
#undef inb_p
#undef inw_p
#undef inl_p
#undef outb_p
#undef outw_p
#undef outl_p
#undef insb
#undef insw
#undef insl
#undef outsb
#undef outsw
#undef outsl
#define inb(p) ((u8)machine_in(p, 1))
#define inw(p) ((u16)machine_in(p, 2))
#define inl(p) ((u32)machine_in(p, 4))
#define outb(v, p) machine_out(p, v, 1)
#define outw(v, p) machine_out(p, v, 2)
#define outl(v, p) machine_out(p, v, 4)
#define inb_p inb
#define inw_p inw
#define inl_p inl
#define outb_p outb
#define outw_p outw
#define outl_p outl
#define insb(p, a, n) ((void)(a))
#define insw(p, a, n) ((void)(a))
#define insl(p, a, n) ((void)(a))
#define outsb(p, a, n) ((void)(a))
#define outsw(p, a, n) ((void)(a))
#define outsl(p, a, n) ((void)(a))
#undef readb
#undef readw
#undef readl
#undef readq
#undef writeb
#undef writew
#undef writel
#undef writeq
#define readb(p) ((u8)machine_read(p, 1))
#define readw(p) ((u16)machine_read(p, 2))
#define readl(p) ((u32)machine_read(p, 4))
#define readq(p) ((u64)machine_read(p, 8))
#define writeb(v, p) machine_write(p, v, 1)
#define writew(v, p) machine_write(p, v, 2)
#define writel(v, p) machine_write(p, v, 4)
#define writeq(v, p) machine_write(p, v, 8)
#endif
