/* SPDX-License-Identifier: Apache-2.0 OR BSD-3-Clause */
/* What a driver that polls is to its exchanges, and they to it. It includes nothing, so a driver may have any types. */
enum { COM1 = 0x3f8, MOST = 16 };

/* The driver's test of the port and its set-up. 0 if it finds no port. */
int set_up(void);
/* It gets ready again, such as for other settings. */
void set_up_again(void);
/* It looks for bytes, and gives some of those that are there, at most MOST. */
unsigned poll_for(unsigned char *bytes);
/* So many bytes it has read and not given yet. */
unsigned held(void);
void send(const unsigned char *bytes, unsigned count);

unsigned choose(unsigned bound); /* any number below */
unsigned char inb(unsigned long address);
void outb(unsigned char value, unsigned long address);

/* At addresses of other ports nothing answers. */
static inline int is_here(unsigned long address) { return address >= COM1 && address < COM1 + 8; }
static inline unsigned char read_port(unsigned long address) { return is_here(address) ? inb(address) : 0xff; }
static inline void write_port(unsigned char value, unsigned long address) {
    if (is_here(address))
        outb(value, address);
}
