// SPDX-License-Identifier: GPL-2.0
/*
 * The board of mbx: its timer at level 6, its serial line at level 4 as a console, its abort key at level 7, its power
 * switch, and its disk, where it has one. It takes the place of the kernel's virtual machine "virt", whose transparent
 * map of the last 16 MiB makes the registers of the devices stand at their own addresses.
 */
#include <linux/blkdev.h>
#include <linux/init.h>
#include <linux/interrupt.h>
#include <linux/reboot.h>
#include <linux/sched/debug.h>
#include <linux/uaccess.h>
#include <asm/bootinfo.h>
#include <asm/config.h>
#include <asm/irq.h>
#include <asm/irq_regs.h>
#include <asm/machdep.h>
#include "../../../drivers/tty/hvc/hvc_console.h"

#define BYTE_AT(offset) (*(volatile u8 *)(0xFFF00000 + (offset)))
#define LONG_AT(offset) (*(volatile u32 *)(0xFFF00000 + (offset)))

#define LINE_DATA BYTE_AT(0x00)
#define LINE_STATUS BYTE_AT(0x01)
#define LINE_CONTROL BYTE_AT(0x02)
#define TIMER_PERIOD LONG_AT(0x10)
#define TIMER_ACKNOWLEDGE LONG_AT(0x18)
#define POWER LONG_AT(0x20)
#define DISK_BLOCKS LONG_AT(0x30)
#define DISK_BLOCK LONG_AT(0x34)
#define DISK_COMMAND LONG_AT(0x38)
#define DISK_DATA LONG_AT(0x3C)

enum { LINE_RECEIVED = 1, DISK_LOAD = 1, DISK_STORE = 2 };

/* As many steps make a second. */
#define STEPS_A_SECOND 10000000

/* ---- The timer. */

static irqreturn_t timer_ticked(int irq, void *device)
{
	TIMER_ACKNOWLEDGE = 0;
	legacy_timer_tick(1);
	return IRQ_HANDLED;
}

static void __init start_timer(void)
{
	if (request_irq(IRQ_AUTO_6, timer_ticked, IRQF_TIMER, "timer", NULL))
		pr_err("board: no timer\n");
	TIMER_PERIOD = STEPS_A_SECOND / HZ;
}

/* ---- The abort key. */

static irqreturn_t abort_pressed(int irq, void *device)
{
	show_regs(get_irq_regs());
	return IRQ_HANDLED;
}

static void __init start_interrupts(void)
{
	if (request_irq(IRQ_AUTO_7, abort_pressed, 0, "abort", NULL))
		pr_err("board: no abort key\n");
}

/* ---- The power switch. */

static void power_off(void)
{
	POWER = 1;
}

/* ---- The serial line. It asks for its interrupt until its queue is empty, so what has come is taken at once. */

static u8 received[256];
static unsigned int received_first, received_end;

static irqreturn_t line_received(int irq, void *device)
{
	while (LINE_STATUS & LINE_RECEIVED) {
		u8 byte = LINE_DATA;

		if (received_end - received_first < sizeof(received))
			received[received_end++ % sizeof(received)] = byte;
	}
	if (hvc_poll(device))
		hvc_kick();
	return IRQ_HANDLED;
}

static int line_get(u32 terminal, char *bytes, int count)
{
	int n = 0;

	while (n < count && received_first != received_end)
		bytes[n++] = received[received_first++ % sizeof(received)];
	return n;
}

static int line_put(u32 terminal, const char *bytes, int count)
{
	int n;

	for (n = 0; n < count; n++)
		LINE_DATA = bytes[n];
	return count;
}

static int line_open(struct hvc_struct *console, int irq)
{
	int fault = request_irq(irq, line_received, 0, "line", console);

	console->irq_requested = !fault;
	LINE_CONTROL = !fault;
	return fault;
}

static void line_close(struct hvc_struct *console, int irq)
{
	LINE_CONTROL = 0;
	if (console->irq_requested)
		free_irq(irq, console);
	console->irq_requested = 0;
}

static const struct hv_ops line = {
	.get_chars = line_get,
	.put_chars = line_put,
	.notifier_add = line_open,
	.notifier_del = line_close,
	.notifier_hangup = line_close,
};

static int __init start_console(void)
{
	return hvc_instantiate(0, 0, &line);
}
console_initcall(start_console);

static int __init start_line(void)
{
	return PTR_ERR_OR_ZERO(hvc_alloc(0, IRQ_AUTO_4, &line, 256));
}
device_initcall(start_line);

/* ---- The disk. A command moves a block between the disk and its buffer, which is read and written by longs. */

static void move_block(sector_t block, u32 *data, bool is_write)
{
	int n;

	DISK_BLOCK = block;
	DISK_COMMAND = DISK_LOAD;
	for (n = 0; n < SECTOR_SIZE / sizeof(u32); n++) {
		if (is_write)
			DISK_DATA = data[n];
		else
			data[n] = DISK_DATA;
	}
	if (is_write)
		DISK_COMMAND = DISK_STORE;
}

static void disk_submit(struct bio *bio)
{
	static DEFINE_SPINLOCK(lock);
	struct bio_vec part;
	struct bvec_iter at;

	bio_for_each_segment(part, bio, at) {
		sector_t block = at.bi_sector;
		void *data = bvec_virt(&part), *end = data + part.bv_len;

		spin_lock(&lock);
		for (; data < end; data += SECTOR_SIZE)
			move_block(block++, data, bio_data_dir(bio) == WRITE);
		spin_unlock(&lock);
	}
	bio_endio(bio);
}

static const struct block_device_operations disk_operations = {
	.owner = THIS_MODULE,
	.submit_bio = disk_submit,
};

static int __init start_disk(void)
{
	struct gendisk *disk;
	u32 blocks;

	/* Without a disk its registers do not answer. */
	if (get_kernel_nofault(blocks, (u32 *)&DISK_BLOCKS))
		return 0;
	disk = blk_alloc_disk(NUMA_NO_NODE);
	if (!disk)
		return -ENOMEM;
	disk->major = register_blkdev(0, "disk");
	disk->minors = 1;
	disk->flags = GENHD_FL_NO_PART;
	disk->fops = &disk_operations;
	strscpy(disk->disk_name, "disk", DISK_NAME_LEN);
	set_capacity(disk, blocks);
	pr_info("board: a disk of %u blocks\n", blocks);
	return add_disk(disk);
}
device_initcall(start_disk);

/* ---- The machine. */

static void get_model(char *model)
{
	strcpy(model, "mbx");
}

int __init virt_parse_bootinfo(const struct bi_record *record)
{
	return 1;
}

void __init config_virt(void)
{
	mach_init_IRQ = start_interrupts;
	mach_sched_init = start_timer;
	mach_get_model = get_model;
	mach_reset = power_off;
	mach_halt = power_off;
	register_platform_power_off(power_off);
}
