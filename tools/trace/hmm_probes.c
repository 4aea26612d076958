// SPDX-License-Identifier: GPL-2.0
// Records what a driver does with interval notifiers, hmm_range_fault and migrate_vma: one line for each event, in the
// language of docs/TRACE.md. Read hmm_probes/trace in debugfs; what is written to it, whatever it is, clears it.
//
// The kernel and the driver are used as they are: each event is seen by a probe of a function (kprobes). An event's
// number comes from one counter, in the probe, so numbers say the order in which the probes were passed.
//
// A function that a parameter names must be there, and so must the memory manager's: else the module is not loaded.
#include <linux/atomic.h>
#include <linux/debugfs.h>
#include <linux/hash.h>
#include <linux/hmm.h>
#include <linux/kprobes.h>
#include <linux/memremap.h>
#include <linux/migrate.h>
#include <linux/mm.h>
#include <linux/mmu_notifier.h>
#include <linux/module.h>
#include <linux/rcupdate.h>
#include <linux/seq_file.h>
#include <linux/uaccess.h>
#include <linux/vmalloc.h>

static uint size = 1 << 17;
module_param(size, uint, 0444);
MODULE_PARM_DESC(size, "events that there is room for, 80 bytes each; later ones are only counted");
static char *callback[4];
static int callbacks;
module_param_array(callback, charp, &callbacks, 0444);
MODULE_PARM_DESC(callback, "the driver's invalidate callbacks; intervals with other callbacks are not recorded");
static char *set = "", *erase = "", *reads = "", *writes = "", *takes = "", *frees = "", *withdraws = "";
static char *fetches = "", *adds = "";
module_param(set, charp, 0444);
MODULE_PARM_DESC(set, "a function (table, page number, entry) that sets an entry of the driver's table");
module_param(erase, charp, 0444);
MODULE_PARM_DESC(erase, "a function (table, page number) that erases one");
module_param(reads, charp, 0444);
MODULE_PARM_DESC(reads, "a function (object, start, end) that reads through the table, and returns 0 if it read all");
module_param(writes, charp, 0444);
MODULE_PARM_DESC(writes, "the same for writes");
module_param(takes, charp, 0444);
MODULE_PARM_DESC(takes, "a function that gives a frame of the device out: returns its struct page, or NULL");
module_param(frees, charp, 0444);
MODULE_PARM_DESC(frees, "the driver's page_free (struct page): a frame of its memory is free again");
module_param(withdraws, charp, 0444);
MODULE_PARM_DESC(withdraws, "a function (struct dev_pagemap) after which that device gives out no frame any more");
module_param(fetches, charp, 0444);
MODULE_PARM_DESC(fetches, "a function (object, address) that reads a page for one actor alone, and returns 0 if it did");
module_param(adds, charp, 0444);
MODULE_PARM_DESC(adds, "the same that writes the sum there");
static bool model;
module_param(model, bool, 0444);
MODULE_PARM_DESC(model, "the driver is to keep set-unless-invalidated and exclusive-waits, too");
static long table, object, owner;
module_param(table, long, 0444);
MODULE_PARM_DESC(table, "the notifier's address less that of the table which `set` and `erase` are given");
module_param(object, long, 0444);
MODULE_PARM_DESC(object, "the notifier's address less that of the object which `reads` and `writes` are given");
module_param(owner, long, 0444);
MODULE_PARM_DESC(owner, "the notifier's address less that of a pointer to the owner of the driver's device memory");
static ulong tag_mask = 3, tag_write = 3, tag_sole = 1;
module_param(tag_mask, ulong, 0444);
MODULE_PARM_DESC(tag_mask, "an entry is a struct page's address with these bits beside it");
module_param(tag_write, ulong, 0444);
MODULE_PARM_DESC(tag_write, "what they are in an entry for writes");
module_param(tag_sole, ulong, 0444);
MODULE_PARM_DESC(tag_sole, "what they are in an entry for one actor alone; all others are for reads");

// docs/TRACE.md has a word for each of these, in the kernel's order
static_assert(MMU_NOTIFY_UNMAP == 0 && MMU_NOTIFY_CLEAR == 1 && MMU_NOTIFY_PROTECTION_VMA == 2 &&
	      MMU_NOTIFY_PROTECTION_PAGE == 3 && MMU_NOTIFY_SOFT_DIRTY == 4 && MMU_NOTIFY_RELEASE == 5 &&
	      MMU_NOTIFY_MIGRATE == 6 && MMU_NOTIFY_EXCLUSIVE == 7);
static const char * const reasons[] = { "unmap", "clear", "protect_vma", "protect_page", "soft_dirty", "release",
	"migrate", "exclusive" };

enum word { INSERT, INSERTED, REMOVE, REMOVED, START, END, TELL, TOLD, BEGIN, WALK, FOUND, WALKED, SET, ERASE, USE,
	SETUP, FROM, READY, MOVED, STAYED, PAGES, FINALIZE, TAKE, FREE, WITHDRAW, GONE, PASS, FETCH, ADD };
static const char * const words[] = { "insert", "inserted", "remove", "removed", "start", "end", "tell", "told",
	"begin", "walk", "found", "walked", "set", "erase", "use", "setup", "from", "ready", "moved", "stayed", "pages",
	"finalize", "take", "free", "withdraw", "gone", "pass", "fetch", "add" };

enum kind { NONE, ZERO, SYSTEM, PRIVATE, COHERENT };
struct frame { u8 kind; int owner; unsigned long number; };
static const struct frame no_frame;

// ---- events

struct event {			// `is_written` is set last
	u8 word, is_written, what;	// what: a right, a reason, a way, or whether it is so
	int m, p, d;			// an interval, an address space, a device: -1 if there is none
	u32 thread;
	unsigned long a, b, seq;	// a page and a count of pages; a sequence
	struct frame frame;
};
static struct event *events;
static atomic64_t next = ATOMIC64_INIT(0);	// the next event's number
static bool is_on;
static atomic_t odd = ATOMIC_INIT(0);		// calls that have no event, though the language would have one
static atomic_t under_way = ATOMIC_INIT(0);	// intervals that are there, and migrations

// One event more. Without room it is only counted.
static void add(struct event e)
{
	u64 at;

	if (!READ_ONCE(is_on))
		return;
	at = atomic64_inc_return(&next) - 1;
	if (at >= size)
		return;
	e.thread = current->pid;
	e.is_written = 0;
	events[at] = e;
	smp_store_release(&events[at].is_written, 1);
}

// the pages from an address up to another
#define SPAN(start, end) .a = (start) >> PAGE_SHIFT, .b = ((end) - (start)) >> PAGE_SHIFT

// ---- small numbers for pointers

// The same pointer has the same number, for good: an interval that comes again at an address says `insert` anew. A
// pointer that is forgotten has the complement of its number, until it is named again.
#define BITS 13
struct slot { void *of; int number; };
struct names { int count; struct slot slots[1 << BITS]; };
static struct names intervals, spaces, owners;
static DEFINE_RAW_SPINLOCK(naming);

// the slot of a pointer, or the free one in which it would be
static struct slot *slot_of(struct names *n, void *x)
{
	unsigned int i = hash_ptr(x, BITS);
	void *y;

	while ((y = smp_load_acquire(&n->slots[i].of)) && y != x)
		i = (i + 1) % (1 << BITS);
	return n->slots + i;
}

// the number of a pointer, or one below 0
static int known(struct names *n, void *x)
{
	struct slot *s = slot_of(n, x);

	return x && s->of == x ? READ_ONCE(s->number) : -1;
}

// the same; a new pointer gets the next number, while a half of the slots is free
static int name(struct names *n, void *x)
{
	int number = known(n, x);
	unsigned long flags;
	struct slot *s;

	if (number >= 0 || !x)
		return number;
	raw_spin_lock_irqsave(&naming, flags);
	s = slot_of(n, x);
	if (s->of) {
		number = s->number < 0 ? ~s->number : s->number;
		WRITE_ONCE(s->number, number);
	} else if (n->count < 1 << (BITS - 1)) {
		s->number = number = n->count++;
		smp_store_release(&s->of, x);
	}
	raw_spin_unlock_irqrestore(&naming, flags);
	if (number < 0)
		atomic_inc(&odd);
	return number;
}

// nothing more is recorded of a pointer
static void forget(struct names *n, void *x)
{
	struct slot *s = slot_of(n, x);
	unsigned long flags;

	raw_spin_lock_irqsave(&naming, flags);
	if (s->of == x && s->number >= 0)
		WRITE_ONCE(s->number, ~s->number);
	raw_spin_unlock_irqrestore(&naming, flags);
}

// the frame that a page is
static struct frame frame_of(struct page *page)
{
	if (!page)
		return no_frame;
	if (is_zero_pfn(page_to_pfn(page)))
		return (struct frame){ .kind = ZERO };
	if (is_device_private_page(page) || is_device_coherent_page(page))
		return (struct frame){ .kind = is_device_private_page(page) ? PRIVATE : COHERENT,
				       .owner = name(&owners, page->pgmap->owner), .number = page_to_pfn(page) };
	return (struct frame){ .kind = SYSTEM, .number = page_to_pfn(page) };
}

// ---- probes. What a function was given is kept until it returns.

struct kept { void *x; unsigned long start, end; };
#define KEPT(i) ((struct kept *)(i)->data)
#define GIVEN(n) regs_get_kernel_argument(regs, n)

// mmu_interval_notifier_insert (interval, address space, start, length, operations): an interval is recorded if its
// callback has one of the names
static int insert_in(struct kretprobe_instance *i, struct pt_regs *regs)
{
	struct mmu_interval_notifier_ops *ops = (void *)GIVEN(4);
	unsigned long start = GIVEN(2);
	char text[KSYM_SYMBOL_LEN];
	bool is_recorded = false;
	void *of = NULL;
	int n, m;

	snprintf(text, sizeof(text), "%ps", ops->invalidate);
	text[strcspn(text, " ")] = 0;		// a module's name may follow
	for (n = 0; n < callbacks; n++)
		is_recorded |= !strcmp(text, callback[n]);
	if (!is_recorded) {
		forget(&intervals, (void *)GIVEN(0));	// one that was recorded may have been at this address
		return 1;
	}
	m = name(&intervals, (void *)GIVEN(0));
	if (m < 0)
		return 1;
	KEPT(i)->x = (void *)GIVEN(0);
	if (owner && get_kernel_nofault(of, (void **)(KEPT(i)->x - owner)))
		of = NULL;
	atomic_inc(&under_way);
	add((struct event){ .word = INSERT, .m = m, .p = name(&spaces, (void *)GIVEN(1)), SPAN(start, start + GIVEN(3)),
		.d = name(&owners, of) });
	return 0;
}

static int insert_out(struct kretprobe_instance *i, struct pt_regs *regs)
{
	struct mmu_interval_notifier *mni = KEPT(i)->x;
	int failed = regs_return_value(regs);

	if (failed)
		atomic_dec(&under_way);
	add((struct event){ .word = INSERTED, .m = known(&intervals, mni), .seq = READ_ONCE(mni->invalidate_seq),
		.what = !failed });
	return 0;
}

// mmu_interval_notifier_remove (interval)
static int remove_in(struct kretprobe_instance *i, struct pt_regs *regs)
{
	int m = known(&intervals, (void *)GIVEN(0));

	KEPT(i)->x = (void *)GIVEN(0);
	if (m >= 0)
		add((struct event){ .word = REMOVE, .m = m });
	return m < 0;
}

static int remove_out(struct kretprobe_instance *i, struct pt_regs *regs)
{
	add((struct event){ .word = REMOVED, .m = known(&intervals, KEPT(i)->x) });
	atomic_dec(&under_way);
	return 0;
}

// __mmu_notifier_invalidate_range_start (range), of an address space that has had a recorded interval. The range's
// owner means something for migrations and exclusive access only: else the kernel leaves it as it was on the stack.
static int start_in(struct kprobe *probe, struct pt_regs *regs)
{
	struct mmu_notifier_range *r = (void *)GIVEN(0);
	int p = known(&spaces, r->mm);
	bool has_owner = r->event == MMU_NOTIFY_MIGRATE || r->event == MMU_NOTIFY_EXCLUSIVE;

	if (p < 0)
		return 0;
	if (r->event >= ARRAY_SIZE(reasons))
		atomic_inc(&odd);
	else
		add((struct event){ .word = START, .p = p, SPAN(r->start, r->end), .what = r->event,
			.d = has_owner ? name(&owners, r->owner) : -1 });
	return 0;
}

// __mmu_notifier_invalidate_range_end (range)
static int end_in(struct kprobe *probe, struct pt_regs *regs)
{
	struct mmu_notifier_range *r = (void *)GIVEN(0);
	int p = known(&spaces, r->mm);

	if (p >= 0)
		add((struct event){ .word = END, .p = p, SPAN(r->start, r->end) });
	return 0;
}

// the driver's callback (interval, range, sequence)
static int tell_in(struct kretprobe_instance *i, struct pt_regs *regs)
{
	struct mmu_notifier_range *r = (void *)GIVEN(1);
	int m = known(&intervals, (void *)GIVEN(0));

	KEPT(i)->x = (void *)GIVEN(0);
	if (m >= 0)
		add((struct event){ .word = TELL, .m = m, SPAN(r->start, r->end), .seq = GIVEN(2) });
	return m < 0;
}

static int tell_out(struct kretprobe_instance *i, struct pt_regs *regs)
{
	struct mmu_interval_notifier *mni = KEPT(i)->x;

	add((struct event){ .word = TOLD, .m = known(&intervals, mni), .seq = READ_ONCE(mni->invalidate_seq),
		.what = (bool)(regs_return_value(regs) & 0xff) });
	return 0;
}

// mmu_interval_read_begin (interval)
static int begin_in(struct kretprobe_instance *i, struct pt_regs *regs)
{
	KEPT(i)->x = (void *)GIVEN(0);
	return known(&intervals, KEPT(i)->x) < 0;
}

static int begin_out(struct kretprobe_instance *i, struct pt_regs *regs)
{
	add((struct event){ .word = BEGIN, .m = known(&intervals, KEPT(i)->x), .seq = regs_return_value(regs) });
	return 0;
}

// hmm_range_fault (range)
static int walk_in(struct kretprobe_instance *i, struct pt_regs *regs)
{
	struct hmm_range *r = (void *)GIVEN(0);
	int m = r->notifier ? known(&intervals, r->notifier) : -1;

	KEPT(i)->x = r;
	if (m >= 0)
		add((struct event){ .word = WALK, .m = m, SPAN(r->start, r->end), .seq = r->notifier_seq,
			.what = rwsem_is_locked(&r->notifier->mm->mmap_lock), .d = name(&owners, r->dev_private_owner) });
	return m < 0;
}

static int walk_out(struct kretprobe_instance *i, struct pt_regs *regs)
{
	struct hmm_range *r = KEPT(i)->x;
	int m = known(&intervals, r->notifier), failed = regs_return_value(regs);
	unsigned long n;

	for (n = 0; !failed && n < (r->end - r->start) >> PAGE_SHIFT; n++) {
		unsigned long pfn = r->hmm_pfns[n];

		if (pfn & HMM_PFN_VALID)
			add((struct event){ .word = FOUND, .m = m, .a = (r->start >> PAGE_SHIFT) + n,
				.frame = frame_of(hmm_pfn_to_page(pfn)), .what = !!(pfn & HMM_PFN_WRITE) });
	}
	add((struct event){ .word = WALKED, .m = m, .what = !failed });
	return 0;
}

// migrate_vma_setup, migrate_vma_pages, migrate_vma_finalize (migration)
static int migrate_in(struct kretprobe_instance *i, struct pt_regs *regs)
{
	struct migrate_vma *v = (void *)GIVEN(0);

	KEPT(i)->x = v;
	return !v->vma || known(&spaces, v->vma->vm_mm) < 0;
}

static int setup_out(struct kretprobe_instance *i, struct pt_regs *regs)
{
	struct migrate_vma *v = KEPT(i)->x;
	int p = known(&spaces, v->vma->vm_mm);
	unsigned long n;

	if ((int)regs_return_value(regs))
		return 0;
	atomic_inc(&under_way);
	add((struct event){ .word = SETUP, .p = p, SPAN(v->start, v->end), .what = !!(v->flags & MIGRATE_VMA_SELECT_SYSTEM),
		.d = name(&owners, v->pgmap_owner) });
	for (n = 0; n < v->npages; n++) {
		struct page *from = migrate_pfn_to_page(v->src[n]);

		if (v->src[n] & MIGRATE_PFN_MIGRATE)	// a page without a frame has the area's right
			add((struct event){ .word = FROM, .a = (v->start >> PAGE_SHIFT) + n, .frame = frame_of(from),
				.what = from ? !!(v->src[n] & MIGRATE_PFN_WRITE) : !!(v->vma->vm_flags & VM_WRITE) });
	}
	add((struct event){ .word = READY, .p = p });
	return 0;
}

static int pages_out(struct kretprobe_instance *i, struct pt_regs *regs)
{
	struct migrate_vma *v = KEPT(i)->x;
	unsigned long n;

	for (n = 0; n < v->npages; n++) {
		struct page *to = migrate_pfn_to_page(v->dst[n]);

		if (to)
			add((struct event){ .word = v->src[n] & MIGRATE_PFN_MIGRATE ? MOVED : STAYED,
				.a = (v->start >> PAGE_SHIFT) + n, .frame = frame_of(to) });
	}
	add((struct event){ .word = PAGES, .p = known(&spaces, v->vma->vm_mm) });
	return 0;
}

static int finalize_out(struct kretprobe_instance *i, struct pt_regs *regs)
{
	struct migrate_vma *v = KEPT(i)->x;

	add((struct event){ .word = FINALIZE, .p = known(&spaces, v->vma->vm_mm) });
	atomic_dec(&under_way);
	return 0;
}

// `set` (table, page number, entry): an entry of 0 erases
static int set_in(struct kprobe *probe, struct pt_regs *regs)
{
	unsigned long entry = GIVEN(2), tag = entry & tag_mask;
	int m = known(&intervals, (void *)GIVEN(0) + table);

	if (m >= 0 && !entry)
		add((struct event){ .word = ERASE, .m = m, .a = GIVEN(1) });
	else if (m >= 0)
		add((struct event){ .word = SET, .m = m, .a = GIVEN(1), .frame = frame_of((void *)(entry & ~tag_mask)),
			.what = tag == tag_write ? 1 : tag == tag_sole ? 2 : 0 });
	return 0;
}

// `erase` (table, page number)
static int erase_in(struct kprobe *probe, struct pt_regs *regs)
{
	int m = known(&intervals, (void *)GIVEN(0) + table);

	if (m >= 0)
		add((struct event){ .word = ERASE, .m = m, .a = GIVEN(1) });
	return 0;
}

// `reads` and `writes` (object, start, end): said only if all was done
static int use_in(struct kretprobe_instance *i, struct pt_regs *regs)
{
	*KEPT(i) = (struct kept){ (void *)GIVEN(0) + object, GIVEN(1), GIVEN(2) };
	return known(&intervals, KEPT(i)->x) < 0;
}

static int use_out(struct kretprobe_instance *i, struct pt_regs *regs)
{
	if (!(int)regs_return_value(regs))
		add((struct event){ .word = USE, .m = known(&intervals, KEPT(i)->x), SPAN(KEPT(i)->start, KEPT(i)->end),
			.what = !strcmp(get_kretprobe(i)->kp.symbol_name, writes) });
	return 0;
}

// `takes`: returns a frame of the device
static int take_in(struct kretprobe_instance *i, struct pt_regs *regs)
{
	return 0;
}

static int take_out(struct kretprobe_instance *i, struct pt_regs *regs)
{
	struct page *page = (void *)regs_return_value(regs);

	if (!IS_ERR_OR_NULL(page))
		add((struct event){ .word = TAKE, .frame = frame_of(page) });
	return 0;
}

// `frees` (page)
static int free_in(struct kprobe *probe, struct pt_regs *regs)
{
	add((struct event){ .word = FREE, .frame = frame_of((void *)GIVEN(0)) });
	return 0;
}

// `withdraws` (page map), and memunmap_pages (page map), after which the device's memory is gone: the owner is kept,
// since the page map may be freed by then
static int owner_in(struct kretprobe_instance *i, struct pt_regs *regs)
{
	KEPT(i)->x = ((struct dev_pagemap *)GIVEN(0))->owner;
	return !KEPT(i)->x;
}

static int withdraw_out(struct kretprobe_instance *i, struct pt_regs *regs)
{
	add((struct event){ .word = WITHDRAW, .d = name(&owners, KEPT(i)->x) });
	return 0;
}

static int gone_out(struct kretprobe_instance *i, struct pt_regs *regs)
{
	if (known(&owners, KEPT(i)->x) >= 0)
		add((struct event){ .word = GONE, .d = known(&owners, KEPT(i)->x) });
	return 0;
}

// migrate_device_range (collected, first, count): it passes over a frame that somebody else has, or has locked
static int range_in(struct kretprobe_instance *i, struct pt_regs *regs)
{
	*KEPT(i) = (struct kept){ (void *)GIVEN(0), GIVEN(1), GIVEN(2) };
	return 0;
}

static int range_out(struct kretprobe_instance *i, struct pt_regs *regs)
{
	unsigned long *collected = KEPT(i)->x, n;

	for (n = 0; n < KEPT(i)->end; n++)
		if (!(collected[n] & MIGRATE_PFN_MIGRATE) && page_count(pfn_to_page(KEPT(i)->start + n)))
			add((struct event){ .word = PASS, .frame = frame_of(pfn_to_page(KEPT(i)->start + n)) });
	return 0;
}

// `fetches` and `adds` (object, address): said only if it was done
static int one_in(struct kretprobe_instance *i, struct pt_regs *regs)
{
	*KEPT(i) = (struct kept){ (void *)GIVEN(0) + object, GIVEN(1) };
	return known(&intervals, KEPT(i)->x) < 0;
}

static int one_out(struct kretprobe_instance *i, struct pt_regs *regs)
{
	bool is_add = !strcmp(get_kretprobe(i)->kp.symbol_name, adds);

	if (!(int)regs_return_value(regs))
		add((struct event){ .word = is_add ? ADD : FETCH, .m = known(&intervals, KEPT(i)->x),
			.a = KEPT(i)->start >> PAGE_SHIFT });
	return 0;
}

static struct kretprobe returns[24];
static struct kprobe entries[8];
static int return_count, entry_count;

// how many calls had no event: a probe had no room for them, or there was no number or word
static u32 missed_calls(void)
{
	u32 missed = atomic_read(&odd);
	int i;

	for (i = 0; i < return_count; i++)
		missed += returns[i].nmissed + returns[i].kp.nmissed;
	for (i = 0; i < entry_count; i++)
		missed += entries[i].nmissed;
	return missed;
}

// ---- the text

// what was there when the trace was opened: later events are not of this reading
struct reading { u32 first, count, missed; u64 lost; };
static u32 first_number, missed_before;		// the first event's number; the calls missed before it was cleared

static void print_frame(struct seq_file *f, struct frame x)
{
	switch (x.kind) {
	case NONE:
		seq_puts(f, " none");
		break;
	case ZERO:
		seq_puts(f, " zero");
		break;
	case SYSTEM:
		seq_printf(f, " s%lu", x.number);
		break;
	default:
		seq_printf(f, " %c%d.%lu", x.kind == PRIVATE ? 'd' : 'c', max(x.owner, 0), x.number);
	}
}

static void print_device(struct seq_file *f, int d)
{
	if (d < 0)
		seq_puts(f, " -");
	else
		seq_printf(f, " d%d", d);
}

// one event as a line. Whoever has taken a number and not yet written the event has lost it.
static void print_event(struct seq_file *f, struct event *e, u32 number)
{
	if (!smp_load_acquire(&e->is_written)) {
		seq_puts(f, "lost 1 0\n");
		return;
	}
	seq_printf(f, "%u a%u %s", number, e->thread, words[e->word]);
	switch (e->word) {
	case INSERT:
		seq_printf(f, " m%d p%d %lu %lu", e->m, e->p, e->a, e->b);
		print_device(f, e->d);
		break;
	case INSERTED: case TOLD:
		seq_printf(f, " m%d %lu %s", e->m, e->seq, e->what ? "done" : "failed");
		break;
	case REMOVE: case REMOVED:
		seq_printf(f, " m%d", e->m);
		break;
	case START:
		seq_printf(f, " p%d %lu %lu %s", e->p, e->a, e->b, reasons[e->what]);
		print_device(f, e->d);
		break;
	case END:
		seq_printf(f, " p%d %lu %lu", e->p, e->a, e->b);
		break;
	case TELL:
		seq_printf(f, " m%d %lu %lu %lu", e->m, e->a, e->b, e->seq);
		break;
	case BEGIN:
		seq_printf(f, " m%d %lu", e->m, e->seq);
		break;
	case WALK:
		seq_printf(f, " m%d %lu %lu %lu %s", e->m, e->a, e->b, e->seq, e->what ? "locked" : "unlocked");
		print_device(f, e->d);
		break;
	case FOUND: case SET:
		seq_printf(f, " m%d %lu", e->m, e->a);
		print_frame(f, e->frame);
		seq_printf(f, " %c", "rwx"[e->what]);
		break;
	case WALKED:
		seq_printf(f, " m%d %s", e->m, e->what ? "done" : "failed");
		break;
	case ERASE: case FETCH: case ADD:
		seq_printf(f, " m%d %lu", e->m, e->a);
		break;
	case USE:
		seq_printf(f, " m%d %lu %lu %c", e->m, e->a, e->b, "rw"[e->what]);
		break;
	case SETUP:
		seq_printf(f, " p%d %lu %lu %s", e->p, e->a, e->b, e->what ? "todev" : "tosys");
		print_device(f, e->d);
		break;
	case FROM:
		seq_printf(f, " %lu", e->a);
		print_frame(f, e->frame);
		seq_printf(f, " %c", "rw"[e->what]);
		break;
	case MOVED: case STAYED:
		seq_printf(f, " %lu", e->a);
		print_frame(f, e->frame);
		break;
	case READY: case PAGES: case FINALIZE:
		seq_printf(f, " p%d", e->p);
		break;
	case TAKE: case FREE: case PASS:
		print_frame(f, e->frame);
		break;
	case WITHDRAW: case GONE:
		seq_printf(f, " d%d", e->d);
		break;
	}
	seq_putc(f, '\n');
}

// line 0 says what is recorded, then the events, and one line more if something is missing
static int line(struct seq_file *f, void *v)
{
	struct reading *r = f->private;
	unsigned long at = (unsigned long)v - 1;

	if (at == 0)
		seq_printf(f, "names%s%s%s%s%s%s\n", *set ? " set" : "", *erase ? " erase" : "",
			   *reads && *writes ? " use" : "", *takes ? " take" : "", *frees ? " free" : "",
			   model ? " model" : "");
	else if (at <= r->count)
		print_event(f, events + at - 1, r->first + at - 1);
	else if (r->lost || r->missed)
		seq_printf(f, "lost %llu %u\n", r->lost, r->missed);
	return 0;
}

static void *first(struct seq_file *f, loff_t *at)
{
	return *at <= ((struct reading *)f->private)->count + 1 ? (void *)(unsigned long)(*at + 1) : NULL;
}

static void *later(struct seq_file *f, void *v, loff_t *at) { ++*at; return first(f, at); }
static void stop(struct seq_file *f, void *v) { }
static const struct seq_operations lines = { .start = first, .next = later, .stop = stop, .show = line };

static int open(struct inode *inode, struct file *file)
{
	struct reading *r = __seq_open_private(file, &lines, sizeof(*r));
	u64 n = atomic64_read(&next);

	if (!r)
		return -ENOMEM;
	r->first = first_number;
	r->count = min_t(u64, n, size);
	r->lost = n - r->count;
	r->missed = missed_calls() - missed_before;
	return 0;
}

// Numbers and events begin anew, when no probe is between its number and its event. If an interval or a migration is
// there, the new trace begins in its middle: so its first number is not 0, and it is not taken for a whole one.
static ssize_t clear(struct file *file, const char __user *from, size_t count, loff_t *at)
{
	static DEFINE_MUTEX(clearing);

	mutex_lock(&clearing);
	WRITE_ONCE(is_on, false);
	synchronize_rcu_expedited();
	memset(events, 0, array_size(size, sizeof(*events)));
	atomic64_set(&next, 0);
	first_number = atomic_read(&under_way) != 0;
	missed_before = missed_calls();
	smp_wmb();
	WRITE_ONCE(is_on, true);
	mutex_unlock(&clearing);
	return count;
}

static const struct file_operations operations = { .owner = THIS_MODULE, .open = open, .read = seq_read,
	.llseek = seq_lseek, .release = seq_release_private, .write = clear };

// ---- loading

// probes a function at its entry and its return
static int probe_return(const char *symbol, kretprobe_handler_t in, kretprobe_handler_t out)
{
	struct kretprobe *r = returns + return_count;
	int failed;

	if (!*symbol)
		return 0;
	*r = (struct kretprobe){ .kp.symbol_name = symbol, .entry_handler = in, .handler = out,
		.data_size = sizeof(struct kept), .maxactive = 512 };
	failed = register_kretprobe(r);
	if (failed)
		pr_err("hmm_probes: no probe of %s: %d\n", symbol, failed);
	else
		return_count++;
	return failed;
}

// probes a function at its entry
static int probe_entry(const char *symbol, kprobe_pre_handler_t in)
{
	struct kprobe *k = entries + entry_count;
	int failed;

	if (!*symbol)
		return 0;
	*k = (struct kprobe){ .symbol_name = symbol, .pre_handler = in };
	failed = register_kprobe(k);
	if (failed)
		pr_err("hmm_probes: no probe of %s: %d\n", symbol, failed);
	else
		entry_count++;
	return failed;
}

static void remove_probes(void)
{
	int i;

	for (i = 0; i < entry_count; i++)
		unregister_kprobe(entries + i);
	for (i = 0; i < return_count; i++)
		unregister_kretprobe(returns + i);
}

static struct dentry *folder;

static int __init probes_init(void)
{
	int i, failed;

	if (!callbacks || !size) {
		pr_err("hmm_probes: callback=NAME is missing, or size is 0\n");
		return -EINVAL;
	}
	events = vzalloc(array_size(size, sizeof(*events)));
	if (!events)
		return -ENOMEM;
	failed = probe_return("mmu_interval_notifier_remove", remove_in, remove_out) ?:
		probe_return("mmu_interval_read_begin", begin_in, begin_out) ?:
		probe_return("hmm_range_fault", walk_in, walk_out) ?:
		probe_entry("__mmu_notifier_invalidate_range_start", start_in) ?:
		probe_entry("__mmu_notifier_invalidate_range_end", end_in) ?:
		probe_entry(set, set_in) ?: probe_entry(erase, erase_in) ?: probe_entry(frees, free_in) ?:
		probe_return(reads, use_in, use_out) ?: probe_return(writes, use_in, use_out) ?:
		probe_return(takes, take_in, take_out) ?: probe_return(withdraws, owner_in, withdraw_out) ?:
		probe_return(fetches, one_in, one_out) ?: probe_return(adds, one_in, one_out);
	if (!failed && *withdraws)	// without it nobody knows whether a device that goes was withdrawn
		failed = probe_return("memunmap_pages", owner_in, gone_out) ?:
			probe_return("migrate_device_range", range_in, range_out);
	if (!failed && IS_ENABLED(CONFIG_DEVICE_MIGRATION))
		failed = probe_return("migrate_vma_setup", migrate_in, setup_out) ?:
			probe_return("migrate_vma_pages", migrate_in, pages_out) ?:
			probe_return("migrate_vma_finalize", migrate_in, finalize_out);
	for (i = 0; !failed && i < callbacks; i++)
		failed = probe_return(callback[i], tell_in, tell_out);
	if (!failed)		// last: no interval is known before all other probes are there
		failed = probe_return("mmu_interval_notifier_insert", insert_in, insert_out) ?:
			probe_return("mmu_interval_notifier_insert_locked", insert_in, insert_out);
	if (failed) {
		remove_probes();
		vfree(events);
		return failed;
	}
	folder = debugfs_create_dir("hmm_probes", NULL);
	debugfs_create_file("trace", 0600, folder, NULL, &operations);
	WRITE_ONCE(is_on, true);
	return 0;
}

static void __exit probes_exit(void)
{
	debugfs_remove(folder);
	remove_probes();
	vfree(events);
}

module_init(probes_init);
module_exit(probes_exit);
MODULE_LICENSE("GPL");
MODULE_DESCRIPTION("Records what a driver does with HMM");
