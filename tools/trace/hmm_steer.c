// SPDX-License-Identifier: GPL-2.0
// Makes a race happen on a running kernel: holds a thread at a place until another thread has come to one of its own.
// docs/STEER.md has the language of holds and all places. In debugfs:
//
//   hmm_steer/holds   write: all holds of a run, in one write. That forgets what came before, and begins anew. If a
//                     line is wrong, none is taken, and reading says the line and the reason of each mistake.
//                     read: what became of each hold
//   hmm_steer/mark    a thread writes a word, `go` or `done`: a place that only the program knows of
//   hmm_steer/log     the places that threads came to, one in a line, with microseconds
//
// A thread whose name is a0, a1, a2 or a3 has that role; all others are left alone. Places are counted from 1 for each
// role and word. A thread that comes to a place has it counted, and is held then.
//
// In a probe one cannot sleep. So a hold there spins, with preemption off, for at most MOST_US; then it goes on, and is
// late. A hold at a mark sleeps. The parameters' addresses are compared and never followed.
#include <linux/debugfs.h>
#include <linux/delay.h>
#include <linux/kprobes.h>
#include <linux/mm.h>
#include <linux/mmu_notifier.h>
#include <linux/module.h>
#include <linux/rcupdate.h>
#include <linux/seq_file.h>
#include <linux/uaccess.h>

#define MOST_US 100000
#define MOST_OFFSET 65536
#define ROLES 4
#define HOLDS 16
#define MISTAKES 16
#define LOG 512
#define INTERVALS 16

static char *callback[4], *locks[3];
static int callbacks, lock_count;
module_param_array(callback, charp, &callbacks, 0444);
MODULE_PARM_DESC(callback, "the driver's invalidate callbacks; it must be given");
module_param_array(locks, charp, &lock_count, 0444);
MODULE_PARM_DESC(locks, "the functions (lock) by which the driver takes its lock; mutex_lock if none is named");
static char *set = "", *reads = "", *writes = "", *takes = "", *frees = "", *withdraws = "", *fetches = "", *adds = "";
module_param(set, charp, 0444);
MODULE_PARM_DESC(set, "a function (table, page number, entry) that sets an entry of the driver's table");
module_param(reads, charp, 0444);
MODULE_PARM_DESC(reads, "a function that reads through the table, under the driver's lock, and returns 0 if it did");
module_param(writes, charp, 0444);
MODULE_PARM_DESC(writes, "the same for writes");
module_param(takes, charp, 0444);
MODULE_PARM_DESC(takes, "a function that gives a frame of the device out");
module_param(frees, charp, 0444);
MODULE_PARM_DESC(frees, "the driver's page_free");
module_param(withdraws, charp, 0444);
MODULE_PARM_DESC(withdraws, "a function after which a device gives out no frame any more");
module_param(fetches, charp, 0444);
MODULE_PARM_DESC(fetches, "a function that reads a page for one actor alone");
module_param(adds, charp, 0444);
MODULE_PARM_DESC(adds, "the same that writes the sum there");
static bool exclusive;
module_param(exclusive, bool, 0444);
MODULE_PARM_DESC(exclusive, "make_device_exclusive_range is a place, too (the kernel must have it)");
static long table, lock = sizeof(struct mmu_interval_notifier);
module_param(table, long, 0444);
MODULE_PARM_DESC(table, "the notifier's address less that of the table which `set` is given");
module_param(lock, long, 0444);
MODULE_PARM_DESC(lock, "the address of the driver's lock less that of the notifier");
static char *trap = "";
module_param(trap, charp, 0444);
MODULE_PARM_DESC(trap, "FUNCTION+OFFSET: a place `trap` at this instruction; its probe may have interrupts off");

// ---- places

enum word { GO, DONE, LOOK, SEEK, BEGIN, WALK, WALKED, COMMIT, SET, USING, USE, FAULT, FAULTED, START, TELL, TOLD, END,
	ENDED, SETUP, READY, TAKE, PAGES, MOVED, FINALIZE, FINALIZED, EVICT, EVICTED, FREE, REMOVE, REMOVED, WITHDRAW,
	WITHDRAWN, UNPLUG, GONE, EXCLUDE, EXCLUDED, FETCH, ADD, TRAP, WORDS };
static const char * const words[] = { "go", "done", "look", "seek", "begin", "walk", "walked", "commit", "set", "using",
	"use", "fault", "faulted", "start", "tell", "told", "end", "ended", "setup", "ready", "take", "pages", "moved",
	"finalize", "finalized", "evict", "evicted", "free", "remove", "removed", "withdraw", "withdrawn", "unplug", "gone",
	"exclude", "excluded", "fetch", "add", "trap" };
static_assert(ARRAY_SIZE(words) == WORDS);
static u64 there = BIT_ULL(GO) | BIT_ULL(DONE);		// the places that are probed

#define IS(word, of) (BIT_ULL(word) & (of))
// a thread has the driver's lock there; it has or had to take it to come there
#define LOCKED (BIT_ULL(SET) | BIT_ULL(USING) | BIT_ULL(USE))
#define NEEDS_LOCK (LOCKED | BIT_ULL(TOLD))
// a thread of the device has the mmap lock for reading there
#define WALKS (BIT_ULL(WALK) | BIT_ULL(WALKED))
#define INVALIDATES (BIT_ULL(START) | BIT_ULL(TELL) | BIT_ULL(TOLD) | BIT_ULL(END) | BIT_ULL(ENDED))

// what a role does, for what locks it has: `wide` calls have the mmap lock for writing, as long as they invalidate
enum call { UNKNOWN, READS, WRITES, LOADS, STORES, UNMAPS, MAPS, PROTECTS, FORKS, TODEV, TOSYS, DETACHES, REMOVES,
	CALLS };
static const char * const calls[] = { "-", "dload", "dstore", "load", "store", "unmap", "map", "protect", "fork",
	"todev", "tosys", "detach", "remove" };
static_assert(ARRAY_SIZE(calls) == CALLS);

// ---- holds

enum outcome { UNMET, FREE_TO_GO, WAITED, LATE };
static const char * const outcomes[] = { "unmet", "free", "waited", "late" };
struct hold {
	int role, word, nth, other, until, until_nth;
	unsigned int us;
	bool is_try;			// a right driver may be late here: it is never refused for a lock
	int outcome, irqs_off;
	u64 ns;
};
static struct hold holds[HOLDS];
static int hold_count;
static int counts[ROLES][WORDS];
static enum call call_of[ROLES];
static unsigned long first_page, page_span = ~0UL;	// invalidations and faults of these pages alone are places
static bool is_walked[ROLES], is_told[ROLES];
static struct { u64 ns; u8 role, word; u16 nth; } events[LOG];
static atomic_t next = ATOMIC_INIT(0);
static atomic_t waiting = ATOMIC_INIT(0);
static unsigned int run_number;			// a hold of an earlier run ends
static u64 began;
static void *intervals[INTERVALS];
static DEFINE_MUTEX(writing);

static int role(void)
{
	const char *c = current->comm;

	return c[0] == 'a' && c[1] >= '0' && c[1] < '0' + ROLES && !c[2] ? c[1] - '0' : -1;
}

static void wait(struct hold *h, unsigned int run, bool may_sleep)
{
	int *seen = &counts[h->other][h->until], outcome = FREE_TO_GO;
	u64 from = ktime_get_mono_fast_ns(), most = min_t(unsigned int, h->us, MOST_US) * 1000ULL;

	atomic_inc(&waiting);
	h->irqs_off = irqs_disabled();
	while (smp_load_acquire(seen) < h->until_nth) {
		outcome = WAITED;
		if (ktime_get_mono_fast_ns() - from > most || READ_ONCE(run_number) != run) {
			outcome = LATE;
			break;
		}
		if (may_sleep)
			usleep_range(20, 40);
		else
			cpu_relax();
	}
	if (READ_ONCE(run_number) == run) {
		h->ns = ktime_get_mono_fast_ns() - from;
		smp_store_release(&h->outcome, outcome);
	}
	atomic_dec(&waiting);
}

static void pass(enum word word, bool may_sleep)
{
	int r = role(), n, i, at, most;
	unsigned int run = READ_ONCE(run_number);

	if (r < 0)
		return;
	n = counts[r][word] + 1;
	at = atomic_inc_return(&next) - 1;
	if (at < LOG) {
		events[at].ns = ktime_get_mono_fast_ns();
		events[at].role = r;
		events[at].word = word;
		events[at].nth = n;
	}
	smp_store_release(&counts[r][word], n);		// only this thread writes it
	most = smp_load_acquire(&hold_count);
	for (i = 0; i < most; i++)
		if (holds[i].role == r && holds[i].word == word && holds[i].nth == n)
			wait(holds + i, run, may_sleep);
}

// ---- probes. What a function was given is kept until it returns.

struct kept { bool is_of_race; };
#define KEPT(i) ((struct kept *)(i)->data)
#define GIVEN(n) regs_get_kernel_argument(regs, n)

static bool is_interval(void *x)
{
	int i;

	for (i = 0; i < INTERVALS; i++)
		if (x && READ_ONCE(intervals[i]) == x)
			return true;
	return false;
}

// a new interval takes a free slot, or else the first
static void remember(void *x)
{
	int i;

	if (is_interval(x))
		return;
	for (i = 0; i < INTERVALS; i++)
		if (!cmpxchg(&intervals[i], NULL, x))
			return;
	WRITE_ONCE(intervals[0], x);
}

static void forget(void *x)
{
	int i;

	for (i = 0; i < INTERVALS; i++)
		cmpxchg(&intervals[i], x, NULL);
}

static int insert_in(struct kprobe *probe, struct pt_regs *regs)
{
	struct mmu_interval_notifier_ops *ops = (void *)GIVEN(4);
	char text[KSYM_SYMBOL_LEN];
	int n;

	snprintf(text, sizeof(text), "%ps", ops->invalidate);
	text[strcspn(text, " ")] = 0;		// a module's name may follow
	for (n = 0; n < callbacks; n++)
		if (!strcmp(text, callback[n])) {
			remember((void *)GIVEN(0));
			return 0;
		}
	forget((void *)GIVEN(0));
	return 0;
}

static int remove_in(struct kretprobe_instance *i, struct pt_regs *regs)
{
	void *x = (void *)GIVEN(0);

	if (!is_interval(x))
		return 1;
	pass(REMOVE, false);
	forget(x);
	return 0;
}

static int seek_in(struct kretprobe_instance *i, struct pt_regs *regs)
{
	if (role() < 0 || !is_interval((void *)GIVEN(0)))
		return 1;
	pass(SEEK, false);
	return 0;
}

static int walk_in(struct kretprobe_instance *i, struct pt_regs *regs)
{
	if (role() < 0)
		return 1;
	pass(WALK, false);
	return 0;
}

static int walk_out(struct kretprobe_instance *i, struct pt_regs *regs)
{
	int r = role();

	if (r >= 0)
		is_walked[r] = true;
	pass(WALKED, false);
	return 0;
}

// the driver is about to take its lock: to commit a walk, or else to look into its table. In the callback it is neither
static int lock_in(struct kprobe *probe, struct pt_regs *regs)
{
	int r = role();

	if (r < 0 || is_told[r] || !is_interval((void *)GIVEN(0) - lock))
		return 0;
	pass(is_walked[r] ? COMMIT : LOOK, false);
	is_walked[r] = false;
	return 0;
}

static bool has_page(unsigned long start, unsigned long end)
{
	unsigned long from = start >> PAGE_SHIFT, to = end >> PAGE_SHIFT, first = READ_ONCE(first_page);

	return role() >= 0 && to > first && (from < first || from - first < READ_ONCE(page_span));
}

static bool has_range(struct mmu_notifier_range *r) { return has_page(r->start, r->end); }

static int start_in(struct kprobe *probe, struct pt_regs *regs)
{
	if (role() >= 0 && has_range((void *)GIVEN(0)))
		pass(START, false);
	return 0;
}

static int end_in(struct kretprobe_instance *i, struct pt_regs *regs)
{
	if (role() < 0 || !has_range((void *)GIVEN(0)))
		return 1;
	pass(END, false);
	return 0;
}

static int tell_in(struct kretprobe_instance *i, struct pt_regs *regs)
{
	int r = role();

	if (r < 0 || !is_interval((void *)GIVEN(0)))
		return 1;
	is_told[r] = true;
	KEPT(i)->is_of_race = has_range((void *)GIVEN(1));
	if (KEPT(i)->is_of_race)
		pass(TELL, false);
	return 0;
}

static int told_out(struct kretprobe_instance *i, struct pt_regs *regs)
{
	int r = role();

	if (r >= 0)
		is_told[r] = false;
	if (KEPT(i)->is_of_race)
		pass(TOLD, false);
	return 0;
}

// handle_mm_fault (area, address, ..)
static int fault_in(struct kretprobe_instance *i, struct pt_regs *regs)
{
	if (role() < 0 || !has_page(GIVEN(1), (GIVEN(1) | ~PAGE_MASK) + 1))
		return 1;
	pass(FAULT, false);
	return 0;
}

static int set_in(struct kretprobe_instance *i, struct pt_regs *regs)
{
	return role() < 0 || !GIVEN(2) || !is_interval((void *)GIVEN(0) + table);
}

static int use_out(struct kretprobe_instance *i, struct pt_regs *regs)
{
	if (!(int)regs_return_value(regs))
		pass(USE, false);
	return 0;
}

// a function that is a place when a role enters it, one when it returns, or both
#define ENTRY(name, word) \
	static int name(struct kretprobe_instance *i, struct pt_regs *regs) \
	{ \
		if (role() < 0) \
			return 1; \
		pass(word, false); \
		return 0; \
	}
#define RETURN(name, word) \
	static int name(struct kretprobe_instance *i, struct pt_regs *regs) \
	{ \
		pass(word, false); \
		return 0; \
	}
ENTRY(using_in, USING)
ENTRY(setup_in, SETUP)
ENTRY(pages_in, PAGES)
ENTRY(finalize_in, FINALIZE)
ENTRY(evict_in, EVICT)
ENTRY(withdraw_in, WITHDRAW)
ENTRY(unplug_in, UNPLUG)
ENTRY(exclude_in, EXCLUDE)
RETURN(begin_out, BEGIN)
RETURN(set_out, SET)
RETURN(faulted_out, FAULTED)
RETURN(ended_out, ENDED)
RETURN(ready_out, READY)
RETURN(take_out, TAKE)
RETURN(moved_out, MOVED)
RETURN(finalized_out, FINALIZED)
RETURN(evicted_out, EVICTED)
RETURN(removed_out, REMOVED)
RETURN(withdrawn_out, WITHDRAWN)
RETURN(gone_out, GONE)
RETURN(excluded_out, EXCLUDED)
RETURN(fetch_out, FETCH)
RETURN(add_out, ADD)

static int role_in(struct kretprobe_instance *i, struct pt_regs *regs) { return role() < 0; }
static int free_in(struct kprobe *probe, struct pt_regs *regs) { pass(FREE, false); return 0; }
static int trap_in(struct kprobe *probe, struct pt_regs *regs) { pass(TRAP, false); return 0; }

// ---- the text of holds

static struct { int line; const char *why; char word[16]; } mistakes[MISTAKES];
static int mistake_count, mistakes_not_kept;

static void mistake(int line, const char *why, const char *word)
{
	if (mistake_count == MISTAKES) {
		mistakes_not_kept++;
		return;
	}
	mistakes[mistake_count].line = line;
	mistakes[mistake_count].why = why;
	strscpy(mistakes[mistake_count++].word, word, sizeof(mistakes->word));
}

static int index_of(const char *text, const char * const *of, int count)
{
	int i;

	for (i = 0; i < count; i++)
		if (!strcmp(text, of[i]))
			return i;
	return -1;
}

static int role_of(const char *text)
{
	return text[0] == 'a' && text[1] >= '0' && text[1] < '0' + ROLES && !text[2] ? text[1] - '0' : -1;
}

// a place of a hold: its role, word and number, or a mistake
static bool place(int line, char **fields, int *r, int *word, int *nth)
{
	*r = role_of(fields[0]);
	*word = index_of(fields[1], words, WORDS);
	if (*r < 0)
		mistake(line, "is no role: a0 to a3", fields[0]);
	else if (*word < 0)
		mistake(line, "is no place", fields[1]);
	else if (!IS(*word, there))
		mistake(line, "is a place that no probe sees: a parameter of the module is missing", fields[1]);
	else if (kstrtoint(fields[2], 10, nth) || *nth < 1 || *nth > 1000)
		mistake(line, "is no number from 1 to 1000", fields[2]);
	else
		return true;
	return false;
}

static struct kprobe entries[12];
static int entry_count, trap_at = -1;

static bool has_interrupts_off(int word)
{
	return word == TRAP && !(trap_at >= 0 && (entries[trap_at].flags & KPROBE_FLAG_OPTIMIZED));
}

static bool is_wide(enum call c) { return c == PROTECTS || c == FORKS || c == MAPS; }

// the reason why the other thread cannot come to its place as long as this one is held, or NULL
static const char *why_not(struct hold *h)
{
	enum call mine = call_of[h->role], others = call_of[h->other];

	if (h->role == h->other)
		return "would wait for itself";
	if (h->is_try)
		return NULL;
	if (IS(h->word, LOCKED) && IS(h->until, NEEDS_LOCK))
		return "is held with the driver's lock, which the other needs";
	if (IS(h->word, WALKS) && IS(h->until, INVALIDATES) && (is_wide(others) || (others == UNMAPS && h->until == START)))
		return "is held with the mmap lock for reading, which the other needs for writing";
	if (IS(h->word, INVALIDATES) && is_wide(mine) && (IS(h->until, WALKS) || IS(h->until, INVALIDATES)))
		return "is held with the mmap lock for writing, which the other needs";
	if (has_interrupts_off(h->word) && (h->until == DONE || (IS(h->until, BIT_ULL(END) | BIT_ULL(ENDED)) &&
		others != UNMAPS && others != PROTECTS)))
		return "is held with interrupts off, and the other waits for its processor";
	return NULL;
}

static void hold_line(int line, char **fields, int count)
{
	struct hold h = { .is_try = fields[0][0] == 't' };
	const char *why;

	if (count != 10 || strcmp(fields[4], "until") || strcmp(fields[8], "us")) {
		mistake(line, "is not followed by: ROLE PLACE N until ROLE PLACE N us MICROSECONDS", fields[0]);
		return;
	}
	if (!place(line, fields + 1, &h.role, &h.word, &h.nth) || !place(line, fields + 5, &h.other, &h.until, &h.until_nth))
		return;
	if (kstrtouint(fields[9], 10, &h.us) || !h.us || h.us > MOST_US) {
		mistake(line, "is no number of microseconds from 1 to 100000", fields[9]);
		return;
	}
	why = why_not(&h);
	if (why)
		mistake(line, why, fields[1]);
	else if (hold_count == HOLDS)
		mistake(line, "is a hold too many: there is room for 16", fields[0]);
	else
		holds[hold_count++] = h;
}

static void call_line(int line, char **fields, int count)
{
	int r = count == 3 ? role_of(fields[1]) : -1, c = count == 3 ? index_of(fields[2], calls, CALLS) : -1;

	if (count != 3)
		mistake(line, "is not followed by: ROLE CALL", fields[0]);
	else if (r < 0)
		mistake(line, "is no role: a0 to a3", fields[1]);
	else if (c < 0)
		mistake(line, "is no call", fields[2]);
	else if (hold_count)
		mistake(line, "comes after a hold, which was judged without it", fields[0]);
	else
		call_of[r] = c;
}

static void pages_line(int line, char **fields, int count)
{
	unsigned long first, pages;

	if (count != 3)
		mistake(line, "is not followed by: FIRST COUNT", fields[0]);
	else if (kstrtoul(fields[1], 0, &first))
		mistake(line, "is no page number", fields[1]);
	else if (kstrtoul(fields[2], 0, &pages) || !pages)
		mistake(line, "is no count of pages", fields[2]);
	else {
		WRITE_ONCE(first_page, first);
		WRITE_ONCE(page_span, pages);
	}
}

#define FIELDS 11
static void one_line(int line, char *text)
{
	char *fields[FIELDS], *field;
	int count = 0;

	text[strcspn(text, "#")] = 0;
	while ((field = strsep(&text, " \t\r")))
		if (*field && count < FIELDS)
			fields[count++] = field;
	if (!count)
		return;
	if (!strcmp(fields[0], "hold") || !strcmp(fields[0], "try"))
		hold_line(line, fields, count);
	else if (!strcmp(fields[0], "call"))
		call_line(line, fields, count);
	else if (!strcmp(fields[0], "pages"))
		pages_line(line, fields, count);
	else
		mistake(line, "is none of hold, try, call, pages", fields[0]);
}

// A run begins: the holds of the one before end, and nobody waits for them any more.
static void forget_run(void)
{
	smp_store_release(&hold_count, 0);
	WRITE_ONCE(run_number, run_number + 1);
	while (atomic_read(&waiting))
		usleep_range(50, 100);
	synchronize_rcu_expedited();
	memset(counts, 0, sizeof(counts));
	memset(call_of, 0, sizeof(call_of));
	memset(is_walked, 0, sizeof(is_walked));
	memset(is_told, 0, sizeof(is_told));
	first_page = 0;
	page_span = ~0UL;
	atomic_set(&next, 0);
	mistake_count = mistakes_not_kept = 0;
	began = ktime_get_mono_fast_ns();
}

static ssize_t holds_write(struct file *file, const char __user *from, size_t n, loff_t *at)
{
	char *text, *rest, *line;
	int number = 0;

	if (*at || n > 16384)
		return -E2BIG;		// all in one write
	text = memdup_user_nul(from, n);
	if (IS_ERR(text))
		return PTR_ERR(text);
	mutex_lock(&writing);
	forget_run();
	rest = text;
	while ((line = strsep(&rest, "\n")))
		one_line(++number, line);
	if (mistake_count)
		smp_store_release(&hold_count, 0);
	mutex_unlock(&writing);
	kfree(text);
	return mistake_count ? -EINVAL : n;
}

static u32 missed_calls(void);

static int holds_show(struct seq_file *f, void *v)
{
	struct hold *h;
	int i;

	mutex_lock(&writing);
	for (i = 0; i < mistake_count; i++)
		seq_printf(f, "line %d: `%s` %s\n", mistakes[i].line, mistakes[i].word, mistakes[i].why);
	if (mistakes_not_kept)
		seq_printf(f, "and %d mistakes more\n", mistakes_not_kept);
	for (h = holds; h < holds + hold_count; h++)
		seq_printf(f, "%s a%d %s %d until a%d %s %d us %u: %s %llu us%s\n", h->is_try ? "try" : "hold", h->role,
			   words[h->word], h->nth, h->other, words[h->until], h->until_nth, h->us, outcomes[h->outcome],
			   h->ns / 1000, h->irqs_off ? " irqs off" : "");
	mutex_unlock(&writing);
	if (missed_calls())
		seq_printf(f, "missed %u\n", missed_calls());
	return 0;
}

static int log_show(struct seq_file *f, void *v)
{
	int i, n = min(atomic_read(&next), LOG);

	for (i = 0; i < n; i++)
		seq_printf(f, "a%d %s %d at %lld us\n", events[i].role, words[events[i].word], events[i].nth,
			   (s64)(events[i].ns - began) / 1000);
	return 0;
}
DEFINE_SHOW_ATTRIBUTE(log);

static ssize_t mark(struct file *file, const char __user *from, size_t n, loff_t *at)
{
	char text[8] = "";
	int word;

	if (n >= sizeof(text) || copy_from_user(text, from, n))
		return -EINVAL;
	word = index_of(strim(text), words, WORDS);
	if (word != GO && word != DONE)
		return -EINVAL;
	pass(word, true);
	return n;
}

static int holds_open(struct inode *inode, struct file *file) { return single_open(file, holds_show, NULL); }
static const struct file_operations holds_fops = { .owner = THIS_MODULE, .open = holds_open, .read = seq_read,
	.llseek = seq_lseek, .release = single_release, .write = holds_write };
static const struct file_operations mark_fops = { .owner = THIS_MODULE, .write = mark };

// ---- loading

static struct kretprobe returns[24];
static int return_count;

// how many calls passed a place unseen: the probe had no room for them
static u32 missed_calls(void)
{
	u32 missed = 0;
	int i;

	for (i = 0; i < return_count; i++)
		missed += returns[i].nmissed + returns[i].kp.nmissed;
	for (i = 0; i < entry_count; i++)
		missed += entries[i].nmissed;
	return missed;
}

// probes a function at its entry and its return; `of` are the places that it then has
static int probe_return(const char *symbol, kretprobe_handler_t in, kretprobe_handler_t out, u64 of)
{
	struct kretprobe *r = returns + return_count;
	int failed;

	if (!symbol || !*symbol)
		return 0;
	*r = (struct kretprobe){ .kp.symbol_name = symbol, .entry_handler = in, .handler = out,
		.data_size = sizeof(struct kept), .maxactive = 64 };
	failed = register_kretprobe(r);
	if (failed)
		pr_err("hmm_steer: no probe of %s: %d\n", symbol, failed);
	else
		return_count++;
	there |= failed ? 0 : of;
	return failed;
}

// probes an instruction of a function, its first one as a rule
static int probe_entry(const char *symbol, unsigned int offset, kprobe_pre_handler_t in, u64 of)
{
	struct kprobe *k = entries + entry_count;
	char text[KSYM_SYMBOL_LEN];
	int failed;

	if (!symbol || !*symbol)
		return 0;
	*k = (struct kprobe){ .symbol_name = symbol, .offset = offset, .pre_handler = in };
	failed = register_kprobe(k);
	if (!failed) {
		entry_count++;
		snprintf(text, sizeof(text), "%ps", k->addr);
		text[strcspn(text, " ")] = 0;
		if (offset && strcmp(text, symbol))
			failed = -ERANGE;	// it lies behind the function
	}
	if (failed)
		pr_err("hmm_steer: no probe of %s+%u: %d\n", symbol, offset, failed);
	there |= failed ? 0 : of;
	return failed;
}

static int probe_trap(void)
{
	char *plus = strchr(trap, '+');
	unsigned int offset;
	int failed;

	if (!*trap)
		return 0;
	if (!plus || kstrtouint(plus + 1, 0, &offset)) {
		pr_err("hmm_steer: trap is not FUNCTION+OFFSET\n");
		return -EINVAL;
	}
	*plus = 0;
	trap_at = entry_count;
	failed = probe_entry(trap, offset, trap_in, BIT_ULL(TRAP));
	if (failed)
		trap_at = -1;
	return failed;
}

static void remove_probes(void)
{
	int i;

	for (i = 0; i < entry_count; i++)
		unregister_kprobe(entries + i);
	for (i = 0; i < return_count; i++)
		unregister_kretprobe(returns + i);
}

static struct dentry *folder;

// the kernel's functions that every driver calls
static int probe_kernel(void)
{
	return probe_return("mmu_interval_notifier_remove", remove_in, removed_out, BIT_ULL(REMOVE) | BIT_ULL(REMOVED)) ?:
		probe_return("mmu_interval_read_begin", seek_in, begin_out, BIT_ULL(SEEK) | BIT_ULL(BEGIN)) ?:
		probe_return("hmm_range_fault", walk_in, walk_out, WALKS) ?:
		probe_return("handle_mm_fault", fault_in, faulted_out, BIT_ULL(FAULT) | BIT_ULL(FAULTED)) ?:
		probe_entry("__mmu_notifier_invalidate_range_start", 0, start_in, BIT_ULL(START)) ?:
		probe_return("__mmu_notifier_invalidate_range_end", end_in, ended_out, BIT_ULL(END) | BIT_ULL(ENDED));
}

// those of a device with memory of its own, and of exclusive access
static int probe_memory(void)
{
	int failed = 0;

	if (*withdraws)
		failed = probe_return(withdraws, withdraw_in, withdrawn_out, BIT_ULL(WITHDRAW) | BIT_ULL(WITHDRAWN)) ?:
			probe_return("memunmap_pages", unplug_in, gone_out, BIT_ULL(UNPLUG) | BIT_ULL(GONE));
	if (!failed && IS_ENABLED(CONFIG_DEVICE_MIGRATION))
		failed = probe_return("migrate_vma_setup", setup_in, ready_out, BIT_ULL(SETUP) | BIT_ULL(READY)) ?:
			probe_return("migrate_vma_pages", pages_in, moved_out, BIT_ULL(PAGES) | BIT_ULL(MOVED)) ?:
			probe_return("migrate_vma_finalize", finalize_in, finalized_out,
				     BIT_ULL(FINALIZE) | BIT_ULL(FINALIZED)) ?:
			probe_return("migrate_device_range", evict_in, evicted_out, BIT_ULL(EVICT) | BIT_ULL(EVICTED));
	if (!failed && exclusive)
		failed = probe_return("make_device_exclusive_range", exclude_in, excluded_out,
				      BIT_ULL(EXCLUDE) | BIT_ULL(EXCLUDED));
	return failed;
}

static int probe_driver(void)
{
	int i, failed = probe_return(set, set_in, set_out, BIT_ULL(SET)) ?:
		probe_return(reads, using_in, use_out, BIT_ULL(USING) | BIT_ULL(USE)) ?:
		probe_return(writes, using_in, use_out, BIT_ULL(USING) | BIT_ULL(USE)) ?:
		probe_return(takes, role_in, take_out, BIT_ULL(TAKE)) ?:
		probe_entry(frees, 0, free_in, BIT_ULL(FREE)) ?:
		probe_return(fetches, role_in, fetch_out, BIT_ULL(FETCH)) ?:
		probe_return(adds, role_in, add_out, BIT_ULL(ADD));

	for (i = 0; !failed && i < callbacks; i++)
		failed = probe_return(callback[i], tell_in, told_out, BIT_ULL(TELL) | BIT_ULL(TOLD));
	for (i = 0; !failed && i < lock_count; i++)
		failed = probe_entry(locks[i], 0, lock_in, BIT_ULL(LOOK) | BIT_ULL(COMMIT));
	return failed;
}

static int __init steer_init(void)
{
	int failed;

	if (!callbacks) {
		pr_err("hmm_steer: callback=NAME is missing\n");
		return -EINVAL;
	}
	if (abs(table) > MOST_OFFSET || abs(lock) > MOST_OFFSET) {
		pr_err("hmm_steer: table or lock is beyond %d\n", MOST_OFFSET);
		return -EINVAL;
	}
	if (!lock_count)
		locks[lock_count++] = "mutex_lock";
	failed = probe_kernel() ?: probe_memory() ?: probe_driver() ?: probe_trap();
	if (!failed)		// last: no interval is known before all other probes are there
		failed = probe_entry("mmu_interval_notifier_insert", 0, insert_in, 0) ?:
			probe_entry("mmu_interval_notifier_insert_locked", 0, insert_in, 0);
	if (failed) {
		remove_probes();
		return failed;
	}
	folder = debugfs_create_dir("hmm_steer", NULL);
	debugfs_create_file("holds", 0600, folder, NULL, &holds_fops);
	debugfs_create_file("mark", 0200, folder, NULL, &mark_fops);
	debugfs_create_file("log", 0400, folder, NULL, &log_fops);
	return 0;
}

static void __exit steer_exit(void)
{
	debugfs_remove(folder);
	WRITE_ONCE(run_number, run_number + 1);		// whoever is held goes on
	remove_probes();
}

module_init(steer_init);
module_exit(steer_exit);
MODULE_LICENSE("GPL");
MODULE_DESCRIPTION("Holds threads at places of HMM");
