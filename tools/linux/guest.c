// The guest's only program, its init. It makes the operations of scripts in hmmrun's language with real system calls
// and the calls of the kernel's test driver, lib/test_hmm.c. It reads /in and writes to the second serial line,
// /dev/ttyS1; then it switches the machine off. What /in may hold:
//
//   selftests                          run the kernel's own hmm-tests, and pass on what they write
//   delay N | take_all N               set this parameter of the changed driver (edit_driver.py)
//   seed N                             begin the random waits of races from this number
//   script NAME, operations, end       make them one after the other, and write their answers
//   race NAME RUNS WAIT SECONDS        run this race at most RUNS times and SECONDS long. Before each operation a
//     set-up, `actor N`, operations,   thread waits a random number of turns of a loop, at most WAIT. Then write each
//     .., end                          outcome with how often it came.
//
// A process of a script is a process of the guest. Its page N lies at BASE + N * 4096. It makes its own system calls
// and accesses; calls of the driver are made by the runner, which has the files of all mirrors. In a race each actor
// has a thread in each process that it works in.
#define _GNU_SOURCE
#include <errno.h>
#include <fcntl.h>
#include <linux/futex.h>
#include <poll.h>
#include <pthread.h>
#include <sched.h>
#include <setjmp.h>
#include <signal.h>
#include <stdarg.h>
#include <stdint.h>
#include <stdio.h>
#include <stdlib.h>
#include <string.h>
#include <sys/ioctl.h>
#include <sys/mman.h>
#include <sys/mount.h>
#include <sys/prctl.h>
#include <sys/reboot.h>
#include <sys/stat.h>
#include <sys/syscall.h>
#include <sys/wait.h>
#include <termios.h>
#include <time.h>
#include <unistd.h>
#include "test_hmm_uapi.h"

#define BASE 0x200000000UL
#define PSZ 4096UL
#define NPROC 32
#define NMIR 32
#define NACT 16
#define NPAGE 1024
#define MAXOPS 64

enum kind { K_MAP, K_UNMAP, K_PROTECT, K_LOAD, K_STORE, K_FORK, K_EXIT, K_ATTACH, K_DETACH, K_DLOAD, K_DSTORE,
	K_TODEV, K_TOSYS, K_SNAP, K_EVICT, K_REMOVE, K_EXCL, K_DADD,
	K_OPENDEV, K_CLOSEFD, K_SPAWN };
static const char *words[] = { "map", "unmap", "protect", "load", "store", "fork", "exit", "attach", "detach",
	"dload", "dstore", "todev", "tosys", "snap", "evict", "remove", "exclusive", "dadd" };

struct op {
	int kind;
	long a, b, c, d, e;		// operands in the order of the language
	unsigned char bytes[256];
	int len;			// bytes of load/store
};

struct box {				// one for each process: an order, and its answer
	int turn;			// a futex: 0 nothing to do, 1 an order, 2 an answer
	struct op op;
	int arg;
	long ret;
	char ans[2048];
};

struct prog { int n; struct op op[MAXOPS]; };

struct shared {
	struct box box[NPROC];
	// of a race
	struct prog prog[NACT];
	int pc[NACT];			// the next operation of each actor; threads spin on it
	char ans[NACT][2048];
	unsigned delay[NACT][MAXOPS];
	int ready, go;
	long childpid[NPROC];
	int mirowner[NMIR];		// the process that attaches this mirror in the race, or -1
	int round;			// a futex, on which all threads wait for the next run
	int finished;
} *sh;

static int pidfd[NPROC], alive[NPROC];
static int mirfd[NMIR], mirproc[NMIR], mirdev[NMIR];
static int devctl[2] = { -1, -1 };
static unsigned char area[NPROC][NPAGE];
static FILE *out;


static long futex(int *u, int op, int v) { return syscall(SYS_futex, u, op, v, NULL, NULL, 0); }

static int add(char *o, const char *f, ...)
{
	va_list v;
	int n = strlen(o), r;
	va_start(v, f);
	r = vsnprintf(o + n, 2047 - n, f, v);
	va_end(v);
	return r;
}

static void *addr_of(unsigned long a) { return (void *)(BASE + a); }

// ---- accesses by the CPU
static __thread sigjmp_buf jb;
static __thread volatile int segv_code;
static __thread volatile int armed;
static void on_segv(int sig, siginfo_t *si, void *u)
{
	if (!armed) _exit(99);
	segv_code = sig == SIGBUS ? 100 + si->si_code : si->si_code;
	siglongjmp(jb, 1);
}

static int cause_of_segv(void)
{
	if (segv_code == SEGV_MAPERR) return 1;
	if (segv_code == SEGV_ACCERR) return 2;
	return 100 + segv_code;
}

static void hex(char *o, const unsigned char *b, int n) { for (int i = 0; i < n; i++) add(o, "%02x", b[i]); }

static void cpu_access(char *ans, int p, unsigned long a, int len, const unsigned char *w)
{
	int done = 0;
	while (done < len) {
		unsigned long at = a + done;
		int n = PSZ - (at & (PSZ - 1));
		unsigned char b[256];
		volatile unsigned char *q = addr_of(at);
		if (n > len - done) n = len - done;
		armed = 1;
		if (sigsetjmp(jb, 0) == 0) {
			if (w) for (int i = 0; i < n; i++) q[i] = w[done + i];
			else for (int i = 0; i < n; i++) b[i] = q[i];
			armed = 0;
			add(ans, w ? "stored p%d 0x%lx " : "loaded p%d 0x%lx ", p, at);
			hex(ans, w ? w + done : b, n);
			add(ans, "\n");
		} else {
			armed = 0;
			add(ans, "failed p%d 0x%lx %d %d\n", p, at, n, cause_of_segv());
		}
		done += n;
	}
}

// ---- what a process does in its own memory
static int do_own(struct op *o, char *ans)
{
	void *q = addr_of(o->b * PSZ);
	switch (o->kind) {
	case K_MAP:
		if (mmap(q, o->c * PSZ, o->d == 2 ? PROT_READ | PROT_WRITE : PROT_READ,
			 MAP_PRIVATE | MAP_ANONYMOUS | MAP_FIXED_NOREPLACE, -1, 0) == MAP_FAILED)
			add(ans, errno == EEXIST ? "refused 5\n" : "refused e%d\n", errno);
		else
			add(ans, "mapped p%ld %ld %ld %s\n", o->a, o->b, o->c, o->d == 2 ? "rw" : "r");
		break;
	case K_UNMAP:
		if (munmap(q, o->c * PSZ)) add(ans, "refused e%d\n", errno);
		else add(ans, "unmapped p%ld %ld %ld\n", o->a, o->b, o->c);
		break;
	case K_PROTECT:
		if (mprotect(q, o->c * PSZ, o->d == 2 ? PROT_READ | PROT_WRITE : PROT_READ))
			add(ans, errno == ENOMEM ? "refused 1\n" : "refused e%d\n", errno);
		else
			add(ans, "protected p%ld %ld %ld %s\n", o->a, o->b, o->c, o->d == 2 ? "rw" : "r");
		break;
	case K_LOAD:
		cpu_access(ans, o->a, o->b, o->len, NULL);
		break;
	case K_STORE:
		cpu_access(ans, o->a, o->b, o->len, o->bytes);
		break;
	}
	return 0;
}

// ---- calls of the driver, made by the runner, which has the mirrors' files
static int cmd(int fd, unsigned long req, unsigned long page, unsigned long n, void *buf, struct hmm_dmirror_cmd *c)
{
	memset(c, 0, sizeof *c);
	c->addr = BASE + page * PSZ;
	c->npages = n;
	c->ptr = (uintptr_t)buf;
	if (ioctl(fd, req, c)) return errno;
	return 0;
}

static const char *cause_of(int e, char *b)
{
	if (e == EFAULT) return "1";
	if (e == EPERM) return "2";
	sprintf(b, "e%d", e);
	return b;
}

static void mirror_access(char *ans, int m, unsigned long a, int len, const unsigned char *w)
{
	static __thread unsigned char buf[4096] __attribute__((aligned(4096)));
	int done = 0;
	char cb[16];
	while (done < len) {
		unsigned long at = a + done, off = at & (PSZ - 1);
		int n = PSZ - off, e;
		struct hmm_dmirror_cmd c;
		if (n > len - done) n = len - done;
		if (mirfd[m] < 0) {
			add(ans, "failed m%d 0x%lx %d 4\n", m, at, n);
		} else {
			memset(buf, 0, PSZ);
			if (w) memcpy(buf + off, w + done, n);
			e = cmd(mirfd[m], w ? HMM_DMIRROR_WRITE : HMM_DMIRROR_READ, at / PSZ, 1, buf, &c);
			if (e) add(ans, "failed m%d 0x%lx %d %s\n", m, at, n, cause_of(e, cb));
			else {
				add(ans, w ? "stored m%d 0x%lx " : "loaded m%d 0x%lx ", m, at);
				hex(ans, w ? w + done : buf + off, n);
				add(ans, "\n");
			}
		}
		done += n;
	}
}

// todev and tosys: one call for each row of pages that have an area; the driver refuses a call that meets a hole
static void migrate(char *ans, struct op *o, int tosys)
{
	static __thread unsigned char buf[64 * 4096] __attribute__((aligned(4096)));
	int m = o->a, p = mirproc[m], err = 0;
	long i = 0, moved = 0;
	struct hmm_dmirror_cmd c;
	while (i < o->c) {
		long n = 0;
		while (i + n < o->c && (!alive[p] || area[p][o->b + i + n])) n++;
		if (!n) { i++; continue; }
		int e = cmd(mirfd[m], tosys ? HMM_DMIRROR_MIGRATE_TO_SYS : HMM_DMIRROR_MIGRATE_TO_DEV, o->b + i, n, buf, &c);
		if (tosys) moved += e ? 0 : c.cpages;
		else moved += c.faults;
		if (e && !(e == ENOENT && !tosys)) err = e;
		i += n;
	}
	if (err && moved == 0 && !alive[p]) add(ans, "migrated 0\n");
	else if (err) add(ans, "migrated %ld e%d\n", moved, err);
	else add(ans, "migrated %ld\n", moved);
}

static void snap(char *ans, struct op *o)
{
	unsigned char buf[64];
	struct hmm_dmirror_cmd c;
	int e = cmd(mirfd[o->a], HMM_DMIRROR_SNAPSHOT, o->b, o->c, buf, &c);
	for (long i = 0; i < o->c; i++)
		if (e) add(ans, "seen m%ld %ld e%d\n", o->a, o->b + i, e);
		else add(ans, "seen m%ld %ld %02x\n", o->a, o->b + i, buf[i]);
}

static void do_mirror(struct op *o, char *ans)
{
	struct hmm_dmirror_cmd c;
	unsigned char buf[4096];
	int e, fd;
	char cb[16];
	if (o->kind == K_EVICT) {
		e = cmd(devctl[o->a], HMM_DMIRROR_EVICT, 0, 1, buf, &c);
		if (e) add(ans, "evicted e%d\n", e); else add(ans, "evicted %ld\n", (long)c.cpages);
		return;
	}
	if (o->kind == K_REMOVE) {
		e = cmd(devctl[o->a], HMM_DMIRROR_RELEASE, 0, 1, buf, &c);
		if (e) add(ans, "removed e%d\n", e); else add(ans, "removed d%ld\n", o->a);
		return;
	}
	if (o->kind == K_DLOAD) { mirror_access(ans, o->a, o->b, o->len, NULL); return; }
	if (o->kind == K_DSTORE) { mirror_access(ans, o->a, o->b, o->len, o->bytes); return; }
	if (mirfd[o->a] < 0) {
		if (o->kind == K_DADD) add(ans, "failed m%ld 0x%lx 1 4\n", o->a, o->b);
		else add(ans, "refused 4\n");
		return;
	}
	fd = mirfd[o->a];
	switch (o->kind) {
	case K_DETACH:			// to close the file; the driver evicts the whole device, too
		mirfd[o->a] = -1;
		close(fd);
		add(ans, "detached m%ld\n", o->a);
		break;
	case K_TODEV: migrate(ans, o, 0); break;
	case K_TOSYS: migrate(ans, o, 1); break;
	case K_SNAP: snap(ans, o); break;
	case K_EXCL:
		e = cmd(fd, HMM_DMIRROR_EXCLUSIVE, o->b, 1, buf, &c);
		if (e == ENOENT) add(ans, "excluded m%ld %ld e%d\n", o->a, o->b, e);	// it was had, and lost before the end
		else if (e) add(ans, "refused e%d\n", e);
		else add(ans, "excluded m%ld %ld\n", o->a, o->b);
		break;
	case K_DADD:
		for (int k = 0; ; k++) {
			unsigned char io[2] = { o->b & (PSZ - 1) & 0xff, o->c };
			e = cmd(fd, HMM_DMIRROR_ADD, o->b / PSZ, 1, io, &c);
			if (!e) { add(ans, "added m%ld 0x%lx %02x %02x\n", o->a, o->b, io[0], io[1]); break; }
			if (e != EAGAIN || k > 10000) { add(ans, "failed m%ld 0x%lx 1 %s\n", o->a, o->b, cause_of(e, cb)); break; }
			e = cmd(fd, HMM_DMIRROR_EXCLUSIVE, o->b / PSZ, 1, buf, &c);
			if (e && e != EBUSY && e != ENOENT) {
				add(ans, "failed m%ld 0x%lx 1 %s\n", o->a, o->b, cause_of(e, cb));
				break;
			}
			if (e == EBUSY && k > 1000) { add(ans, "failed m%ld 0x%lx 1 e16\n", o->a, o->b); break; }
		}
		break;
	}
}

// ---- a process of a script
static void executor(int p, int a);
static int self_proc;
static void *exec_thread(void *v)	// one thread for an actor, for all runs, until the process is killed
{
	int a = (long)v & 0xff, seen = (long)v >> 8, r;
	for (;;) {
		while ((r = __atomic_load_n(&sh->round, __ATOMIC_ACQUIRE)) == seen) futex(&sh->round, FUTEX_WAIT, seen);
		seen = r;
		executor(self_proc, a);
	}
	return NULL;
}

static void be_process(int p)
{
	struct box *b = &sh->box[p];
	self_proc = p;
	for (;;) {
		while (__atomic_load_n(&b->turn, __ATOMIC_ACQUIRE) != 1) {
			int t = __atomic_load_n(&b->turn, __ATOMIC_ACQUIRE);
			if (t != 1) futex(&b->turn, FUTEX_WAIT, t);
		}
		b->ans[0] = 0;
		b->ret = 0;
		switch (b->op.kind) {
		case K_FORK: {
			int ch = b->op.b;
			sh->box[ch].turn = 0;
			pid_t r = fork();
			if (r == 0) { p = ch; self_proc = ch; b = &sh->box[ch]; continue; }
			b->ret = r;
			break;
		}
		case K_EXIT: _exit(0);
		case K_OPENDEV: {
			char nm[32];
			sprintf(nm, "/dev/hmm_dmirror%d", b->arg);
			b->ret = open(nm, O_RDWR | O_CLOEXEC);
			if (b->ret < 0) b->ret = -errno;
			break;
		}
		case K_CLOSEFD: close(b->arg); break;
		case K_SPAWN: {
			pthread_t t;
			pthread_attr_t at;
			pthread_attr_init(&at);
			pthread_attr_setstacksize(&at, 1 << 20);	// the buffers of ioctls are thread-local
			b->ret = pthread_create(&t, &at, exec_thread, (void *)((long)sh->round << 8 | b->arg));
			if (b->ret) fprintf(stderr, "pthread_create: %ld\n", b->ret);
			break;
		}
		default: do_own(&b->op, b->ans);
		}
		__atomic_store_n(&b->turn, 2, __ATOMIC_RELEASE);
		futex(&b->turn, FUTEX_WAKE, 10);
	}
}

static long call(int p, struct op *o, int kind, int arg)
{
	struct box *b = &sh->box[p];
	if (o) b->op = *o;
	else b->op.kind = kind;
	b->arg = arg;
	__atomic_store_n(&b->turn, 1, __ATOMIC_RELEASE);
	futex(&b->turn, FUTEX_WAKE, 10);
	for (;;) {
		int t = __atomic_load_n(&b->turn, __ATOMIC_ACQUIRE);
		if (t == 2) break;
		futex(&b->turn, FUTEX_WAIT, t);
	}
	__atomic_store_n(&b->turn, 0, __ATOMIC_RELEASE);
	return b->ret;
}

static void wait_gone(int p)
{
	struct pollfd f = { pidfd[p], POLLIN, 0 };
	poll(&f, 1, -1);
	close(pidfd[p]);
	alive[p] = 0;
	while (waitpid(-1, NULL, WNOHANG) > 0);
}

static void start(void)
{
	memset(area, 0, sizeof area);
	for (int i = 0; i < NMIR; i++) { mirfd[i] = -1; mirproc[i] = -1; }
	memset(alive, 0, sizeof alive);
	sh->box[0].turn = 0;
	fflush(out);
	pid_t r = fork();
	if (r == 0) be_process(0);
	pidfd[0] = syscall(SYS_pidfd_open, r, 0);
	alive[0] = 1;
}

static void cleanup(void)
{
	for (int p = 0; p < NPROC; p++) if (alive[p]) {
		syscall(SYS_pidfd_send_signal, pidfd[p], SIGKILL, NULL, 0);
		wait_gone(p);
	}
	for (int m = 0; m < NMIR; m++) if (mirfd[m] >= 0) { close(mirfd[m]); mirfd[m] = -1; }
	while (waitpid(-1, NULL, WNOHANG) > 0);
}

static int taken[NPROC], mtaken[NMIR];

// one operation, from its begin to its end
static void perform(struct op *o, char *ans)
{
	ans[0] = 0;
	switch (o->kind) {
	case K_MAP: case K_UNMAP: case K_PROTECT: case K_FORK: case K_EXIT:
		if (!alive[o->a]) { add(ans, "refused 8\n"); return; }
		break;
	case K_LOAD: case K_STORE:
		if (!alive[o->a]) {
			int done = 0;
			while (done < o->len) {
				unsigned long at = o->b + done;
				int n = PSZ - (at & (PSZ - 1));
				if (n > o->len - done) n = o->len - done;
				add(ans, "failed p%ld 0x%lx %d 1\n", o->a, at, n);
				done += n;
			}
			return;
		}
		break;
	case K_ATTACH:
		if (mtaken[o->a]) { add(ans, "refused 9\n"); return; }
		if (!alive[o->c]) { add(ans, "refused 8\n"); return; }
		break;
	case K_DETACH: case K_TODEV: case K_TOSYS: case K_SNAP: case K_EXCL:
		if (mirfd[o->a] < 0) { add(ans, "refused 4\n"); return; }
	}
	switch (o->kind) {
	case K_FORK: {
		if (taken[o->b]) { add(ans, "refused 7\n"); return; }
		taken[o->b] = 1;
		long pid = call(o->a, o, 0, 0);
		if (pid <= 0) { add(ans, "refused e\n"); return; }
		pidfd[o->b] = syscall(SYS_pidfd_open, pid, 0);
		alive[o->b] = 1;
		memcpy(area[o->b], area[o->a], NPAGE);
		add(ans, "forked p%ld p%ld\n", o->a, o->b);
		return;
	}
	case K_EXIT: {
		struct box *b = &sh->box[o->a];
		b->op = *o;
		__atomic_store_n(&b->turn, 1, __ATOMIC_RELEASE);
		futex(&b->turn, FUTEX_WAKE, 10);
		wait_gone(o->a);
		memset(area[o->a], 0, NPAGE);
		add(ans, "exited p%ld\n", o->a);
		return;
	}
	case K_ATTACH: {
		long fd = call(o->c, NULL, K_OPENDEV, o->b);
		if (fd < 0) { add(ans, "refused e%ld\n", -fd); return; }
		mirfd[o->a] = syscall(SYS_pidfd_getfd, pidfd[o->c], (int)fd, 0);
		mirproc[o->a] = o->c;
		mirdev[o->a] = o->b;
		mtaken[o->a] = 1;
		if (mirfd[o->a] < 0) { add(ans, "refused getfd e%d\n", errno); }
		call(o->c, NULL, K_CLOSEFD, fd);
		add(ans, "attached m%ld d%ld p%ld %ld %ld\n", o->a, o->b, o->c, o->d, o->e);
		return;
	}
	case K_MAP: case K_UNMAP: case K_PROTECT: case K_LOAD: case K_STORE:
		call(o->a, o, 0, 0);
		strcpy(ans, sh->box[o->a].ans);
		if (o->kind == K_MAP && ans[0] == 'm') memset(&area[o->a][o->b], o->d, o->c);
		if (o->kind == K_UNMAP && ans[0] == 'u') memset(&area[o->a][o->b], 0, o->c);
		return;
	default:
		do_mirror(o, ans);
	}
}

// ---- reading
static long num(char **s)
{
	while (**s == ' ') (*s)++;
	if (!strncmp(*s, "rw", 2)) { *s += 2; return 2; }
	if (**s == 'r') { *s += 1; return 1; }
	return strtoul(*s, s, (*s)[0] == '0' && (*s)[1] == 'x' ? 16 : 10);
}
static int parse(char *l, struct op *o)
{
	char w[32];
	char *s = l;
	int n = 0;
	memset(o, 0, sizeof *o);
	while (*s && *s != ' ' && n < 31) w[n++] = *s++;
	w[n] = 0;
	o->kind = -1;
	for (int i = 0; i <= K_DADD; i++) if (!strcmp(w, words[i])) o->kind = i;
	if (o->kind < 0) return -1;
	o->a = num(&s);
	if (o->kind == K_STORE || o->kind == K_DSTORE) {
		o->b = num(&s);
		while (*s == ' ') s++;
		while (s[0] > ' ' && s[1] > ' ') {
			char t[3] = { s[0], s[1], 0 };
			o->bytes[o->len++] = strtoul(t, NULL, 16);
			s += 2;
		}
		return 0;
	}
	o->b = num(&s);
	o->c = num(&s);
	o->d = num(&s);
	o->e = num(&s);
	if (o->kind == K_LOAD || o->kind == K_DLOAD) o->len = o->c;
	return 0;
}

// ---- races
static inline void relax(void) { __builtin_ia32_pause(); }
static void spin(unsigned n) { for (unsigned i = 0; i < n; i++) relax(); }

static int owner_of(struct op *o)	// the process whose thread makes it; -1: a thread of the runner
{
	switch (o->kind) {
	case K_MAP: case K_UNMAP: case K_PROTECT: case K_LOAD: case K_STORE: case K_FORK: case K_EXIT: return o->a;
	case K_ATTACH: return o->c;
	case K_EVICT: case K_REMOVE: return -1;
	}
	return sh->mirowner[o->a];
}

static void executor(int p, int a)
{
	struct prog *g = &sh->prog[a];
	int p0 = p, idle = 0, first = g->n && owner_of(&g->op[0]) == p;
	__atomic_fetch_add(&sh->ready, 1, __ATOMIC_SEQ_CST);
	while (!__atomic_load_n(&sh->go, __ATOMIC_ACQUIRE)) if (!first || ++idle > 20) { sched_yield(); idle = 0; }
	for (;;) {
		int i = __atomic_load_n(&sh->pc[a], __ATOMIC_ACQUIRE);
		if (i >= g->n) break;
		struct op *o = &g->op[i];
		if (owner_of(o) != p) { if (++idle > 300) { sched_yield(); idle = 0; } else relax(); continue; }
		spin(sh->delay[a][i]);
		char *ans = sh->ans[a];
		if (o->kind == K_FORK) {
			int ch = o->b;
			add(ans, "forked p%ld p%ld\n", o->a, o->b);
			long r = syscall(SYS_fork);
			if (r == 0) {
				sh->childpid[ch] = getpid();
				self_proc = p = ch;
				__atomic_store_n(&sh->pc[a], i + 1, __ATOMIC_RELEASE);
				continue;
			}
			while (__atomic_load_n(&sh->pc[a], __ATOMIC_ACQUIRE) == i) relax();
			continue;
		} else if (o->kind == K_ATTACH) {
			char nm[32];
			sprintf(nm, "/dev/hmm_dmirror%ld", o->b);
			long fd = open(nm, O_RDWR | O_CLOEXEC);
			add(ans, "attached m%ld d%ld p%ld %ld %ld\n", o->a, o->b, o->c, o->d, o->e);
			mirfd[o->a] = fd;
			mirproc[o->a] = p;
		} else if (o->kind == K_EXIT) {
			add(ans, "exited p%ld\n", o->a);
			__atomic_store_n(&sh->pc[a], i + 1, __ATOMIC_RELEASE);
			syscall(SYS_exit_group, 0);
		} else if (o->kind >= K_DETACH) do_mirror(o, ans);
		else do_own(o, ans);
		__atomic_store_n(&sh->pc[a], i + 1, __ATOMIC_RELEASE);
	}
	__atomic_fetch_add(&sh->finished, 1, __ATOMIC_SEQ_CST);
	if (p != p0) for (;;) pause();	// a child that was forked in the race
}

static int has_runner[NACT], runner_done;
static void *runner_thread(void *v)
{
	int a = (long)v, seen = 0;
	for (;;) {
		int r;
		while ((r = __atomic_load_n(&sh->round, __ATOMIC_ACQUIRE)) == seen) futex(&sh->round, FUTEX_WAIT, seen);
		seen = r;
		if (has_runner[a]) { executor(-1, a); __atomic_fetch_add(&runner_done, 1, __ATOMIC_SEQ_CST); }
	}
	return NULL;
}

static uint64_t rng = 88172645463325252ULL;
static uint64_t rnd(void) { rng ^= rng << 13; rng ^= rng >> 7; rng ^= rng << 17; return rng; }

#define NKEY 512
static struct { long n; char *s; long firstseed; } keys[NKEY];
static int nkeys;

static double now(void) { struct timespec t; clock_gettime(CLOCK_MONOTONIC, &t); return t.tv_sec + t.tv_nsec / 1e9; }

static int pool_made;
static void race(const char *name, long iters, unsigned maxdelay, struct prog *setup, int nact, double limit)
{
	double t0 = now();
	long it, stuck = 0;
	nkeys = 0;
	for (int m = 0; m < NMIR; m++) sh->mirowner[m] = -1;
	for (int a = 0; a < nact; a++) for (int i = 0; i < sh->prog[a].n; i++)
		if (sh->prog[a].op[i].kind == K_ATTACH) sh->mirowner[sh->prog[a].op[i].a] = sh->prog[a].op[i].c;
	if (!pool_made) {
		pool_made = 1;
		for (long a = 0; a < NACT; a++) { pthread_t t; pthread_create(&t, NULL, runner_thread, (void *)a); }
	}
	int lives = 1, nforks = 0, noexit = 1;
	for (int a = 0; a < nact; a++) for (int i = 0; i < sh->prog[a].n; i++) {
		int k = sh->prog[a].op[i].kind;
		if (k == K_FORK) nforks++;
		if (k == K_EXIT) noexit = 0;
		if (k == K_ATTACH || k == K_DETACH || k == K_EXIT || k == K_REMOVE) lives = 0;
	}
	int up = 0, spawned[NPROC][NACT];	// process 0 and the mirrors serve several runs, if nothing takes them away
	for (it = 0; it < iters && now() - t0 < limit; it++) {
		char ans[2048];
		if (!up) {
			memset(taken, 0, sizeof taken); taken[0] = 1;
			memset(mtaken, 0, sizeof mtaken);
			memset(spawned, 0, sizeof spawned);
			start();
		}
		up++;
		for (int i = 0; i < setup->n; i++)
			if (setup->op[i].kind != K_ATTACH || mirfd[setup->op[i].a] < 0) perform(&setup->op[i], ans);
		sh->ready = sh->go = sh->finished = 0;
		runner_done = 0;
		int need = 0, nrunner = 0;
		for (int a = 0; a < NACT; a++) {
			sh->pc[a] = 0;
			sh->ans[a][0] = 0;
			has_runner[a] = 0;
			if (a >= nact) { sh->prog[a].n = 0; continue; }
			unsigned scale = maxdelay >> (rnd() % 12);
			for (int i = 0; i < sh->prog[a].n; i++) sh->delay[a][i] = scale ? rnd() % (scale + 1) : 0;
			int used[NPROC] = { 0 };
			for (int i = 0; i < sh->prog[a].n; i++) {
				int p = owner_of(&sh->prog[a].op[i]);
				if (p < 0) { if (!has_runner[a]) { has_runner[a] = 1; need++; nrunner++; } }
				else if (alive[p] && !used[p]) {
					used[p] = 1;
					need++;
					if (!spawned[p][a]) { spawned[p][a] = 1; call(p, NULL, K_SPAWN, a); }
				}
			}
		}
		memset(sh->childpid, 0, sizeof sh->childpid);
		__atomic_fetch_add(&sh->round, 1, __ATOMIC_SEQ_CST);
		futex(&sh->round, FUTEX_WAKE, 100);
		while (__atomic_load_n(&sh->ready, __ATOMIC_ACQUIRE) < need) sched_yield();
		__atomic_store_n(&sh->go, 1, __ATOMIC_RELEASE);
		double t1 = now();
		int ok = 1;
		for (;;) {
			int done = 1;
			for (int a = 0; a < nact; a++) if (__atomic_load_n(&sh->pc[a], __ATOMIC_ACQUIRE) < sh->prog[a].n) done = 0;
			if (done) break;
			if (now() - t1 > 20) { ok = 0; break; }
			usleep(100);
		}
		while (ok && __atomic_load_n(&runner_done, __ATOMIC_ACQUIRE) < nrunner) sched_yield();
		while (ok && noexit && __atomic_load_n(&sh->finished, __ATOMIC_ACQUIRE) < need + nforks) sched_yield();
		for (int p = 0; p < NPROC; p++) if (sh->childpid[p] > 0) {
			pidfd[p] = syscall(SYS_pidfd_open, sh->childpid[p], 0);
			if (pidfd[p] >= 0) alive[p] = 1;
		}
		char key[8192];
		key[0] = 0;
		for (int a = 0; a < nact; a++) {
			char *s = sh->ans[a], *e;
			while ((e = strchr(s, '\n'))) {
				*e = 0;
				sprintf(key + strlen(key), "a%d %s|", a, s);
				s = e + 1;
			}
		}
		if (!ok) { stuck++; strcat(key, "stuck|"); }
		int k;
		for (k = 0; k < nkeys; k++) if (!strcmp(keys[k].s, key)) break;
		if (k == nkeys && nkeys < NKEY) { keys[k].s = strdup(key); keys[k].n = 0; keys[k].firstseed = it; nkeys++; }
		if (k < NKEY) keys[k].n++;
		// end the other processes, before the threads are used again
		if (lives && ok && up < 50) {
			for (int p = 1; p < NPROC; p++) {
				if (alive[p]) { syscall(SYS_pidfd_send_signal, pidfd[p], SIGKILL, NULL, 0); wait_gone(p); }
				memset(spawned[p], 0, sizeof spawned[p]);
				taken[p] = 0;
			}
			struct op u = { .kind = K_UNMAP, .a = 0, .b = 0, .c = NPAGE };
			call(0, &u, 0, 0);
			memset(area, 0, sizeof area);
		} else {
			cleanup();
			up = 0;
		}
		if (!ok) { fprintf(out, "stuck %s at run %ld\n", name, it); break; }
	}
	if (up) cleanup();
	fprintf(out, "race %s runs %ld seconds %.1f outcomes %d\n", name, it, now() - t0, nkeys);
	for (int k = 0; k < nkeys; k++) {
		fprintf(out, "outcome %ld first %ld %s\n", keys[k].n, keys[k].firstseed, keys[k].s);
		free(keys[k].s);
	}
	fprintf(out, "end\n");
	fflush(out);
}

static void set_param(const char *name, const char *value)
{
	char path[128];
	snprintf(path, sizeof path, "/sys/module/test_hmm/parameters/%s", name);
	int fd = open(path, O_WRONLY);
	if (fd < 0) { fprintf(out, "no parameter %s\n", name); return; }
	if (write(fd, value, strlen(value)) < 0) fprintf(out, "%s: %s\n", name, strerror(errno));
	close(fd);
}

static void selftests(void)	// the kernel's own hmm-tests
{
	pid_t r = fork();
	if (r == 0) {
		dup2(fileno(out), 1);
		dup2(fileno(out), 2);
		execl("/hmm-tests", "hmm-tests", NULL);
		_exit(127);
	}
	int st;
	waitpid(r, &st, 0);
	fprintf(out, "selftests status %d\n", WEXITSTATUS(st));
	fflush(out);
}

int main(int argc, char **argv)
{
	mkdir("/proc", 0755); mkdir("/sys", 0755); mkdir("/dev", 0755); mkdir("/tmp", 0755);
	mount("none", "/proc", "proc", 0, NULL);
	mount("none", "/sys", "sysfs", 0, NULL);
	mount("none", "/dev", "devtmpfs", 0, NULL);
	mount("none", "/sys/kernel/debug", "debugfs", 0, NULL);
	mount("none", "/tmp", "tmpfs", 0, NULL);
	int fd = open("/dev/ttyS1", O_RDWR | O_NOCTTY);
	struct termios t;
	if (fd >= 0) {
		tcgetattr(fd, &t);
		cfmakeraw(&t);
		cfsetspeed(&t, B115200);
		tcsetattr(fd, TCSANOW, &t);
		out = fdopen(fd, "w");
	} else out = stdout;
	static char obuf[65536];
	setvbuf(out, obuf, _IOFBF, sizeof obuf);
	struct sigaction sa = { 0 };
	sa.sa_sigaction = on_segv;
	sa.sa_flags = SA_SIGINFO | SA_NODEFER;
	sigaction(SIGSEGV, &sa, NULL);
	sigaction(SIGBUS, &sa, NULL);
	signal(SIGCHLD, SIG_DFL);
	sh = mmap(NULL, sizeof *sh, PROT_READ | PROT_WRITE, MAP_SHARED | MAP_ANONYMOUS, -1, 0);
	memset(sh, 0, sizeof *sh);
	prctl(PR_SET_THP_DISABLE, 1, 0, 0, 0);

	FILE *in = fopen("/in", "r");
	char *line = NULL;
	size_t cap = 0;
	static struct prog setup;
	int mode = 0, act = 0, nact = 0;
	char id[64] = "";
	long iters = 0;
	unsigned maxdelay = 0;
	double limit = 1e9;
	long count = 0;
	double t0 = now();
	fprintf(out, "begin\n");
	while (in && getline(&line, &cap, in) > 0) {
		line[strcspn(line, "\n")] = 0;
		if (!strcmp(line, "selftests")) { selftests(); continue; }
		if (!strncmp(line, "delay ", 6)) { set_param("race_delay", line + 6); continue; }
		if (!strncmp(line, "take_all ", 9)) { set_param("take_all", line + 9); continue; }
		if (!strncmp(line, "seed ", 5)) {
			rng = strtoull(line + 5, NULL, 10) * 2654435761ULL + 88172645463325252ULL;
			continue;
		}
		if (devctl[0] < 0 && (!strncmp(line, "script ", 7) || !strncmp(line, "race ", 5))) {
			devctl[0] = open("/dev/hmm_dmirror0", O_RDWR | O_CLOEXEC);
			devctl[1] = open("/dev/hmm_dmirror1", O_RDWR | O_CLOEXEC);
		}
		if (!strncmp(line, "script ", 7)) {
			snprintf(id, sizeof id, "%s", line + 7);
			mode = 1;
			memset(taken, 0, sizeof taken); taken[0] = 1;
			memset(mtaken, 0, sizeof mtaken);
			start();
			fprintf(out, "script %s\n", id);
			count++;
		} else if (!strncmp(line, "race ", 5)) {
			sscanf(line + 5, "%63s %ld %u %lf", id, &iters, &maxdelay, &limit);
			mode = 2;
			setup.n = 0;
			nact = 0;
			for (int a = 0; a < NACT; a++) sh->prog[a].n = 0;
			act = -1;
		} else if (!strncmp(line, "actor ", 6)) {
			act = atoi(line + 6);
			if (act + 1 > nact) nact = act + 1;
		} else if (!strcmp(line, "end")) {
			if (mode == 1) { cleanup(); fprintf(out, "end\n"); }
			else race(id, iters, maxdelay, &setup, nact, limit);
			mode = 0;
		} else {
			struct op o;
			if (parse(line, &o)) { fprintf(out, "bad line %s\n", line); continue; }
			if (mode == 1) {
				char ans[2048];
				perform(&o, ans);
				fputs(ans, out);
			} else if (mode == 2) {
				if (act < 0) setup.op[setup.n++] = o;
				else sh->prog[act].op[sh->prog[act].n++] = o;
			}
		}
	}
	fprintf(out, "off %ld scripts, %.1f seconds\n", count, now() - t0);
	fflush(out);
	tcdrain(fileno(out));
	sync();
	reboot(RB_POWER_OFF);
	reboot(RB_AUTOBOOT);
	return 0;
}
