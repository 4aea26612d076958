// Steered runs: makes the races of a plan with real threads, each under its holds, and writes a trace of each run.
//
//   steer_runs PLAN OUT SECONDS
//
// PLAN is what suite.py makes of scripts (docs/SCRIPT.md) and their holds (docs/STEER.md):
//
//   rule NAME RUNS          the races up to the next rule are made one after the other, RUNS times; each time is a run
//   race NAME
//   OPERATION ..            the set-up, one operation of the script in a line
//   actor N                 and what each actor does in the race
//   OPERATION ..
//   holds                   hold, try, call, pages: for hmm_steer, up to `end`
//   end
//
// OUT gets of each run what hmm_probes recorded, between `# run NAME NUMBER` and `# over`, and in comments what was
// answered (`# said RACE ..`), what became of each hold (`# held RACE ..`), the places that threads came to (`# came
// RACE ..`), how each race ended (`# made RACE status S in M ms`), and `# status S` of the run: 0 if all did, 2 the set-up
// failed, 3 a mark was not made, 4 a call is missing, 7 a signal, 8 the holds were refused, 9 it did not end in time.
// After SECONDS no run begins.
//
// A race is made in a process of its own, with a thread for each actor; a forked process of the script is one of the
// system. Page N of the script lies at BASE + N * 4096. The device writes a whole page, with zeros but for its bytes.
#define _GNU_SOURCE
#include <errno.h>
#include <fcntl.h>
#include <pthread.h>
#include <sched.h>
#include <setjmp.h>
#include <signal.h>
#include <stdarg.h>
#include <stdatomic.h>
#include <stdbool.h>
#include <stdint.h>
#include <stdio.h>
#include <stdlib.h>
#include <string.h>
#include <sys/mman.h>
#include <sys/prctl.h>
#include <sys/wait.h>
#include <time.h>
#include <unistd.h>
#include "steer_calls.h"

#define PSZ 4096UL
#define BASE 0x200000000UL
#define STEER "/sys/kernel/debug/hmm_steer/"
#define TRACE "/sys/kernel/debug/hmm_probes/trace"
#define ACTORS 4
#define PROCESSES 4
#define MIRRORS 4
#define OPERATIONS 32
#define RACES 8
#define RUN_SECONDS 10
#define SAID 1024

struct operation { char word[12], text[5][20]; };
struct race {
	char name[64], holds[4096];
	int setup_count, counts[ACTORS];
	struct operation setup[OPERATIONS], of[ACTORS][OPERATIONS];
};
static struct race races[RACES], *race;
static int race_count;

// what the processes of a run share: answers, and the order to a forked process
static struct shared {
	char said[ACTORS][SAID];
	atomic_int ready, ended, order[PROCESSES], is_absent;
	int wanted;
} *shared;
static int mirrors[MIRRORS], me;	// the mirrors' handles, in the process that has them; the process's number

static double now(void)
{
	struct timespec t;

	clock_gettime(CLOCK_MONOTONIC, &t);
	return t.tv_sec + t.tv_nsec / 1e9;
}

static int number(const struct operation *o, int n) { return atoi(o->text[n]); }
static unsigned char *page_of(unsigned long n) { return (unsigned char *)(BASE + n * PSZ); }
static unsigned long address(const struct operation *o) { return strtoul(o->text[1], NULL, 16); }

static void say(char *to, const char *format, ...)
{
	size_t n = strlen(to);
	va_list words;

	va_start(words, format);
	vsnprintf(to + n, SAID - n, format, words);
	va_end(words);
}

// ---- operations. An answer is a line as docs/REPORT.md has it, without the actor; errors are said by their number.

static __thread sigjmp_buf back;
static __thread volatile sig_atomic_t is_armed;

static void on_fault(int signal, siginfo_t *info, void *context)
{
	if (!is_armed)
		_exit(99);
	siglongjmp(back, info->si_code == SEGV_ACCERR ? EACCES : EFAULT);
}

static void cpu(const struct operation *o, char *to)
{
	volatile unsigned char *at = (unsigned char *)(BASE + address(o));
	bool is_store = o->word[0] == 's';
	unsigned byte = strtoul(o->text[2], NULL, 16);
	int failed;

	is_armed = 1;
	failed = sigsetjmp(back, 1);
	if (!failed && is_store)
		*at = byte;
	else if (!failed)
		byte = *at;
	is_armed = 0;
	if (failed)
		say(to, "failed p%s %s 1 %d\n", o->text[0], o->text[1], failed == EACCES ? 2 : 1);
	else
		say(to, "%sed p%s %s %02x\n", is_store ? "stor" : "load", o->text[0], o->text[1], byte);
}

static void device(const struct operation *o, char *to)
{
	static __thread unsigned char bytes[4096] __attribute__((aligned(4096)));
	unsigned long at = address(o);
	bool is_store = o->word[1] == 's';
	int handle = mirrors[number(o, 0)], failed = -EBADF;

	memset(bytes, 0, PSZ);
	if (is_store)
		bytes[at % PSZ] = strtoul(o->text[2], NULL, 16);
	if (handle >= 0)
		failed = is_store ? calls_write(handle, page_of(at / PSZ), bytes) : calls_read(handle, page_of(at / PSZ), bytes);
	if (failed == -ENOSYS)
		shared->is_absent = 1;
	if (failed)
		say(to, "failed m%s %s 1 %d\n", o->text[0], o->text[1],
		    failed == -EBADF ? 4 : failed == -EPERM ? 2 : failed == -EFAULT ? 1 : failed);
	else
		say(to, "%sed m%s %s %02x\n", is_store ? "stor" : "load", o->text[0], o->text[1], bytes[at % PSZ]);
}

// a call of the driver, and what is said if it was done
static void answer(int failed, char *to, const char *text, const struct operation *o)
{
	if (failed == -ENOSYS)
		shared->is_absent = 1;
	if (failed < 0)
		say(to, "refused %d\n", failed);
	else
		say(to, text, o->text[0]);
}

static int own(int result) { return result ? -errno : 0; }

static int right_of(const char *text) { return strchr(text, 'w') ? PROT_READ | PROT_WRITE : PROT_READ; }

static void migrate(const struct operation *o, char *to, bool is_back)
{
	int handle = mirrors[number(o, 0)];
	int failed = is_back ? calls_to_system(handle, page_of(number(o, 1)), number(o, 2)) :
		calls_to_device(handle, page_of(number(o, 1)), number(o, 2));

	// how many pages moved is no answer of the driver
	answer(failed == -ENOENT ? 0 : failed, to, "migrated m%s\n", o);
}

static void operate(const struct operation *o, char *to)
{
	const char *w = o->word;
	unsigned char *page = page_of(number(o, 1));
	size_t bytes = number(o, 2) * PSZ;
	int m = number(o, 0), was;

	if (!strcmp(w, "load") || !strcmp(w, "store"))
		cpu(o, to);
	else if (!strcmp(w, "dload") || !strcmp(w, "dstore"))
		device(o, to);
	else if (!strcmp(w, "map"))
		answer(mmap(page, bytes, right_of(o->text[3]), MAP_PRIVATE | MAP_ANONYMOUS | MAP_FIXED_NOREPLACE, -1, 0) == page ?
		       0 : -errno, to, "mapped p%s\n", o);
	else if (!strcmp(w, "unmap"))
		answer(own(munmap(page, bytes)), to, "unmapped p%s\n", o);
	else if (!strcmp(w, "zap"))		// no script has it
		answer(own(madvise(page, bytes, MADV_DONTNEED)), to, "zapped p%s\n", o);
	else if (!strcmp(w, "protect"))
		answer(own(mprotect(page, bytes, right_of(o->text[3]))), to, "protected p%s\n", o);
	else if (!strcmp(w, "attach")) {
		mirrors[m] = calls_map(number(o, 1), page_of(number(o, 3)), number(o, 4) * PSZ);
		answer(mirrors[m], to, "attached m%s\n", o);
	} else if (!strcmp(w, "detach")) {
		was = mirrors[m];
		mirrors[m] = -1;
		answer(calls_let_go(was), to, "detached m%s\n", o);
	} else if (!strcmp(w, "todev") || !strcmp(w, "tosys"))
		migrate(o, to, w[2] == 's');
	else if (!strcmp(w, "remove"))
		answer(calls_remove(mirrors[0]), to, "removed d%s\n", o);
	else
		say(to, "refused: no operation %s\n", w);
}

// ---- a race

// A thread opens the file anew for each mark: so the module may be unloaded between two of them.
static void mark(const char *word)
{
	int f = open(STEER "mark", O_WRONLY);

	if (f < 0 || write(f, word, strlen(word)) < 0)
		shared->ready += 1000;		// the run is not counted
	close(f);
}

static void *actor(void *number_of)
{
	int a = (uintptr_t)number_of;
	char name[8];

	shared->ready++;
	while (shared->ready < shared->wanted)
		sched_yield();
	snprintf(name, sizeof name, "a%d", a);
	prctl(PR_SET_NAME, name);
	for (int i = 0; i < race->counts[a]; i++) {
		mark("go");
		operate(&race->of[a][i], shared->said[a]);
		mark("done");
	}
	prctl(PR_SET_NAME, "over");
	shared->ended++;
	return NULL;
}

// the process in which an operation is made: its own, or that of the mirror
static int process_of(const struct operation *o)
{
	return strchr("lsupmz", o->word[0]) && strcmp(o->word, "snap") && strcmp(o->word, "remove") ? number(o, 0) : 0;
}

// a thread for each actor of this process, on a processor of its own if there are so many: a thread that is held spins
static void threads(void)
{
	pthread_t of[ACTORS];
	pthread_attr_t how;
	cpu_set_t set;
	int n = 0;

	for (int a = 0; a < ACTORS; a++)
		if (race->counts[a] && process_of(race->of[a]) == me) {
			CPU_ZERO(&set);
			CPU_SET((a + 1) % sysconf(_SC_NPROCESSORS_ONLN), &set);
			pthread_attr_init(&how);
			pthread_attr_setaffinity_np(&how, sizeof set, &set);
			pthread_create(of + n++, &how, actor, (void *)(uintptr_t)a);
		}
	while (n > 0)
		pthread_join(of[--n], NULL);
}

// a forked process: makes the operations that it is told, by their number from 1; -1 is the race, -2 the end
static void child(int number)
{
	char unused[SAID] = "";

	me = number;
	for (int m = 0; m < MIRRORS; m++)
		if (mirrors[m] >= 0)
			close(mirrors[m]);	// the parent's
	for (;;) {
		int order = shared->order[me];

		if (order == -2)
			_exit(0);
		if (order > 0)
			operate(race->setup + order - 1, unused);
		if (order == -1)
			threads();
		if (order)
			atomic_compare_exchange_strong(&shared->order[me], &order, 0);
		usleep(50);
	}
}

static void tell(int process, int order)
{
	shared->order[process] = order;
	while (order > 0 && shared->order[process])
		usleep(20);			// it has made that operation
}

// the set-up, by the processes that the operations are about; gives how many were forked
static int set_up(void)
{
	char said[SAID] = "";
	int children = 0;

	for (int i = 0; i < race->setup_count; i++) {
		struct operation *o = race->setup + i;

		said[0] = 0;
		if (!strcmp(o->word, "fork")) {
			if (number(o, 1) >= PROCESSES)
				_exit(2);
			children++;
			if (!fork())
				child(number(o, 1));
		} else if (process_of(o) != me) {
			tell(process_of(o), i + 1);
		} else {
			operate(o, said);
		}
		if (!strncmp(said, "refused", 7)) {
			say(shared->said[0], "setup %s %s", o->word, said);
			_exit(shared->is_absent ? 4 : 2);
		}
	}
	return children;
}

static void make_race(void)
{
	struct sigaction on = { .sa_sigaction = on_fault, .sa_flags = SA_SIGINFO };
	int n, children;

	sigaction(SIGSEGV, &on, NULL);
	sigaction(SIGBUS, &on, NULL);
	for (int m = 0; m < MIRRORS; m++)
		mirrors[m] = -1;
	children = set_up();
	for (int a = 0; a < ACTORS; a++)
		shared->wanted += race->counts[a] > 0;
	for (n = 1; n < PROCESSES; n++)
		tell(n, -1);
	threads();
	while (shared->ended < shared->wanted)
		usleep(50);
	for (n = 1; n < PROCESSES; n++)
		tell(n, -2);
	while (children--)
		wait(NULL);
	_exit(shared->ready >= 1000 ? 3 : shared->is_absent ? 4 : 0);
}

// ---- the plan

static int text_of(const char *path, char *to, int size)
{
	int f = open(path, O_RDONLY), n = 0, k;

	while (f >= 0 && n < size - 1 && (k = read(f, to + n, size - 1 - n)) > 0)
		n += k;
	to[n] = 0;
	close(f);
	return f >= 0;
}

// the lines of a file, each as a comment that begins so
static void comment(FILE *out, const char *begin, char *lines)
{
	char *line;

	while ((line = strsep(&lines, "\n")))
		if (*line)
			fprintf(out, "# %s %s %s\n", begin, race->name, line);
}

static int set_holds(void)
{
	int f = open(STEER "holds", O_WRONLY), n = strlen(race->holds), said = f < 0 ? -1 : write(f, race->holds, n);

	close(f);
	return said == n;
}

// One race: the status of its process, or 9 if it did not end, 8 if the holds were refused.
static int one_race(FILE *out)
{
	static char said[1 << 15];
	int status, gone = 0;
	double until = now() + RUN_SECONDS;
	pid_t child;

	if (!set_holds()) {
		text_of(STEER "holds", said, sizeof said);
		comment(out, "held", said);
		return 8;
	}
	memset(shared, 0, sizeof *shared);
	fflush(out);
	child = fork();
	if (!child) {
		setpgid(0, 0);
		make_race();
	}
	while (!(gone = waitpid(child, &status, WNOHANG)) && now() < until)
		usleep(200);
	if (!gone)
		kill(-child, SIGKILL);
	for (int a = 0; a < ACTORS; a++)
		for (char *line, *rest = shared->said[a]; (line = strsep(&rest, "\n")) && *line; )
			fprintf(out, "# said %s a%d %s\n", race->name, a, line);
	if (text_of(STEER "holds", said, sizeof said))
		comment(out, "held", said);
	if (text_of(STEER "log", said, sizeof said))
		comment(out, "came", said);
	return !gone ? 9 : WIFEXITED(status) ? WEXITSTATUS(status) : 7;
}

#define TRACE_BYTES (1 << 22)
static char *trace;			// no process of a race has it

static void one_run(FILE *out, const char *rule, int number)
{
	int clear = open(TRACE, O_WRONLY), status = 0;

	if (clear >= 0 && write(clear, "0", 1) < 0)
		perror(TRACE);
	close(clear);
	fprintf(out, "# run %s %d\n", rule, number);
	for (race = races; race < races + race_count; race++) {
		double from = now();
		int was = one_race(out);

		fprintf(out, "# made %s status %d in %.1f ms\n", race->name, was, (now() - from) * 1000);
		status = was ? was : status;
	}
	if (text_of(TRACE, trace, TRACE_BYTES))
		fputs(trace, out);
	fprintf(out, "# status %d\n# over\n", status);
	fflush(out);
}

static void operation_of(char *line, struct operation *o)
{
	char *word;
	int n = -1;

	memset(o, 0, sizeof *o);
	while ((word = strsep(&line, " "))) {
		if (n < 0)
			snprintf(o->word, sizeof o->word, "%s", word);
		else if (n < 5)
			snprintf(o->text[n], sizeof o->text[n], "%s", word);
		n++;
	}
}

// Reads the races of a rule; the file is then at the next rule, or at its end.
static void read_races(FILE *plan)
{
	char line[256];
	int a = -1, is_holds = 0;
	size_t n;
	long at;

	race_count = 0;
	while (at = ftell(plan), fgets(line, sizeof line, plan)) {
		line[strcspn(line, "\n")] = 0;
		race = races + race_count - 1;
		if (!strncmp(line, "rule ", 5)) {
			fseek(plan, at, SEEK_SET);
			return;
		}
		if (!strcmp(line, "end")) {
			is_holds = 0;
		} else if (is_holds) {
			n = strlen(race->holds);
			snprintf(race->holds + n, sizeof race->holds - n, "%s\n", line);
		} else if (!strncmp(line, "race ", 5) && race_count < RACES) {
			memset(races + race_count, 0, sizeof *races);
			sscanf(line + 5, "%63s", races[race_count++].name);
			a = -1;
		} else if (!strcmp(line, "holds")) {
			is_holds = 1;
		} else if (!strncmp(line, "actor ", 6)) {
			a = atoi(line + 6);
		} else if (a < 0 && race->setup_count < OPERATIONS) {
			operation_of(line, race->setup + race->setup_count++);
		} else if (a < ACTORS && race->counts[a] < OPERATIONS) {
			operation_of(line, &race->of[a][race->counts[a]++]);
		}
	}
}

int main(int count, char **words)
{
	FILE *plan = count == 4 ? fopen(words[1], "r") : NULL, *out = plan ? fopen(words[2], "w") : NULL;
	double until = count == 4 ? now() + atof(words[3]) : 0;
	char line[256], rule[64];
	int runs;

	if (!out) {
		fprintf(stderr, "steer_runs: PLAN OUT SECONDS, two files and a number\n");
		return 2;
	}
	shared = mmap(NULL, sizeof *shared, PROT_READ | PROT_WRITE, MAP_SHARED | MAP_ANONYMOUS, -1, 0);
	trace = mmap(NULL, TRACE_BYTES, PROT_READ | PROT_WRITE, MAP_PRIVATE | MAP_ANONYMOUS, -1, 0);
	madvise(trace, TRACE_BYTES, MADV_DONTFORK);
	while (fgets(line, sizeof line, plan)) {
		if (sscanf(line, "rule %63s %d", rule, &runs) != 2)
			continue;
		read_races(plan);
		for (int i = 0; i < runs && now() < until; i++)
			one_run(out, rule, i);
	}
	fprintf(out, "# all\n");
	return fclose(out) ? 1 : 0;
}
