// The guest's program: races of real threads on the kernel's test driver, and a trace of each.
//
//   racer RULE ROUNDS WRITES SECONDS DEVICE OUT [FIRST [REMOVES]]
//
// Each round is a run of its own: the trace is cleared, a file of the driver is opened, and for a short time threads
// make system calls on a few pages while others ask the driver for reads, writes and snapshots of them. WRITES is how
// many of eight calls of the driver are writes: a broken driver that writes may spoil the guest. A third kind of calls
// migrates to the device and back, if DEVICE is not 0: the driver's device of that number, with coherent memory. If
// REMOVES is not 0, that memory is removed in each round, while the threads go on; a file that is opened brings it back. Then
// the trace is written to OUT, between lines `# run RULE NUMBER status S` and `# over`.
#define _GNU_SOURCE
#include <fcntl.h>
#include <pthread.h>
#include <stdint.h>
#include <stdio.h>
#include <stdlib.h>
#include <string.h>
#include <sys/ioctl.h>
#include <sys/mman.h>
#include <sys/wait.h>
#include <time.h>
#include <unistd.h>
#include "test_hmm_uapi.h"

#define PAGES 6
#define PSZ 4096UL
#define BASE ((char *)0x200000000UL)
#define TRACE "/sys/kernel/debug/hmm_probes/trace"

static int driver, writes, device_number, removes, work_of;

// drawn numbers: the same seed draws the same
struct dice { uint64_t x; };
static unsigned roll(struct dice *d, unsigned sides)
{
	d->x = d->x * 6364136223846793005ULL + 1442695040888963407ULL;
	return (unsigned)(d->x >> 33) % sides;
}

// a drawn span of the pages
static void span(struct dice *d, int *first, int *count)
{
	*first = roll(d, PAGES);
	*count = 1 + roll(d, PAGES - *first < 3 ? PAGES - *first : 3);
}

static long call(unsigned long what, int first, int count, void *buffer)
{
	struct hmm_dmirror_cmd c = { .addr = (uintptr_t)BASE + first * PSZ, .npages = count, .ptr = (uintptr_t)buffer };

	return ioctl(driver, what, &c);
}

// a thread of the device: reads, writes, snapshots, migrations
static void *device(void *seed)
{
	static __thread char buffer[PAGES * 4096] __attribute__((aligned(4096)));
	struct dice d = { (uintptr_t)seed };
	int first, count;

	for (int i = 0; i < work_of; i++) {
		unsigned kind = roll(&d, 8);

		span(&d, &first, &count);
		if (device_number && roll(&d, 3) == 0)
			call(roll(&d, 2) ? HMM_DMIRROR_MIGRATE_TO_DEV : HMM_DMIRROR_MIGRATE_TO_SYS, first, count, buffer);
		else if ((int)kind < writes)
			call(HMM_DMIRROR_WRITE, first, count, buffer);
		else if (kind == 7 && roll(&d, 2))
			call(HMM_DMIRROR_SNAPSHOT, first, count, buffer);
		else
			call(HMM_DMIRROR_READ, first, count, buffer);
	}
	return NULL;
}

static void map(int first, int count, int right)
{
	mmap(BASE + first * PSZ, count * PSZ, right, MAP_PRIVATE | MAP_ANONYMOUS | MAP_FIXED, -1, 0);
}

// a store, made by the kernel so that a page without the right gives an error and no signal
static void store(int first, int count)
{
	int zero = open("/dev/zero", O_RDONLY);

	if (read(zero, BASE + first * PSZ, 8) < 0)
		map(first, count, PROT_READ | PROT_WRITE);
	close(zero);
}

// a thread of the process: stores, unmaps, protects, forks, forgets
static void *process(void *seed)
{
	struct dice d = { (uintptr_t)seed };
	int first, count, child;

	for (int i = 0; i < work_of * 2; i++) {
		span(&d, &first, &count);
		switch (roll(&d, 8)) {
		case 0:
			munmap(BASE + first * PSZ, count * PSZ);
			map(first, count, PROT_READ | PROT_WRITE);
			break;
		case 1:
			map(first, count, PROT_READ);
			break;
		case 2:
			mprotect(BASE + first * PSZ, count * PSZ, PROT_READ);
			break;
		case 3:
			mprotect(BASE + first * PSZ, count * PSZ, PROT_READ | PROT_WRITE);
			break;
		case 4:
			child = fork();
			if (!child)
				_exit(0);
			if (roll(&d, 2))
				usleep(roll(&d, 300));
			waitpid(child, NULL, 0);
			break;
		case 5:
			madvise(BASE + first * PSZ, count * PSZ, MADV_DONTNEED);
			break;
		default:
			store(first, count);
		}
	}
	return NULL;
}

// one run, in a process of its own: the file is closed while the process's threads go on
static void round_of(unsigned number)
{
	pthread_t threads[4];
	char path[32];
	int devices = 1 + number % 2, n = 0;

	snprintf(path, sizeof path, "/dev/hmm_dmirror%d", device_number);
	map(0, PAGES, PROT_READ | PROT_WRITE);
	memset(BASE, 1, PAGES * PSZ);
	driver = open(path, O_RDWR);
	if (driver < 0) {
		perror(path);
		_exit(3);
	}
	work_of = 6 + number % 3 * 6;		// of the process's threads twice as many
	for (int i = 0; i < devices; i++)
		pthread_create(threads + n++, NULL, device, (void *)(uintptr_t)(number * 64ULL + i + 1));
	for (int i = 0; i < 1 + (int)(number / 2 % 2); i++)
		pthread_create(threads + n++, NULL, process, (void *)(uintptr_t)(number * 64ULL + 32 + i));
	if (removes) {
		struct dice d = { number };

		usleep(roll(&d, 20000));
		call(HMM_DMIRROR_RELEASE, 0, 1, NULL);
	}
	for (int i = 0; i < n; i++) {
		if (i == devices)
			close(driver);
		pthread_join(threads[i], NULL);
	}
	_exit(0);
}

static void copy(const char *from, FILE *to)
{
	static char block[1 << 16];
	FILE *f = fopen(from, "r");
	size_t n;

	while (f && (n = fread(block, 1, sizeof block, f)) > 0)
		fwrite(block, 1, n, to);
	if (f)
		fclose(f);
}

int main(int n, char **words)
{
	if (n < 7) {
		fprintf(stderr, "racer RULE ROUNDS WRITES SECONDS DEVICE OUT [FIRST]\n");
		return 2;
	}
	int rounds = atoi(words[2]), first = n > 7 ? atoi(words[7]) : 0;
	time_t until = time(NULL) + atoi(words[4]);
	FILE *out = fopen(words[6], "w");

	if (!out) {
		perror(words[6]);
		return 1;
	}
	writes = atoi(words[3]);
	device_number = atoi(words[5]);
	removes = n > 8 ? atoi(words[8]) : 0;
	for (int i = first; i < first + rounds && time(NULL) < until; i++) {
		int clear = open(TRACE, O_WRONLY), status;
		pid_t child;

		if (clear < 0 || write(clear, "0", 1) < 0) {
			perror(TRACE);
			return 1;
		}
		close(clear);
		child = fork();
		if (!child)
			round_of(i);
		waitpid(child, &status, 0);
		fprintf(out, "# run %s %d status %d\n", words[1], i, status);
		copy(TRACE, out);
		fprintf(out, "# over\n");
		fflush(out);
	}
	return fclose(out) ? 1 : 0;
}
