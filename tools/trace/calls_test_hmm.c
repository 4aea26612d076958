// The calls of steer_calls.h for the kernel's test driver, lib/test_hmm.c. A file of /dev/hmm_dmirrorN sees the whole
// process that opened it.
#include <errno.h>
#include <fcntl.h>
#include <stdint.h>
#include <stdio.h>
#include <sys/ioctl.h>
#include <unistd.h>
#include "steer_calls.h"
#include "test_hmm_uapi.h"

static int call(int handle, unsigned long what, const void *page, size_t pages, const void *bytes)
{
	struct hmm_dmirror_cmd c = { .addr = (uintptr_t)page, .npages = pages, .ptr = (uintptr_t)bytes };

	return ioctl(handle, what, &c) ? -errno : 0;
}

int calls_map(int device, void *first, size_t bytes)
{
	char path[32];
	int file;

	snprintf(path, sizeof path, "/dev/hmm_dmirror%d", device);
	file = open(path, O_RDWR);
	return file < 0 ? -errno : file;
}

int calls_read(int handle, void *page, unsigned char *bytes)
{
	return call(handle, HMM_DMIRROR_READ, page, 1, bytes);
}

int calls_write(int handle, void *page, const unsigned char *bytes)
{
	return call(handle, HMM_DMIRROR_WRITE, page, 1, bytes);
}

int calls_let_go(int handle)
{
	return close(handle) ? -errno : 0;
}

// the driver copies what it moved to `bytes`: 64 pages at the most
int calls_to_device(int handle, void *page, size_t pages)
{
	static __thread unsigned char bytes[64 * 4096];

	return pages > 64 ? -EINVAL : call(handle, HMM_DMIRROR_MIGRATE_TO_DEV, page, pages, bytes);
}

int calls_to_system(int handle, void *page, size_t pages)
{
	static __thread unsigned char bytes[64 * 4096];

	return pages > 64 ? -EINVAL : call(handle, HMM_DMIRROR_MIGRATE_TO_SYS, page, pages, bytes);
}

int calls_remove(int handle)
{
	return call(handle, HMM_DMIRROR_RELEASE, NULL, 1, NULL);
}
