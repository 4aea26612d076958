// The calls of steer_calls.h for your driver: fill in the first four, and the others if it has memory of its own. Build
// it beside steer_runs.c:
//
//   gcc -O2 -static -Wall -pthread -o steer_runs steer_runs.c calls_NAME.c
#include <errno.h>
#include "steer_calls.h"

// Device `device` (0, or another one of the file NAME.conf) is to see the pages from `first` on: open its file, and
// give it the span if it wants one. What is returned is given to all other calls.
int calls_map(int device, void *first, size_t bytes)
{
	return -ENOSYS;
}

// The device reads the 4,096 bytes of a page, and not the CPU. -EFAULT if it may not.
int calls_read(int handle, void *page, unsigned char *bytes)
{
	return -ENOSYS;
}

int calls_write(int handle, void *page, const unsigned char *bytes)
{
	return -ENOSYS;
}

// The interval is removed. If that takes all threads to leave the driver, it is enough that no new call succeeds.
int calls_let_go(int handle)
{
	return -ENOSYS;
}

int calls_to_device(int handle, void *page, size_t pages)
{
	return -ENOSYS;
}

int calls_to_system(int handle, void *page, size_t pages)
{
	return -ENOSYS;
}

int calls_remove(int handle)
{
	return -ENOSYS;
}
