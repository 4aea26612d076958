// What the program of steered runs (steer_runs.c) asks of a driver. calls_test_hmm.c has the calls of lib/test_hmm.c,
// calls_template.c is to be filled in for another driver. Each gives -errno if it fails. A call that the driver has not
// gives -ENOSYS: then what needs it is not asked.
//
// All are called in the process whose pages they are about, by one thread or by several at once.
#include <stddef.h>

int calls_map(int device, void *first, size_t bytes);	// device `device` sees these pages from now on: a handle
int calls_read(int handle, void *page, unsigned char *bytes);	// the device reads the page's 4,096 bytes
int calls_write(int handle, void *page, const unsigned char *bytes);	// it writes them
int calls_let_go(int handle);				// it sees nothing of the process any more

// only a driver with memory of its own has these
int calls_to_device(int handle, void *page, size_t pages);	// moves pages there
int calls_to_system(int handle, void *page, size_t pages);	// and back
int calls_remove(int handle);				// removes the memory of the handle's device
