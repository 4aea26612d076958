#!/usr/bin/env python3
"""Writes the kernel's test driver, lib/test_hmm.c of Linux 6.1, with one rule of the protocol left out.

    edit_rules.py SOURCE RULE OUT     SOURCE is the folder of the kernel's source, which is not changed; RULE may be
                                      `right`; OUT is a folder for test_hmm.c, test_hmm_uapi.h and a Makefile
    edit_rules.py --rules             the rules that it can leave out, `right` first
    edit_rules.py --memory            those of them that need a device with coherent memory

The driver is the one of ../linux/edit_driver.py, which is compared with the model: it takes every invalidation. All
drivers here have these changes besides. No line of the kernel stands here, as there.

| Change | Why |
|---|---|
| no chunk of device-private memory, no exclusive access | Debian's kernel has neither |
| a wait sleeps | other threads come in between more often |
| the functions that read, write and give frames out are never inlined | they are probed |
| an assertion of three offsets | the probes are given them |
| a removal of the device's memory says when it gives out no frame any more, evicts until no frame is held, and the memory comes back when a file is opened | the kernel's waits for ever for a frame that it has passed over |
"""
import os
import shutil
import sys

sys.path.insert(0, os.path.join(os.path.dirname(os.path.abspath(__file__)), os.pardir, 'linux'))

from edit_driver import NUMBERS, Source, after, before, change_driver, word

# what init.sh tells the probes of the driver's object
PLACES = '''
static_assert(offsetof(struct dmirror, notifier) == 24 && offsetof(struct dmirror, pt) == 8 &&
	      offsetof(struct dmirror, mdevice) == 0);
'''
# a classic notifier beside the interval's, which knows when an invalidation ends
ENDS = '''
static int dmirror_starts(struct mmu_notifier *mn, const struct mmu_notifier_range *range);
static void dmirror_ends(struct mmu_notifier *mn, const struct mmu_notifier_range *range);
static const struct mmu_notifier_ops dmirror_ends_ops = {
	.invalidate_range_start = dmirror_starts,
	.invalidate_range_end = dmirror_ends,
};
'''
HOOKS = '''
static int dmirror_starts(struct mmu_notifier *mn, const struct mmu_notifier_range *range)
{
	return 0;
}

static void dmirror_ends(struct mmu_notifier *mn, const struct mmu_notifier_range *range)
{
	struct dmirror *dmirror = container_of(mn, struct dmirror, ends);

	atomic_dec(&dmirror->under_way);
	AT_END
}
'''
ERASES = '''mutex_lock(&dmirror->mutex);
	dmirror_do_update(dmirror, range->start, range->end);
	mutex_unlock(&dmirror->mutex);'''
AFTER_DETACH = '''
	{
		struct dmirror_bounce bounce;
		unsigned long pfn = 0;

		if (xa_find(&dmirror->pt, &pfn, ULONG_MAX, XA_PRESENT) &&
		    !dmirror_bounce_init(&bounce, pfn << PAGE_SHIFT, PAGE_SIZE)) {
			mutex_lock(&dmirror->mutex);
			dmirror_do_read(dmirror, pfn << PAGE_SHIFT, (pfn + 1) << PAGE_SHIFT, &bounce);
			mutex_unlock(&dmirror->mutex);
			dmirror_bounce_fini(&bounce);
		}
	}'''
BEFORE_USE = '''
static int dmirror_do_read(struct dmirror *dmirror, unsigned long start,
			   unsigned long end, struct dmirror_bounce *bounce);
'''
# a removal: no frame is given out while it begins, and one that is held is evicted again, as often as it takes
HOLDS = '''
/* says that the device gives out no frame from here on */
static __attribute__((noipa)) void dmirror_withdrawn(struct dev_pagemap *pgmap)
{
	asm volatile("");
}

static void dmirror_withdraw(struct dmirror_device *mdevice)
{
	down_write(&mdevice->giving);
	mdevice->withdrawn = true;
	up_write(&mdevice->giving);
}

static void dmirror_empty(struct dmirror_chunk *chunk)
{
	unsigned long pfn = chunk->pagemap.range.start >> PAGE_SHIFT;
	unsigned long end = chunk->pagemap.range.end >> PAGE_SHIFT;

	while (pfn <= end)
		if (page_count(pfn_to_page(pfn))) {
			fsleep(200);
			dmirror_device_evict_chunk(chunk);
		} else {
			pfn++;
		}
}
'''
GIVES = '''
/* a frame is given out, and its probe is over, before a removal goes on */
static struct page *dmirror_give_page(struct dmirror_device *mdevice)
{
	struct page *page = NULL;

	down_read(&mdevice->giving);
	if (!mdevice->withdrawn)
		page = dmirror_devmem_alloc_page(mdevice);
	up_read(&mdevice->giving);
	return page;
}
'''
COMES_BACK = '''
	dmirror->mdevice->withdrawn = false;
	if (!dmirror_is_private_zone(dmirror->mdevice) && !dmirror->mdevice->devmem_count)
		dmirror_allocate_chunk(dmirror->mdevice, NULL);'''
LATER = '''
static int dmirror_allocate_chunk(struct dmirror_device *mdevice, struct page **ppage);
'''
SAYS = '''
			dmirror_withdrawn(&devmem->pagemap);
			wait_a_while();'''
LATE = '''
			dmirror_withdraw(mdevice);
			spin_lock(&mdevice->lock);
			devmem->remove = true;
			dmirror_remove_free_pages(devmem);
			spin_unlock(&mdevice->lock);
			dmirror_empty(devmem);'''
REMOVES = 'dmirror_device_remove_chunks'
CALLBACK, FAULT = 'dmirror_interval_invalidate', 'dmirror_range_fault'
TO_DEVICE, MAPS = 'dmirror_migrate_alloc_and_copy', 'dmirror_migrate_finalize_and_map'


def gone(line):
    return line[:len(line) - len(line.lstrip())] + ';'


def for_stock_kernel(c):
    c.change(None, 'static struct dmirror_device dmirror_devices[', before(PLACES))
    c.change('dmirror_device_init', 'Build a list of free',
             before('\tif (dmirror_is_private_zone(mdevice))\n\t\treturn 0;\n'))
    c.change('dmirror_exclusive', 'make_device_exclusive_range(', lambda line: '\t\tret = 0;')
    c.change('wait_a_while', 'udelay(', word('udelay(', 'fsleep('))
    with_removal(c)
    for name in ('dmirror_do_read', 'dmirror_do_write', 'dmirror_devmem_alloc_page'):
        c.change(name, 'static ', word('static ', 'static __attribute__((noipa)) '))


def with_removal(c):
    c.change(None, 'cfree;', after('\tstruct rw_semaphore\tgiving;\n\tbool\t\t\twithdrawn;'))
    c.change('dmirror_device_init', 'mutex_init(', after('\tinit_rwsem(&mdevice->giving);'))
    c.change(TO_DEVICE, 'dmirror_devmem_alloc_page(', word('dmirror_devmem_alloc_page(', 'dmirror_give_page('))
    c.change(None, 'static void ' + TO_DEVICE, before(GIVES))
    c.change(None, 'static void ' + REMOVES, before(HOLDS))
    c.change(REMOVES, 'mutex_lock(', before('\tdmirror_withdraw(mdevice);'))
    c.change(REMOVES, 'dmirror_device_evict_chunk(', after('\t\t\tdmirror_empty(devmem);'))
    c.change(REMOVES, 'dmirror_device_evict_chunk(', before(SAYS))
    c.change(None, 'static int dmirror_fops_open', before(LATER))
    c.change('dmirror_fops_open', 'private_data = ', after(COMES_BACK))


def with_ends(c, at_end):
    """Gives the driver a classic notifier, and what it does when an invalidation ends."""
    c.change(None, 'static dev_t dmirror_dev;', after(ENDS))
    c.change(None, 'struct mutex\t\t\tmutex;', after('\tstruct mmu_notifier\t\tends;\n\tatomic_t\t\tunder_way;'))
    c.change(None, 'static const struct mmu_interval_notifier_ops dmirror_min_ops = {',
             before(HOOKS.replace('AT_END', at_end)))
    c.change('dmirror_fops_open', 'private_data = ', after(
        '\tdmirror->ends.ops = &dmirror_ends_ops;\n\tret = mmu_notifier_register(&dmirror->ends, current->mm);\n'
        '\tif (ret)\n\t\treturn ret;'))
    c.change('dmirror_fops_release', 'mmu_interval_notifier_remove(', after(
        '\tmmu_notifier_unregister(&dmirror->ends, dmirror->notifier.mm);'))


def compare(c):
    c.change(FAULT, 'if (mmu_interval_read_retry(', word('if (', 'if (0 && '))


def compare_sequence(c):
    """It asks whether an invalidation is under way, and not for the sequence."""
    with_ends(c, '')
    c.change(CALLBACK, 'mmu_interval_set_seq(', after('\tatomic_inc(&dmirror->under_way);'))
    c.change(FAULT, 'if (mmu_interval_read_retry(', word(
        'if (mmu_interval_read_retry(', 'if (atomic_read(&dmirror->under_way) && mmu_interval_read_retry('))


def entry_right(c):
    c.change('dmirror_do_fault', 'HMM_PFN_WRITE', word('if (', 'if (1 || '))


def mmap_lock(c):
    c.change(FAULT, 'mmap_read_lock(', gone)
    c.change(FAULT, 'mmap_read_unlock(', gone)


def begin_waits(c):
    """It reads the interval's sequence itself, and waits for nothing."""
    c.change(FAULT, 'mmu_interval_read_begin(',
             lambda line: '\t\trange->notifier_seq = READ_ONCE(range->notifier->invalidate_seq);')


def begin_first(c):
    begin_waits(c)
    c.change(FAULT, '\t\tmutex_lock(', before('\t\trange->notifier_seq = mmu_interval_read_begin(range->notifier);'))


def set_sequence(c):
    c.change(CALLBACK, 'mmu_interval_set_seq(', gone)


def erase(c):
    c.change(CALLBACK, 'dmirror_do_update(', gone)


def erase_all(c):
    """It erases the first page of the span alone."""
    c.change(CALLBACK, 'dmirror_do_update(', word('range->start, range->end', 'range->start, range->start'))


def erase_in_time(c):
    erase(c)
    with_ends(c, ERASES)


def write_entry(c):
    c.change('dmirror_do_write', 'DPT_XA_TAG_WRITE', lambda line: '\t\tif (!page)')


def stop_at_detach(c):
    c.change(None, 'static int dmirror_fops_open', before(BEFORE_USE))
    c.change('dmirror_fops_release', 'mmu_interval_notifier_remove(', after(AFTER_DETACH))


def own_events(c):
    """As it is in the kernel: it takes no invalidation of its own migrations."""
    c.change(None, 'static int take_all = 1;', word('1', '0'))


def erases_copied(c):
    c.change(TO_DEVICE, 'rpage = BACKING_PAGE(', before('\t\txa_erase(&dmirror->pt, addr >> PAGE_SHIFT);'))


def own_sequence(c):
    own_events(c)
    erases_copied(c)


def own_entries(c):
    """It sets the sequence, under its lock, and erases when it copies."""
    c.change(CALLBACK, 'dmirror_do_update(', before(
        '\tif (range->event != MMU_NOTIFY_MIGRATE || range->owner != dmirror->mdevice)'))
    erases_copied(c)


def set_right(c):
    c.change(MAPS, 'MIGRATE_PFN_WRITE', word('if (', 'if (1 || '))


def set_moved(c):
    c.change(MAPS, 'MIGRATE_PFN_MIGRATE', word('if (', 'if (0 && '))


def drop_lost(c):
    c.change(MAPS, 'MIGRATE_PFN_MIGRATE', before(
        '\t\tif (!(*src & MIGRATE_PFN_MIGRATE) && migrate_pfn_to_page(*dst))\n'
        '\t\t\tget_page(migrate_pfn_to_page(*dst));'))


def take_from_there(c):
    """It says that it gives out no frame any more, and does until all are evicted."""
    for line in ('dmirror_withdraw(', 'remove = true', 'dmirror_remove_free_pages('):
        c.change(REMOVES, line, gone)
    c.change(REMOVES, 'dmirror_empty(', after(LATE))


def withdraw_first(c):
    """It never says so. (The function stays, so that it can be probed.)"""
    c.change(REMOVES, 'dmirror_withdrawn(', word('dmirror_', 'if (READ_ONCE(race_delay) == ~0U) dmirror_'))


MEMORY = {'own-events': own_events, 'own-sequence': own_sequence, 'own-entries': own_entries, 'set-right': set_right,
          'set-moved': set_moved, 'drop-lost': drop_lost, 'take-from-there': take_from_there,
          'withdraw-first': withdraw_first}
RULES = {'right': lambda c: None, 'compare': compare, 'compare-sequence': compare_sequence, 'entry-right': entry_right,
         'mmap-lock': mmap_lock, 'begin-waits': begin_waits, 'begin-first': begin_first, 'set-sequence': set_sequence,
         'erase': erase, 'erase-all': erase_all, 'erase-in-time': erase_in_time, 'write-entry': write_entry,
         'stop-at-detach': stop_at_detach, **MEMORY}


def main(source, rule, out):
    os.makedirs(out, exist_ok=True)
    for name in ('test_hmm.c', 'test_hmm_uapi.h'):
        shutil.copy(os.path.join(source, 'lib', name), out)
    driver, header = Source(out + '/test_hmm.c'), Source(out + '/test_hmm_uapi.h')
    change_driver(driver)
    for_stock_kernel(driver)
    RULES[rule](driver)
    header.change(None, '#define HMM_DMIRROR_RELEASE', after(NUMBERS))
    driver.save()
    header.save()
    with open(out + '/Makefile', 'w') as file:
        file.write('obj-m := test_hmm.o\n')


if __name__ == '__main__':
    if sys.argv[1:] == ['--rules']:
        print(*RULES)
    elif sys.argv[1:] == ['--memory']:
        print(*MEMORY)
    elif len(sys.argv) == 4 and sys.argv[2] in RULES:
        main(*sys.argv[1:])
    else:
        print(__doc__.strip())
        sys.exit(0 if {'--help', '-h'} & set(sys.argv[1:]) else 2)
