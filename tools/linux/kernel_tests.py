"""The kernel's own hmm-tests, run in the guest with the stock kernel."""
import re

import guest_runs

CANNOT = {
    'anon_read_prot': 'PROT_NONE', 'anon_write_child_shared': 'shared memory', 'anon_write_huge': 'huge pages',
    'anon_write_hugetlbfs': 'hugetlb', 'file_read': 'files', 'file_write': 'files', 'migrate_file_private': 'files',
    'migrate_shared': 'shared memory', 'mixedmap': "the driver's own mmap", 'compound': 'hugetlb',
    'hmm_gup_test': 'get_user_pages'}


def run(work):
    """The path of what the tests wrote."""
    return guest_runs.boot(work, 'stock', 'selftests\n', 'selftests', 1200)


def results(path):
    """Of each test `ok`, `skipped` or `failed`."""
    found, is_skipped = {}, False
    for line in open(path, errors='replace'):
        if re.match(r'# +RUN ', line):
            is_skipped = False
        is_skipped = is_skipped or re.match(r'# +SKIP ', line) is not None
        match = re.match(r'# +(OK|FAIL) +(\S+)', line)
        if match:
            found[match[2]] = 'failed' if match[1] == 'FAIL' else 'skipped' if is_skipped else 'ok'
    return found


def show(path, scripts):
    """Prints the table of the tests, each with the scripts that say it; gives how many failed."""
    found = results(path)
    private = {name.split('.')[-1]: how for name, how in found.items() if 'device_private' in name}
    print("The kernel's own hmm-tests, and the scripts that say them")
    for name, how in private.items():
        said = [script for script in scripts if re.fullmatch(name + r'(_\d)?', script)]
        print(f"  {name:28} {how:8} {' '.join(said) or 'no script: ' + CANNOT.get(name, '?')}")
    failed = sum(how == 'failed' for how in found.values())
    ended = sum(how == 'ok' for how in found.values())
    skipped = sum(how == 'skipped' for how in found.values())
    print(f'  {len(found)} tests: {ended} ok, {skipped} skipped, {failed} failed')
    return failed + (not found)
