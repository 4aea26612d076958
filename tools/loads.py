#!/usr/bin/env python3
"""What the prover loads to check what stands on a library: how many bytes of which crate, and of which functions.

    tools/loads.py NAME [N]     the library NAME, proved in this checkout (crates/NAME/out/rlib); the N dearest functions

A library that is proved carries the modules that its own check loaded or made, and says how long each is. A check loads
them with every type that it reaches: all functions of the type that are `pub`, and all that is derived for it. So this
shows what a `pub` or a `derive` costs the crates above.
"""
import collections
import json
import pathlib
import re
import sys

import words as given

MODULE = re.compile(r'part/Rattle-([a-z_]+)(?:-specs|-proofs)?[.-]?(?:contracts\.)?(.*)')


def modules(name):
    """The modules that the library carries: the crate that each is of, its path in there, and its length in bytes."""
    top = pathlib.Path(__file__).resolve().parent.parent
    listed = top / f'crates/{name}/out/rlib/{name}.rlib/toolchain/checked.json'
    if not listed.exists():
        sys.exit(f'loads.py: {name} is not proved here: run `rt check` in crates/{name}')
    for line in listed.read_text().splitlines():
        path, _, length = json.loads(line)
        found = MODULE.match(path)
        if found:
            yield found[1], found[2], length


def main():
    given.begin(__doc__)
    if len(sys.argv) not in (2, 3):
        given.refuse('the name of a library is wanted')
    crates, functions, count = collections.Counter(), collections.Counter(), 0
    for crate, path, length in modules(sys.argv[1]):
        count += 1
        crates[crate] += length
        functions[f'{crate}.{path.rpartition(".")[0]}'] += length
    print(f'{sum(crates.values()) / 1e6:.1f} MB in {count} modules')
    for crate, length in crates.most_common():
        print(f'{length / 1e6:8.1f} MB  {crate}')
    for function, length in functions.most_common(int(sys.argv[2]) if len(sys.argv) == 3 else 20):
        print(f'{length / 1e3:8.0f} kB  {function}')


main()
