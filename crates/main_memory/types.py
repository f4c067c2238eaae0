#!/usr/bin/env python3
"""Shows that only the driver's buffers are stored and fetched, and only the adapter's have windows: a call with the other one does not
compile. An edit in `must-fail/` can't show it (`must-fail/store_on_bus.md` says why), so this script tries each call on a copy of the crate,
and ends with 0 if `rt check` refuses just these, by their types.

    types.py      run it at any place; it takes some seconds, and proves nothing
"""
import os, re, shutil, subprocess, sys, tempfile

HERE = os.path.dirname(os.path.abspath(__file__))
# A call, and what is refused at its buffer.
CALLS = {
    'pub fn store_on_bus(memory: &mut MainMemory, buffer: &Buffer<Bus>, from: &[u8; 512]) { memory.store(buffer, 0, from); }':
        'expected `&Buffer<Cpu>`, found `&Buffer<Bus>`',
    'pub fn fetch_on_bus(memory: &MainMemory, buffer: &Buffer<Bus>, into: &mut [u8; 512]) { memory.fetch(buffer, 0, into); }':
        'expected `&Buffer<Cpu>`, found `&Buffer<Bus>`',
    'pub fn fill_on_bus(memory: &MainMemory, buffer: &Buffer<Bus>) -> Option<u8> { memory.fill(buffer, 0) }':
        'expected `&Buffer<Cpu>`, found `&Buffer<Bus>`',
    'pub fn give_back_on_bus(memory: &mut MainMemory, buffer: Buffer<Bus>) { memory.give_back(buffer); }':
        'expected `Buffer<Cpu>`, found `Buffer<Bus>`',
    'pub fn window_on_cpu(memory: &mut MainMemory, buffer: &Buffer<Cpu>) { let _ = memory.window(buffer, 0); }':
        'expected `&Buffer<Bus>`, found `&Buffer<Cpu>`',
}


def said_of(calls):
    """what `rt check` says of the crate with these functions at its end"""
    with tempfile.TemporaryDirectory() as room:
        for name in ('no_memory', 'main_memory'):
            for part in ('src', 'specs', 'proofs'):
                if os.path.isdir(f'{HERE}/../{name}/{part}'):
                    shutil.copytree(f'{HERE}/../{name}/{part}', f'{room}/crates/{name}/{part}')
        with open(f'{HERE}/../../crates.txt') as listed, open(f'{room}/crates.txt', 'w') as lines:
            lines.writelines(line for line in listed if line.startswith(('no_memory:', 'main_memory:')))
        with open(f'{room}/crates/main_memory/src/lib.rt', 'a') as root:
            root.write('\n' + '\n'.join(calls) + '\n')
        ran = subprocess.run(['rt', 'check'], cwd=f'{room}/crates/main_memory', capture_output=True, text=True)
        return ran.stdout + ran.stderr


if __name__ == '__main__':
    said = re.findall(r'src/lib\.rt:\d+:\d+: error\[mismatched-types\]: (expected `[^`]*`, found `[^`]*`)', said_of(CALLS))
    print(*said, sep='\n')
    if said != list(CALLS.values()):
        sys.exit('crates/main_memory: of the calls in types.py, `rt check` must refuse each by the type of its buffer, and does not')
