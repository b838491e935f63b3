#!/usr/bin/env python3
"""Makes, from the exports in Rattle, C code that compiles only if include/norphuen.h agrees; compares the names in the
bindings. checks/c_library compiles it.

  checks/c_library.py header CRATE   the C code, for one static library
  checks/c_library.py names CRATE    the names of its exports, one a line
  checks/c_library.py bindings CRATE compares the bindings for Rust and Ada with them
"""
import re, subprocess, sys
from pathlib import Path

HEADER, BASE, HELD = Path('include/norphuen.h'), Path('crates/c_base/src'), Path('crates/held_heap/src')
SLICED, TASKS, IMAGES, LARGE = 'norphuen_sliced', 'norphuen_tasks', 'norphuen_images', 'norphuen_large'
# Libraries with calls of their own, without short names: each has a file of the bindings.
OWN = (SLICED, TASKS, IMAGES, LARGE)
NUMBERS = {'u8': 'uint8_t', 'u32': 'uint32_t', 'u64': 'uint64_t', 'i32': 'nph_status', 'usize': 'size_t', 'bool': 'bool', '': 'void'}
RUST = {'NphHeap': 'RawHeap', 'NphNeeded': 'Needed', 'NphNeed': 'Need', 'NphFreed': 'RawFreed', 'NphResized': 'RawResized', 'NphClass': 'Class', 'NphHeapTotals': 'HeapTotals', 'NphCounted': 'Counted', 'NphTask': 'Task'}
ADA = {'u8': 'Unsigned_8', 'u32': 'Unsigned_32', 'u64': 'Unsigned_64', 'bool': 'Unsigned_8', '*mut u64': 'System.Address',
       '[u8]': 'Bytes', '[NphNeed]': 'Needs', 'NphHeap': 'Heap', 'NphNeeded': 'Needed', 'NphNeed': 'Need', 'NphFreed': 'Freed', 'NphResized': 'Resized', 'NphClass': 'Class', 'NphHeapTotals': 'Heap_Totals', 'NphCounted': 'Counted', 'NphTask': 'Task_Figures'}
# The names of each library begin with this; its heap is named so too.
PREFIXES = {'norphuen': 'nph_', 'norphuen_nonmoving': 'nph_nm_', 'norphuen_tlsf': 'nph_tlsf_', 'norphuen_half': 'nph_half_', SLICED: 'nph_sliced_', TASKS: 'nph_tasks_', IMAGES: 'nph_images_', LARGE: 'nph_large_'}
# The exports that a library may lack, if an object's words are not side by side there.
LOAN = {'place', 'lend', 'return'}
# The exports of a library with pages.
PAGED = {'class_of', 'pages_needed', 'set_bound'}
# Structs of other crates: the file that has them, their name there.
ELSEWHERE = {'NphNeed': (Path('crates/quota_model/src/results.rt'), 'Need')}
# Parameters with another name in C: `class` is a word of C++.
IN_C = {'out': 'bytes', 'class': 'size_class'}


# Ends the check with this text.
def fail(text):
    sys.exit('checks/c_library: ' + text)


# The name in C of a struct in Rattle: NphFreed is nph_freed. Each library has a type of heap.
def snake(name):
    return PREFIXES[crate] + 'heap' if name == 'NphHeap' else re.sub(r'(?<!^)([A-Z])', r'_\1', name).lower()


# The name of an export without its library's prefix.
def bare(name):
    return name.removeprefix(PREFIXES[crate])


def c_type(rust):
    """The C type of a number, a pointer to numbers, or a struct of the header."""
    return c_type(rust[5:]) + ' *' if rust.startswith('*mut ') else NUMBERS.get(rust) or snake(rust)


def exports(crate):
    """Each export: its name, its parameters as (name, reference, type), its result."""
    text = Path('crates', crate, 'src/lib.rt').read_text()
    found = []
    for marked, name, inside, result in re.findall(
            r'(#\[unsafe\(no_mangle\)\]\s*)?pub extern "C" fn (\w+)\(([^)]*)\)(?: -> (\w+))?', text):
        if not marked or not name.startswith(PREFIXES[crate]):
            fail(f'{crate}: {name} is not exported under its name, which begins with {PREFIXES[crate]}')
        parameters = []
        for part in filter(None, (part.strip() for part in inside.split(','))):
            match = re.fullmatch(r'(\w+): (&mut |&)?(\[\w+\]|\*mut \w+|\w+)', part) or fail(f'{crate}: cannot read the parameter {part} of {name}')
            if match[3] != 'Memory':
                parameters.append(match.groups())
        found.append((name, parameters, result))
    if text.count('#[unsafe(no_mangle)]') != len(found) or not found:
        fail(f'{crate}: cannot read its exports')
    return found


# Whether the library has the calls of a loan: all of them or none.
def lends(crate):
    found = LOAN & {bare(name) for name, _, _ in exports(crate)}
    if found not in (set(), LOAN):
        fail(f'{crate} exports {sorted(found)} alone')
    return bool(found)


# The names in C of the parameters of an export; a slice is a pointer and a count.
def c_names(parameters):
    return [part for word, _, rust in parameters for part in [IN_C.get(word, word)] + ['count'] * (rust[0] == '[')]


# The C types of the parameters of an export; a slice of bytes is a pointer to anything and a count.
def c_parameters(parameters):
    for _, reference, rust in parameters:
        const = 'const ' if reference == '&' else ''
        if rust == '[u8]':
            yield f'{const}void *'
            yield 'size_t'
        else:
            yield f'{const}{c_type(rust.strip("[]"))} *' if reference else c_type(rust)
            if rust[0] == '[':
                yield 'size_t'


def structs(crate):
    """Each #[repr(C)] struct that the crate uses: its fields in their order; a ghost field is none."""
    text = Path('crates', crate, 'src/lib.rt').read_text()
    below, module = (re.search(r'use (crate|held_heap)::(\w+)::NphHeap;', text) or fail(f'{crate}: no NphHeap')).groups()
    found = {}
    aliases = {(file, there): here for here, (file, there) in ELSEWHERE.items()}
    for file in [*sorted(BASE.glob('*.rt')), *sorted(Path('crates', crate if below == 'crate' else below, 'src').glob('*.rt')), *{file for file, _ in aliases}]:
        if 'pub struct NphHeap {' in file.read_text() and file.stem != module:
            continue
        for name, inside in re.findall(r'#\[repr\(C\)\]\n(?:#\[[^\n]*\]\n)*pub struct (\w+) \{\n(.*?)\n\}', file.read_text(), re.S):
            name = aliases.get((file, name), name)
            # A `Lent` and a `Nothing` have no bytes.
            lines = [line for line in inside.split('\n') if line.strip() and not re.search(r'ghost |//|: (Lent|Nothing),$', line)]
            fields = re.findall(r'^ +(?:pub(?:\(crate\))? )?(\w+): ([^,{]+),$', '\n'.join(lines), re.M)
            if len(fields) != len(lines):
                fail(f'{file}: cannot read the struct {name}')
            if found.setdefault(name, fields) != fields:
                fail(f'{file}: another struct {name}')
    return found


# A field of a struct that repeats in C what the struct in Rattle has.
def twin_field(name, rust):
    return f'    void *{name};' if rust.startswith('*mut ') else f'    {"struct twin_" + rust if rust[0].isupper() else c_type(rust)} {name};'


# The struct with the address of the heap's block.
def block_of(all_structs):
    return next(name for name in ('Place', 'HeapBlock') if name in all_structs)


# Ends the check unless these are the fields of the struct. The heap of a library that doesn't lend may lack the last ones.
def compare_fields(crate, where, name, given, wanted):
    if given[:len(wanted)] != wanted or len(given) > len(wanted) and (name != 'NphHeap' or lends(crate)):
        fail(f'{where} has {given}, {name} of {crate} has {wanted}')


# The declarations of the library in the header: each name with its parameters' names. Each has its attribute, and in those of
# the short names a comment stands above.
def declarations(text):
    found = {}
    call = '__attribute__((nonnull, warn_unused_result)) '
    expanded = subprocess.run(['gcc', '-E', '-P', HEADER], capture_output=True, text=True, check=True).stdout
    for attribute, kind, name, inside in re.findall(r'(__attribute__\(\([^;{}]*\)\) )?\b(nph_status|void|uint32_t|uint64_t) (nph_\w+)\(([^();]*)\);', expanded):
        if [PREFIXES[crate]] != sorted((it for it in PREFIXES.values() if name.startswith(it)), key=len)[-1:]:
            continue
        if attribute != {'nph_status': call, 'void': '__attribute__((nonnull)) ', 'uint32_t': '', 'uint64_t': ''}[kind]:
            fail(f'the header declares {name} with another attribute')
        shown = name if crate in OWN else 'nph_' + bare(name)
        if not re.search(rf'\*/\n(?:NPH_\w+ )?{kind} {shown}\(', text):
            fail(f'the header has no comment above {shown}')
        found[name] = [re.search(r'(\w+)$', part)[1] for part in inside.split(', ') if part != 'void']
    return found


# The types of the crate that its exports take.
def named(exported):
    return {rust.strip('[]') for _, parameters, _ in exported for _, _, rust in parameters if rust.strip('[]')[0] == 'N'}


def header(crate):
    """Twins of the structs and static assertions on each of them, each prototype and each code."""
    text, all_structs = HEADER.read_text(), structs(crate)
    print('#include "norphuen.h"\n#include <stdbool.h>\n#define SAME(test, text) _Static_assert(test, text)')
    print('SAME(sizeof(nph_status) == sizeof(int32_t), "size of a status");')
    exported = exports(crate)
    block = block_of(all_structs)
    order = ['Sealed', block] + sorted(named(exported))
    for name in order:
        print(f'struct twin_{name} {{\n' + '\n'.join(twin_field(*field) for field in all_structs.get(name) or fail(f'no struct {name}')) + '\n};')
    for name in sorted(named(exported)):
        c, fields = snake(name), all_structs[name]
        match = re.search(rf'typedef struct {c} \{{(.*?)\}} {c};', text, re.S) or fail(f'the header has no {c}')
        written = re.findall(r'(\w+);', match[1])
        inner = ['at' if rust == block else field for field, rust in fields]
        compare_fields(crate, f'{c} of the header', name, written, inner)
        print(f'SAME(sizeof({c}) == sizeof(struct twin_{name}) && _Alignof({c}) == _Alignof(struct twin_{name}), "size of {c}");')
        for field, (twin, rust) in zip(inner, fields):
            print(f'SAME(offsetof({c}, {field}) == offsetof(struct twin_{name}, {twin}), "offset of {field} in {c}");')
            kind = 'void *' if rust == block else c_type(rust)
            print(f'SAME(_Generic((({c} *)0)->{field}, {kind}: 1, default: 0), "type of {field} in {c}");')
    for name, parameters, result in exported:
        kind = f'{c_type(result)} (*)({", ".join(c_parameters(parameters)) or "void"})'
        print(f'SAME(_Generic(&{name}, {kind}: 1, default: 0), "prototype of {name}");')
    declared = declarations(text)
    if set(declared) != {name for name, _, _ in exported}:
        fail(f'the header declares {sorted(declared)}, {crate} exports {sorted(name for name, _, _ in exported)}')
    short = set(re.findall(r'^#define nph_(\w+) NPH_NAME\(\1\)$', text, re.M))
    if missing := ({'heap', *map(bare, declared)} if crate not in OWN else set()) - short:
        fail(f'the header has no short names of {sorted(missing)}')
    for name, parameters, _ in exported:
        if declared[name] != c_names(parameters):
            fail(f'the header declares {name} with {declared[name]}, {crate} with {c_names(parameters)}')
    said = re.search(rf'^ \*   lib{crate}\.a (.*?)^ \*(?:   lib|$)', text, re.S | re.M) or fail(f'the header does not describe lib{crate}.a')
    if ('Lends nothing' in ' '.join(said[1].replace(' * ', ' ').split())) == lends(crate):
        fail(f'the header is wrong about whether lib{crate}.a lends')
    codes = {('NPH_OK' if name == 'DONE' else 'NPH_' + name): value
             for name, value in re.findall(r'pub const (\w+): i32 = (\d+);', (BASE / 'codes.rt').read_text())}
    for name, value in codes.items():
        print(f'SAME({name} == {value}, "{name}");')
    written = set(re.findall(r'^    (NPH_\w+) = ', text, re.M))
    if written != set(codes):
        fail(f'the header has the codes {sorted(written)}, c_base {sorted(codes)}')
    texts = dict(re.findall(r'^    case (NPH_\w+): return "(.+)";$', text, re.M))
    if set(texts) != set(codes) or len(set(texts.values())) != len(codes):
        fail('nph_text does not return a text of its own for each code')
    none = re.search(r'pub const NONE: u32 = (\w+);', (BASE / 'codes.rt').read_text())[1].replace('_', '')
    print(f'SAME(NPH_NONE == {none}u, "NPH_NONE");')
    version = re.search(r'pub const VERSION: u32 = (\d+);', (BASE / 'codes.rt').read_text())[1]
    print(f'SAME(NPH_VERSION == {version}, "NPH_VERSION");')
    for name, value in re.findall(r'Kind::(\w+) => (\d),', (HELD / 'most.rt').read_text().split('pub fn kind(')[1].split('\n}')[0]):
        kind = 'NPH_' + name.removesuffix('Fit').upper()
        print(f'SAME({kind} == {value}, "{kind}");')
    print('nph_block (*const takes)(size_t, size_t) = rattle_alloc;')


def short_names(crate, folder, rust_text):
    """The bindings have a way to put this library under the short names."""
    if f'Prefix : constant String := "{PREFIXES[crate]}";' not in Path(f'bindings/ada/{folder}/norphuen_library.ads').read_text():
        fail(f'bindings/ada/{folder} is not for {crate}')
    condition = f'feature = "{folder}"' if crate != 'norphuen' else 'not(any('
    if not re.search(rf'#\[cfg\([^\n]*{re.escape(condition)}[^\n]*\n[^\n]*\nmacro_rules! named {{ \(\$call:literal\) => {{ concat!\("{PREFIXES[crate]}", \$call\)', rust_text):
        fail(f'bindings/rust/src/lib.rs does not name the calls of {crate}')


def bindings(crate):
    """The prototypes of the Rust binding, the profiles of the Ada binding, and the fields and codes of both. A library with
    calls of its own has them in files of their own; its types may be in the others."""
    rust_file, ada_file = Path('bindings/rust/src/lib.rs'), Path('bindings/ada/norphuen.ads')
    rust_text, ada_text, folder, prefix = rust_file.read_text(), ada_file.read_text(), crate.partition('_')[2] or 'moving', PREFIXES[crate]
    exported = exports(crate)
    names = {bare(name) for name, _, _ in exported}
    if crate in OWN:
        rust_file, ada_file = Path(f'bindings/rust/src/{folder}.rs'), Path(f'bindings/ada/{folder}/norphuen-{folder}.ads')
        rust_types, ada_types = rust_text, ada_text
        rust_text, ada_text = rust_file.read_text(), ada_file.read_text()
        rust_call, ada_call = f'fn {prefix}', f'"{prefix}'
    else:
        short_names(crate, folder, rust_text)
        names |= LOAN | PAGED
        rust_types, ada_types, rust_call, ada_call = '', '', 'fn nph_', 'Prefix & "'
    rust_names = re.findall(rf' {rust_call}(\w+)\(', rust_text.split('unsafe extern "C" {')[1].split('\n}')[0])
    linked = re.findall(r'#\[link_name = named!\("(\w+)"\)\] fn nph_\1\(', rust_text)
    ada_names = re.findall(rf'External_Name => {ada_call}(\w+)"', ' '.join(ada_text.split()))
    for where, found in ((rust_file, rust_names), (ada_file, ada_names), *([] if crate in OWN else [(rust_file, linked)])):
        if sorted(found) != sorted(names):
            fail(f'{where} declares {sorted(found)}, {crate} exports {sorted(names)}')
    ada_flat = ' '.join((ada_text + ada_types).split())
    for name, parameters, result in exported:
        kinds = []
        for _, reference, rust in parameters:
            pointer = {'&mut ': '*mut ', '&': '*const ', None: ''}[reference or None]
            kinds.append(pointer + RUST.get(rust.strip('[]'), rust.strip('[]')))
            kinds += ['usize'] if rust[0] == '[' else []
        inside = re.search(rf'{rust_call}{bare(name)}\((.*?)\)(?: -> (\w+))?;', rust_text)
        kinds = [f'{part}: {kind}' for part, kind in zip(c_names(parameters), kinds)]
        if [part for part in inside[1].split(', ') if part] != kinds or (inside[2] or '') != result:
            fail(f'{rust_file}: {name}({inside[1]}) is not the export, which takes {kinds}')
        wanted = []
        for word, reference, rust in parameters:
            mode = 'in out ' if reference == '&mut ' else ''
            wanted.append(mode + {'task': 'Task_Number', 'id': 'Object_Id'}.get(word, ADA[rust]))
            wanted += ['size_t'] if rust[0] == '[' else []
        profile = re.search(rf'(?:function|procedure) \w+(?: \(([^()]*)\))?(?: return (\w+))? with Import, Convention => C, External_Name => {ada_call}{bare(name)}"', ada_flat)
        given = []
        for part in filter(None, ((profile or fail(f'{ada_file}: cannot read {name}'))[1] or '').split(';')):
            left, kind = part.split(':')
            given += [kind.strip()] * len(left.split(','))
        if given != wanted or (profile[2] or '') != {'i32': 'Code', '': ''}.get(result, ADA.get(result)):
            fail(f'{ada_file}: {name} takes {given}, the export {wanted}')
    all_structs = structs(crate)
    block = block_of(all_structs)
    for name in sorted(named(exported)):
        fields = [('at' if kind == block else field, kind) for field, kind in all_structs[name]]
        inside = re.search(rf'#\[repr\(C\)\]\n(?:#\[[^\n]*\]\n)*(?:pub )?struct {RUST[name]} \{{(.*?)\}}', rust_text + rust_types, re.S) or fail(f'{rust_file}: no {RUST[name]}')
        given = re.findall(r'(\w+): ([^,}]+?)\s*(?:,|$)', inside[1].strip())
        wanted = [(field, '*mut u8' if kind == block else kind) for field, kind in fields]
        compare_fields(crate, f'{rust_file}: {RUST[name]}', name, given, wanted)
        inside = re.search(rf'type {ADA[name]} is (?:limited )?record (.*?) end record with Convention => C;', ada_flat) or fail(f'{ada_file}: no {ADA[name]}')
        given = re.findall(r'(\w+) : (\S+) :=', inside[1])
        wanted = [('At_Address' if field == 'at' else field.title(), 'System.Address' if kind == block else ADA[kind]) for field, kind in fields]
        compare_fields(crate, f'{ada_file}: {ADA[name]}', name, given, wanted)
    if crate not in OWN:
        binding_codes(rust_text, ada_text)


def binding_codes(rust_text, ada_text):
    """The codes of both bindings."""
    codes = re.findall(r'pub const (\w+): i32 = (\d+);', (BASE / 'codes.rt').read_text())
    given = dict(re.findall(r'(\w+) +: constant Code := (\d+);', ada_text))
    ada_code = {'DONE': 'Ok', 'RANGE': 'Bad_Range', 'OPEN': 'Is_Open'}
    if given != {ada_code.get(name, name.title()): value for name, value in codes}:
        fail('bindings/ada/norphuen.ads: the codes differ')
    given = dict((name, value) for value, name in re.findall(r'(\d+) => (\w+),', rust_text.split('fn result_of')[1].split('\n}')[0]))
    last = max(codes, key=lambda code: int(code[1]))[0]
    wanted = {name.title().replace('_', ''): value for name, value in codes if name not in ('DONE', last)}
    in_order = [*sorted(wanted, key=lambda name: int(wanted[name])), last.title().replace('_', '')]
    if given != wanted or 'pub enum Error { ' + ', '.join(in_order) + ' }' not in rust_text:
        fail('bindings/rust/src/lib.rs: the codes differ')


mode, crate = sys.argv[1:]
if mode == 'names':
    print('\n'.join(sorted(name for name, _, _ in exports(crate))))
else:
    {'header': header, 'bindings': bindings}[mode](crate)
