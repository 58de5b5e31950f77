#!/usr/bin/env python3
"""Compares bindings/c/exports.h with the exports of pybuf_c, declared in C, and refuses a file with other declarations.

    check_exports.py            compares
    check_exports.py --write    writes bindings/c/exports.h anew
"""
import pathlib
import re
import sys

TOP = pathlib.Path(__file__).resolve().parent.parent
HEADER = TOP / 'bindings/c/exports.h'
SINGLE = {
    '&mut WorldHandle': 'proved_handle *',
    '&mut FormatHandle': 'proved_handle *',
    '&SliceWords': 'const pybuf_slice *',
    '&mut LentToRead': 'proved_lent *',
    '&mut LentToWrite': 'proved_lent_to_write *',
    '&mut usize': 'size_t *',
    '&mut u64': 'uint64_t *',
    '&mut u32': 'uint32_t *',
    '&mut bool': 'bool *',
    'usize': 'size_t ',
    'u64': 'uint64_t ',
    'u32': 'uint32_t ',
    'i64': 'int64_t ',
    'bool': 'bool ',
}
SLICES = {
    '&[u8]': 'const uint8_t *',
    '&mut [u8]': 'uint8_t *',
    '&[i64]': 'const int64_t *',
}


def parameters(text):
    found = []
    for part in text.split(','):
        part = part.strip()
        if not part:
            continue
        name, kind = (word.strip() for word in part.split(':', 1))
        kind = re.sub(r"<'\w+>|'\w+ ", '', kind)  # lifetimes are nothing in C
        if kind == 'Global':  # this argument takes no bytes, and C passes nothing for it
            continue
        if kind in SLICES:
            found += [SLICES[kind] + name, f'size_t {name}_length']
        else:
            found.append(SINGLE[kind] + name)
    return ', '.join(found)


def declarations():
    pattern = re.compile(r'pub extern "C" fn (\w+)(?:<[^>]*>)?\(([^)]*)\)( -> u32)?', re.S)
    for path in sorted((TOP / 'crates/pybuf_c/src').glob('*.rt')):
        for name, inner, result in pattern.findall(path.read_text()):
            yield f'{"uint32_t" if result else "void"} {name}({parameters(inner)});'


def text():
    head = '''/* The exports of the proved library crates/pybuf_c, as bindings/check_exports.py writes them. */
#ifndef PYBUF_EXPORTS_H
#define PYBUF_EXPORTS_H

#include "pybuf.h"

/* As the proved library lays a handle out, that of a world and that of a format. One of zeros holds nothing. */
typedef struct {
    void *at;
    bool full;
} proved_handle;

/* Bytes that are lent to be read, and to be written. */
typedef struct {
    const uint8_t *at;
    size_t length;
} proved_lent;

typedef struct {
    uint8_t *at;
    size_t length;
} proved_lent_to_write;

'''
    return head + '\n'.join(declarations()) + '\n\n#endif\n'


if sys.argv[1:] == ['--write']:
    HEADER.write_text(text())
elif HEADER.read_text() != text():
    sys.exit('check_exports: bindings/c/exports.h is not what crates/pybuf_c exports')
