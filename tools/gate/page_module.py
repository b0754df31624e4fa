"""Compiles the proved code of the library for WebAssembly with a memory of 64 bits, for tools/gate/page.

The toolchain lowers a proved crate to one module of LLVM for x86-64, and tools/gate/archive keeps that module. `Rewriting` makes it one for
wasm64, in the same ways in which the toolchain itself lowers a crate for wasm64:

  - A function traps where its frame lies below address 16. The stack is lowest in memory, and address 0 is null.
  - An export traps while another call runs, and after a call that has trapped.
  - No function becomes a call of memcmp, bcmp or strlen because of a loop that it has.
  - `pshufb`, the only instruction of x86 in the module, becomes `i8x16.swizzle`.

A module that is not of the known form is refused: each thing that the rewriting rests on is checked here, or in the module that comes out.
Clang, the linker and the rewriting are trusted (docs/PLAYGROUND.md)."""
import os
import re
import shutil
import subprocess
import sys
import tempfile

TOP = os.path.dirname(os.path.dirname(os.path.dirname(os.path.abspath(__file__))))
SUPPORT = ('heap.c', 'calls.c', 'integers.c')
# Bytes of the stack in the memory of the module.
STACK = 8 << 20
MARCH = ['--target=wasm64-unknown-unknown', '-mcpu=lime1', '-msimd128']
FLAGS = ['-O3', '-ffunction-sections', '-fdata-sections', '--no-default-config', '-fno-crash-diagnostics']
# As the toolchain compiles for wasm64.
LOWERED = [word for flag in ('-expand-div-rem-bits=64', '-expand-fp-convert-bits=64', '-trap-unreachable', '-disable-machine-licm',
                             '-disable-postra-machine-licm', '-sink-common-insts=false') for word in ('-mllvm', flag)]
LAYOUTS = {
    'target datalayout = "e-m:e-p270:32:32-p271:32:32-p272:64:64-i64:64-i128:128-f80:128-n8:16:32:64-S128"\n':
        'target datalayout = "e-m:e-p:64:64-p10:8:8-p20:8:8-i64:64-i128:128-n32:64-S128-ni:1:10:20"\n',
    'target triple = "x86_64-unknown-linux-gnu"\n': 'target triple = "wasm64-unknown-unknown"\n',
}
# The functions that the module has from outside, but for those of LLVM.
FOREIGN = {'rattle_alloc', 'rattle_realloc', 'rattle_dealloc', 'memcmp', 'bcmp'}
PSHUFB = 'llvm.x86.ssse3.pshuf.b.128'
# Assembly of no instruction, by which the compiler keeps the order of memory around a count of holders. It is the same for each processor.
BARRIER = 'asm sideeffect "", "~{memory}"()'
FRAME = """  %frame.at = call ptr @llvm.frameaddress.p0(i32 0)
  %frame.number = ptrtoint ptr %frame.at to i64
  %frame.low = icmp slt i64 %frame.number, 16
  br i1 %frame.low, label %frame.none, label %frame.ok

frame.ok:
"""
NO_FRAME = """
frame.none:
  call void @llvm.trap()
  unreachable
"""
DECLARED = """
declare ptr @llvm.frameaddress.p0(i32 immarg)
declare void @llvm.trap()
declare void @begin_call()
declare void @end_call()
"""
# A byte of the mask from 128 on gives 0 in both; of one from 16 to 127 pshufb takes the low four bits.
SWIZZLE = """
define internal <16 x i8> @pshufb(<16 x i8> %from, <16 x i8> %mask) alwaysinline "target-cpu"="lime1" "target-features"="+simd128" {
  %places = and <16 x i8> %mask, splat (i8 -113)
  %result = call <16 x i8> @llvm.wasm.swizzle(<16 x i8> %from, <16 x i8> %places)
  ret <16 x i8> %result
}
declare <16 x i8> @llvm.wasm.swizzle(<16 x i8>, <16 x i8>)
"""
KNOWN_ATTRIBUTES = re.compile(r'attributes #\d+ = \{ [a-z ]*"probe-stack"="inline-asm" "stack-probe-size"="\d+" '
                              r'"target-cpu"="x86-64-v2" \}\n')
ATTRIBUTES = '"no-builtin-bcmp" "no-builtin-memcmp" "no-builtin-strlen" "target-cpu"="lime1" "target-features"="+simd128"'


def refuse(why):
    sys.exit('tools/gate/page: the module is not of the known form: %s' % why)


def exports():
    """The functions that the library exports, as c/cedar.h declares them."""
    with open(os.path.join(TOP, 'c', 'cedar.h'), encoding='utf-8') as header:
        return sorted(set(re.findall(r'^(?:uint32_t|void) (cedar_raw_\w+)\(', header.read(), re.M)))


class Rewriting:
    """The text of a module for x86-64, made one for wasm64."""

    def __init__(self, names):
        self.exports, self.found, self.layouts = set(names), set(), 0
        self.has_pshufb = False

    def text(self, lines):
        """The whole module."""
        made, function = [], None
        for line in lines:
            if function is None and line.startswith('define '):
                function = []
            if function is None:
                made.append(self.line(line))
            else:
                function.append(line)
                if line == '}\n':
                    made += self.function(function)
                    function = None
        if self.found != self.exports or self.layouts != len(LAYOUTS) or function is not None:
            refuse('it exports %s, and has %d of its two lines of layout' % (sorted(self.found), self.layouts))
        text = ''.join(made).replace('@%s(' % PSHUFB, '@pshufb(') + DECLARED + (SWIZZLE if self.has_pshufb else '')
        left = sorted(set(re.findall(r'llvm\.x86[\w.]*|\basm (?:sideeffect )?"[^"]*"', text.replace(BARRIER, ''))))
        if left:
            refuse('it has %s' % ', '.join(left))
        return text

    def line(self, line):
        """A line outside of functions."""
        if line in LAYOUTS:
            self.layouts += 1
            return LAYOUTS[line]
        if line.startswith('target '):
            refuse(line.strip())
        if line.startswith('declare '):
            return self.declaration(line)
        if line.startswith('attributes ') and '"target-cpu"' in line:
            if not KNOWN_ATTRIBUTES.fullmatch(line):
                refuse(line.strip())
            return re.sub(r'"probe-stack".*"target-cpu"="x86-64-v2"', ATTRIBUTES, line)
        return line

    def declaration(self, line):
        """A function from outside."""
        name = re.search(r'@([\w.]+)\(', line)[1]
        if name == PSHUFB:
            self.has_pshufb = True
            return ''
        if name in ('llvm.trap', 'llvm.frameaddress.p0'):
            return ''
        if not name.startswith('llvm.') and name not in FOREIGN:
            refuse('it calls %s' % name)
        return line

    def function(self, lines):
        """A function, with its check of the stack, and if it is an export with the marks of a call."""
        name = re.search(r'@("[^"]*"|[\w.]+)\(', lines[0])[1]
        is_export = not lines[0].startswith('define internal ')
        if is_export:
            self.found.add(name)
        first = lines.index('\n') if '\n' in lines else len(lines) - 1
        frames = [at for at, line in enumerate(lines) if ' = alloca ' in line]
        if lines[1] != 'start:\n' or any(at >= first for at in frames) or any(' = phi ' in line for line in lines):
            refuse('the function %s' % name)
        begin = max(frames, default=1) + 1
        made = lines[:begin] + [FRAME] + (['  call void @begin_call()\n'] if is_export else [])
        for line in lines[begin:-1]:
            if is_export and line.startswith('  ret '):
                made.append('  call void @end_call()\n')
            made.append(line)
        return made + [NO_FRAME, '}\n']


def tools():
    """The folder of the tools of the toolchain."""
    rt = shutil.which('rt')
    if not rt:
        sys.exit('tools/gate/page: the toolchain is not installed')
    return os.path.join(os.path.dirname(os.path.dirname(os.path.realpath(rt))), 'toolchain', 'bin')


def run(*words):
    subprocess.run(words, check=True)


def compiled(module, room, names):
    """The object of the module, and those of page/module."""
    clang = os.path.join(tools(), 'clang')
    text, rewritten, made = [os.path.join(room, name) for name in ('module.ll', 'rewritten.ll', 'module.o')]
    run(clang, '-S', '-emit-llvm', '-x', 'ir', module, '-o', text, '-Xclang', '-disable-llvm-passes')
    with open(text, encoding='utf-8') as lines, open(rewritten, 'w', encoding='utf-8') as file:
        file.write(Rewriting(names).text(lines))
    run(clang, *MARCH, *FLAGS, '-Wno-override-module', *LOWERED, '-c', '-x', 'ir', rewritten, '-o', made)
    objects = [made]
    for name in SUPPORT:
        objects.append(os.path.join(room, name + '.o'))
        run(clang, *MARCH, *FLAGS, '-Wall', '-Wextra', '-Werror', '-std=c11', '-nostdlib', '-ffreestanding', '-fno-builtin', '-c',
            os.path.join(TOP, 'page', 'module', name), '-o', objects[-1])
    return objects


def sections(wasm):
    """The sections of a module of WebAssembly: number and bytes."""
    at = 8
    while at < len(wasm):
        number, at = wasm[at], at + 1
        size = shift = 0
        while True:
            byte, at = wasm[at], at + 1
            size |= (byte & 127) << shift
            shift += 7
            if byte < 128:
                break
        yield number, wasm[at:at + size]
        at += size


def module_of(module, names=None):
    """The module of WebAssembly of a module of LLVM."""
    names = exports() if names is None else names
    if not os.path.exists(module):
        sys.exit('tools/gate/page: there is no %s: tools/gate/archive makes it' % os.path.relpath(module))
    with tempfile.TemporaryDirectory() as room:
        linker, made = os.path.join(room, 'wasm-ld'), os.path.join(room, 'module.wasm')
        os.symlink(os.path.join(tools(), 'ld.lld'), linker)
        objects = compiled(module, room, names)
        run(linker, '-mwasm64', '--no-entry', '--gc-sections', '--stack-first', '-z', 'stack-size=%d' % STACK, '--strip-all',
            *('--export=' + name for name in names), *objects, '-o', made)
        with open(made, 'rb') as file:
            wasm = file.read()
    if 2 in dict(sections(wasm)):
        refuse('the linked module has imports')
    if any(path.encode() in wasm for path in (TOP, tools(), tempfile.gettempdir())):
        refuse('it has a path of this machine')
    return wasm
