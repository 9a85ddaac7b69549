#!/usr/bin/env python3
"""Writes the class files that bench/machine.sh runs: a counting loop and a loop of calls (Java Virtual Machine Specification SE 8,
chapters 4 and 6). Each class has `main()V`, which divides by zero where its sum is wrong, and a `main` for `java` that calls it."""
import struct
import sys

INTEGER, LONG = 1, 4


class Pool:
    def __init__(self):
        self.entries = {}
        self.bytes = b''
        self.next = 1

    def add(self, key, data, slots=1):
        if key not in self.entries:
            self.entries[key] = self.next
            self.bytes += data
            self.next += slots
        return self.entries[key]

    def text(self, text):
        coded = text.encode('ascii')
        return self.add(('text', text), struct.pack('>BH', 1, len(coded)) + coded)

    def integer(self, number):
        return self.add(('integer', number), struct.pack('>Bi', 3, number))

    def long(self, number):
        return self.add(('long', number), struct.pack('>Bq', 5, number), 2)

    def class_named(self, name):
        return self.add(('class', name), struct.pack('>BH', 7, self.text(name)))

    def method(self, owner, name, descriptor):
        typed = self.add(('typed', name, descriptor), struct.pack('>BHH', 12, self.text(name), self.text(descriptor)))
        return self.add(('method', owner, name, descriptor), struct.pack('>BHH', 10, self.class_named(owner), typed))


class Code:
    """Bytes with labels, and the frames that are given at some of them."""

    def __init__(self):
        self.bytes = b''
        self.places = {}
        self.jumps = []
        self.frames = []

    def op(self, opcode, *operands):
        self.bytes += bytes([opcode]) + b''.join(struct.pack('>H', n) for n in operands)

    def jump(self, opcode, label):
        self.jumps.append((len(self.bytes), label))
        self.bytes += bytes([opcode, 0, 0])

    def label(self, name, locals_there):
        self.places[name] = len(self.bytes)
        self.frames.append((len(self.bytes), locals_there))

    def linked(self):
        code = bytearray(self.bytes)
        for at, label in self.jumps:
            code[at + 1:at + 3] = struct.pack('>h', self.places[label] - at)
        return bytes(code)


def code_attribute(pool, code, max_stack, max_locals):
    frames = b''
    before = -1
    for at, types in code.frames:
        frames += struct.pack('>BHH', 255, at - before - 1, len(types)) + bytes(types) + struct.pack('>H', 0)
        before = at
    attributes = b''
    count = 0
    if code.frames:
        count = 1
        body = struct.pack('>H', len(code.frames)) + frames
        attributes = struct.pack('>HI', pool.text('StackMapTable'), len(body)) + body
    linked = code.linked()
    body = struct.pack('>HHI', max_stack, max_locals, len(linked)) + linked + struct.pack('>HH', 0, count) + attributes
    return struct.pack('>HI', pool.text('Code'), len(body)) + body


def method(pool, name, descriptor, code, max_stack, max_locals):
    attribute = code_attribute(pool, code, max_stack, max_locals)
    return struct.pack('>HHHH', 9, pool.text(name), pool.text(descriptor), 1) + attribute


def class_file(pool, name, methods):
    this = pool.class_named(name)
    above = pool.class_named('java/lang/Object')
    head = struct.pack('>IHHH', 0xCAFEBABE, 0, 52, pool.next) + pool.bytes
    return head + struct.pack('>HHHHHH', 0x21, this, above, 0, 0, len(methods)) + b''.join(methods) + struct.pack('>H', 0)


def for_java(pool, name):
    code = Code()
    code.op(0xB8, pool.method(name, 'main', '()V'))
    code.op(0xB1)
    return method(pool, 'main', '([Ljava/lang/String;)V', code, 0, 1)


def counted(pool, times, right, body):
    """main: a Long sum in 0, an Int counter in 2, and a body that takes the counter and leaves a Long."""
    code = Code()
    types = [LONG, INTEGER]
    code.op(0x09)  # lconst_0
    code.op(0x3F)  # lstore_0
    code.op(0x03)  # iconst_0
    code.op(0x3D)  # istore_2
    code.label('again', types)
    code.op(0x1C)  # iload_2
    code.op(0x13, pool.integer(times))  # ldc_w
    code.jump(0xA2, 'done')  # if_icmpge
    code.op(0x1E)  # lload_0
    code.op(0x1C)  # iload_2
    body(code)
    code.op(0x61)  # ladd
    code.op(0x3F)  # lstore_0
    code.op(0x1C)  # iload_2
    code.op(0x04)  # iconst_1
    code.op(0x60)  # iadd
    code.op(0x3D)  # istore_2
    code.jump(0xA7, 'again')  # goto
    code.label('done', types)
    code.op(0x1E)  # lload_0
    code.op(0x14, pool.long(right))  # ldc2_w
    code.op(0x94)  # lcmp
    code.jump(0x99, 'right')  # ifeq
    code.op(0x04)  # iconst_1
    code.op(0x03)  # iconst_0
    code.op(0x6C)  # idiv
    code.op(0x57)  # pop
    code.label('right', types)
    code.op(0xB1)  # return
    return method(pool, 'main', '()V', code, 4, 3)


def counting(name, times):
    pool = Pool()
    main = counted(pool, times, times * (times - 1) // 2, lambda code: code.op(0x85))  # i2l
    return class_file(pool, name, [for_java(pool, name), main])


def calling(name, times):
    pool = Pool()
    target = pool.method(name, 'twice', '(I)J')

    def body(code):
        code.op(0xB8, target)  # invokestatic

    twice = Code()
    twice.op(0x1A)  # iload_0
    twice.op(0x1A)  # iload_0
    twice.op(0x60)  # iadd
    twice.op(0x85)  # i2l
    twice.op(0xAD)  # lreturn
    right = times * (times - 1)
    main = counted(pool, times, right, body)
    return class_file(pool, name, [for_java(pool, name), main, method(pool, 'twice', '(I)J', twice, 2, 1)])


def main(folder, loops, calls):
    with open(folder + '/Counting.class', 'wb') as out:
        out.write(counting('Counting', loops))
    with open(folder + '/Calling.class', 'wb') as out:
        out.write(calling('Calling', calls))


main(sys.argv[1], int(sys.argv[2]), int(sys.argv[3]))
