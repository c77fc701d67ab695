"""Modules for the translator: functions that it has to get right, and text that it has to refuse.

A function takes and returns numbers. It is called with all edge values of its parameters for which its guard, in C over a, b
and c, holds: the module says nothing of the others."""
# SPDX-License-Identifier: MIT OR Apache-2.0
from translator.file import SMOOTH

WIDTHS = (8, 16, 32, 64)
FUNCTIONS = []                                          # name, width of the result, widths of the parameters, guard, text
DECLARED = set()


def case(name, result, parameters, body, guard='1'):
    heads = ', '.join(f'i{width} %{letter}' for width, letter in zip(parameters, 'abc'))
    result_type = 'zeroext i1' if result == 1 else f'i{result}'
    FUNCTIONS.append((name, result, parameters, guard, f'define {result_type} @{name}({heads}) {{\n{body}\n}}\n'))


def value(name, result, parameters, text, guard='1'):
    """A function of one instruction."""
    case(name, result, parameters, f'  %r = {text}\n  ret i{result} %r', guard)


def declare(text):
    DECLARED.add(f'declare {text}\n')


for w in WIDTHS:
    for op in ('add', 'sub', 'mul', 'and', 'or', 'xor'):
        value(f'{op}{w}', w, [w, w], f'{op} i{w} %a, %b')
        value(f'{op}{w}_constant', w, [w], f'{op} i{w} %a, -7')
        value(f'{op}{w}_of_constant', w, [w], f'{op} i{w} 100, %a')
    for op in ('shl', 'lshr'):
        value(f'{op}{w}', w, [w, w], f'{op} i{w} %a, %b', f'b < {w}')
        value(f'{op}{w}_constant', w, [w], f'{op} i{w} %a, {w - 3}')
        value(f'{op}{w}_of_constant', w, [w], f'{op} i{w} -5, %a', f'a < {w}')
        value(f'{op}{w}_of_one', w, [w], f'{op} i{w} 1, %a', f'a < {w}')
    for op in ('udiv', 'urem'):
        value(f'{op}{w}', w, [w, w], f'{op} i{w} %a, %b', 'b != 0')
        value(f'{op}{w}_of_constant', w, [w], f'{op} i{w} -7, %a', 'a != 0')
    for how in ('eq', 'ne', 'ult', 'ule', 'ugt', 'uge', 'slt', 'sle', 'sgt', 'sge'):
        value(f'icmp_{how}{w}', 1, [w, w], f'icmp {how} i{w} %a, %b')
        value(f'icmp_{how}{w}_constant', 1, [w], f'icmp {how} i{w} %a, -2')
        if w == 8:
            case(f'branch_{how}{w}', 8, [w, w], f"""  %c = icmp {how} i{w} %a, %b
  br i1 %c, label %x, label %y
x:
  ret i8 1
y:
  ret i8 2""")
            case(f'not_{how}{w}', 1, [w, w], f"""  %c = icmp {how} i{w} %a, %b
  %r = xor i1 %c, true
  ret i1 %r""")
    for to in WIDTHS:
        op = 'zext' if to > w else 'trunc'
        if to != w:
            value(f'{op}{w}_{to}', to, [w], f'{op} i{w} %a to i{to}')
    value(f'trunc{w}_1', 1, [w], f'trunc i{w} %a to i1')
    for op in ('zext', 'sext'):
        case(f'{op}1_{w}', w, [w], f'  %c = icmp ult i{w} %a, 9\n  %r = {op} i1 %c to i{w}\n  ret i{w} %r')
    for name in ('umin', 'umax', 'smax', 'usub.sat', 'uadd.sat'):
        declare(f'i{w} @llvm.{name}.i{w}(i{w}, i{w})')
        value(f'llvm_{name.replace(".", "_")}{w}', w, [w, w], f'call i{w} @llvm.{name}.i{w}(i{w} %a, i{w} %b)')
    case(f'select{w}', w, [w, w], f'  %c = icmp ult i{w} %a, 9\n  %r = select i1 %c, i{w} %b, i{w} %a\n  ret i{w} %r')
    case(f'select{w}_constants', w, [w], f"""  %c = icmp ult i{w} %a, 9
  %s = select i1 %c, i{w} -1, i{w} 1
  %r = mul i{w} %s, %s
  %t = add i{w} %r, %s
  ret i{w} %t""")
    case(f'chain{w}', w, [w, w], f"""  %x = add i{w} %a, %b
  %y = mul i{w} %x, %a
  %z = sub i{w} %y, %x
  %w = lshr i{w} %z, 2
  %v = xor i{w} %w, -1
  %u = udiv i{w} %v, 3
  %f = freeze i{w} %u
  ret i{w} %f""")
    case(f'constants{w}', w, [w], f'  %x = sub i{w} 3, 4\n  %y = shl i{w} 5, 6\n  %z = udiv i{w} %x, %y\n  %r = add i{w} %z, %a\n  ret i{w} %r')
    case(f'minus{w}', w, [w, w], f'  %x = sub i{w} %a, %b\n  %y = sub i{w} 9, %x\n  %r = sub i{w} %a, %y\n  ret i{w} %r')
    case(f'memory{w}', w, [w, w], f"""  %m = alloca [24 x i8], align 8
  call void @llvm.memset.p0.i64(ptr %m, i8 7, i64 24, i1 false)
  %p = getelementptr i8, ptr %m, i64 3
  store i{w} %a, ptr %p, align 1
  %q = getelementptr inbounds i8, ptr %m, i64 8
  %x = load i{w}, ptr %q, align 8
  store i{w} %b, ptr %q, align 8
  %y = load i{w}, ptr %p, align 1
  %r = xor i{w} %x, %y
  ret i{w} %r""")
    case(f'switch{w}', w, [w, w], f"""  switch i{w} %a, label %d [
    i{w} 0, label %x
    i{w} 1, label %y
    i{w} 2, label %y
    i{w} -1, label %z
    i{w} 7, label %d
  ]
x:
  br label %d
y:
  %p = add i{w} %b, 5
  br label %d
z:
  ret i{w} 17
d:
  %r = phi i{w} [ 1, %0 ], [ 1, %0 ], [ %b, %x ], [ %p, %y ]
  ret i{w} %r""")
for name, second in (('cttz', ', i1 false'), ('ctlz', ', i1 false'), ('abs', ', i1 false'), ('bswap', '')):
    declare(f'i64 @llvm.{name}.i64(i64{second[:4]})')
    value(f'llvm_{name}64', 64, [64], f'call i64 @llvm.{name}.i64(i64 %a{second})')
for name, text in (('and', 'and i1 %c, %d'), ('or', 'or i1 %c, %d'), ('xor', 'xor i1 %c, %d'), ('eq', 'icmp eq i1 %c, %d'),
                   ('both', 'select i1 %c, i1 %d, i1 false'), ('either', 'select i1 %c, i1 true, i1 %d'),
                   ('choice', 'select i1 %c, i1 %d, i1 %e')):
    case(f'{name}1', 1, [8, 8], f"""  %c = icmp ult i8 %a, 5
  %d = icmp sgt i8 %b, %a
  %e = icmp eq i8 %b, 3
  %r = {text}
  ret i1 %r""")
declare('void @llvm.memset.p0.i64(ptr, i8, i64, i1)')
declare('void @llvm.memcpy.p0.p0.i64(ptr, ptr, i64, i1)')
declare('void @llvm.memmove.p0.p0.i64(ptr, ptr, i64, i1)')
declare('{ i64, i1 } @llvm.umul.with.overflow.i64(i64, i64)')
declare('i32 @llvm.fshl.i32(i32, i32, i32)')
for n in (0, 1, 26, 32, 35):
    value(f'llvm_fshl32_{n}', 32, [32, 32], f'call i32 @llvm.fshl.i32(i32 %a, i32 %b, i32 {n})')
value('llvm_fshl32', 32, [32, 32], 'call i32 @llvm.fshl.i32(i32 %a, i32 %a, i32 %b)')
case('over', 1, [64, 64], """  %p = call { i64, i1 } @llvm.umul.with.overflow.i64(i64 %a, i64 %b)
  %o = extractvalue { i64, i1 } %p, 1
  ret i1 %o""")
case('product', 64, [64, 64], """  %p = call { i64, i1 } @llvm.umul.with.overflow.i64(i64 %a, i64 %b)
  %r = extractvalue { i64, i1 } %p, 0
  ret i64 %r""")

# 128 bits: both halves of each result.
DECLARED.add('declare i128 @llvm.usub.sat.i128(i128, i128)\n')
for name, text, guard in [(op, f'{op} i128 %z, %w', '1') for op in ('add', 'sub', 'mul', 'and', 'or', 'xor')] + \
        [(op, f'{op} i128 %z, %c', 'b < 128') for op in ('shl', 'lshr')] + \
        [('sat', 'call i128 @llvm.usub.sat.i128(i128 %z, i128 %w)', '1'), ('constant', 'add i128 %z, -36893488147419103230', '1')]:
    for half, shift in (('low', 0), ('high', 64)):
        case(f'{name}128_{half}', 64, [64, 64], f"""  %x = zext i64 %a to i128
  %y = shl i128 %x, 61
  %z = xor i128 %y, 12345
  %c = zext i64 %b to i128
  %w = mul i128 %c, 18446744073709551629
  %v = {text}
  %h = lshr i128 %v, {shift}
  %r = trunc i128 %h to i64
  ret i64 %r""", guard)
for how in ('eq', 'ne', 'ult', 'ule', 'ugt', 'uge'):
    case(f'icmp_{how}128', 1, [64, 64, 64], f"""  %x = zext i64 %a to i128
  %y = shl i128 %x, 3
  %c0 = zext i64 %c to i128
  %z = or i128 %y, %c0
  %b0 = zext i64 %b to i128
  %w = shl i128 %b0, 3
  %r = icmp {how} i128 %z, %w
  ret i1 %r""")

# Doubles: no number is among them.
for op in ('fadd', 'fsub', 'fmul', 'fdiv'):
    case(f'double_{op}', 64, [64, 64], f"""  %x = uitofp i64 %a to double
  %y = uitofp i64 %b to double
  %z = {op} double %x, %y
  %w = fmul double %z, 3.000000e-01
  %v = fadd double %w, %y
  %r = bitcast double %v to i64
  ret i64 %r""", 'b != 0')
for how in ('olt', 'ole', 'ogt', 'oge', 'oeq', 'ult', 'ule', 'ugt', 'uge', 'une'):
    case(f'fcmp_{how}', 1, [8, 8], f"""  %x = uitofp i8 %a to double
  %y = uitofp i8 %b to double
  %z = fdiv double %x, %y
  %r = fcmp {how} double %z, 0x3FF0000000000000
  ret i1 %r""")
case('double_memory', 64, [64], """  %m = alloca [16 x i8], align 8
  store i64 %a, ptr %m, align 8
  %x = load double, ptr %m, align 8
  %p = getelementptr inbounds i8, ptr %m, i64 8
  store double %x, ptr %p, align 8
  %r = load i64, ptr %p, align 8
  ret i64 %r""")

# Numbers of 40, 48 and 56 bits, and bits, in memory.
for w in (40, 48, 56):
    case(f'memory{w}', 64, [64], f"""  %m = alloca [16 x i8], align 8
  call void @llvm.memset.p0.i64(ptr %m, i8 -1, i64 16, i1 false)
  %x = trunc i64 %a to i{w}
  store i{w} %x, ptr %m, align 1
  %y = load i{w}, ptr %m, align 1
  %z = zext i{w} %y to i64
  %q = load i64, ptr %m, align 8
  %r = add i64 %z, %q
  ret i64 %r""")
case('memory128', 64, [64, 64], """  %m = alloca [16 x i8], align 16
  %x = zext i64 %a to i128
  %y = shl i128 %x, 64
  %z = zext i64 %b to i128
  %w = or i128 %y, %z
  store i128 %w, ptr %m, align 16
  %p = getelementptr inbounds i8, ptr %m, i64 8
  %h = load i64, ptr %p, align 8
  %l = load i128, ptr %m, align 16
  %t = trunc i128 %l to i64
  %r = sub i64 %h, %t
  ret i64 %r""")

# Pointers: in memory, in comparisons, from numbers, from indices.
case('in_memory', 64, [8, 64], """  %m = alloca [256 x i8], align 8
  %k = and i8 %a, 15
  %i = zext i8 %k to i64
  %j = shl i64 %i, 3
  %p = getelementptr inbounds i8, ptr %m, i64 %j
  store i64 %b, ptr %p, align 8
  %q = getelementptr inbounds i8, ptr %m, i64 128
  store ptr %p, ptr %q, align 8
  %s = load ptr, ptr %q, align 8
  %o = ptrtoint ptr %s to i64
  %n = inttoptr i64 %o to ptr
  %v = load i64, ptr %n, align 8
  %e = icmp eq ptr %s, %m
  %l = icmp ugt ptr %n, %m
  %x = select i1 %e, i64 3, i64 5
  %y = select i1 %l, i64 7, i64 11
  %z = mul i64 %x, %y
  %r = add i64 %v, %z
  ret i64 %r""")
case('backwards', 8, [64, 8], """  %m = alloca [24 x i8], align 8
  call void @llvm.memset.p0.i64(ptr %m, i8 1, i64 24, i1 false)
  %k = and i64 %a, 7
  %n = sub i64 0, %k
  %p = getelementptr inbounds i8, ptr %m, i64 16
  %q = getelementptr inbounds i8, ptr %p, i64 %n
  store i8 %b, ptr %q, align 1
  %s = getelementptr inbounds i8, ptr %p, i64 -4
  %r = load i8, ptr %s, align 1
  ret i8 %r""")

# The order of what reads and writes memory.
case('call_between', 64, [64, 64], """  %m = alloca i64, align 8
  store i64 %a, ptr %m, align 8
  %x = load i64, ptr %m, align 8
  call void @set(ptr %m, i64 %b)
  %y = load i64, ptr %m, align 8
  %z = mul i64 %y, 3
  %r = sub i64 %x, %z
  ret i64 %r""")
case('over_kept', 64, [64, 64], """  %m = alloca i64, align 8
  store i64 %a, ptr %m, align 8
  %x = load i64, ptr %m, align 8
  %p = call { i64, i1 } @llvm.umul.with.overflow.i64(i64 %x, i64 3)
  %y = extractvalue { i64, i1 } %p, 0
  store i64 %b, ptr %m, align 8
  %z = mul i64 %y, %y
  ret i64 %z""")
for orders in (('monotonic', 'monotonic', 'monotonic'), ('acquire', 'release', 'acq_rel'), ('seq_cst', 'seq_cst', 'seq_cst')):
    for w in (8, 64):
        case(f'atomic{w}_{orders[0]}', w, [w, w], f"""  %m = alloca i64, align 8
  %z = load i{w}, ptr %m, align 8
  store atomic i{w} %a, ptr %m {orders[1]}, align 8
  %o = atomicrmw xchg ptr %m, i{w} %b {orders[2]}, align 8
  %x = load atomic i{w}, ptr %m {orders[0]}, align 8
  call void asm sideeffect "", "~{{memory}}"()
  %y = mul i{w} %x, 3
  %r = add i{w} %o, %y
  ret i{w} %r""")
case('volatile_load', 8, [8, 8], """  %m = alloca i8, align 1
  store i8 %a, ptr %m, align 1
  %x = load volatile i8, ptr %m, align 1
  store i8 %b, ptr %m, align 1
  %y = load volatile i8, ptr %m, align 1
  %r = sub i8 %x, %y
  ret i8 %r""")
case('moves', 64, [64, 64], """  %m = alloca [48 x i8], align 8
  call void @llvm.memset.p0.i64(ptr %m, i8 9, i64 48, i1 false)
  store i64 %a, ptr %m, align 8
  %p = getelementptr inbounds i8, ptr %m, i64 8
  store i64 %b, ptr %p, align 8
  %q = getelementptr inbounds i8, ptr %m, i64 3
  call void @llvm.memmove.p0.p0.i64(ptr %q, ptr %m, i64 16, i1 false)
  %s = getelementptr inbounds i8, ptr %m, i64 32
  %n = and i64 %a, 15
  call void @llvm.memcpy.p0.p0.i64(ptr %s, ptr %q, i64 %n, i1 false)
  %x = load i64, ptr %s, align 8
  %y = load i64, ptr %p, align 8
  %r = xor i64 %x, %y
  ret i64 %r""")

# Loops and joins.
case('swap', 64, [64, 64, 8], """start:
  br label %loop
loop:
  %x = phi i64 [ %a, %start ], [ %y, %loop ]
  %y = phi i64 [ %b, %start ], [ %x, %loop ]
  %n = phi i8 [ %c, %start ], [ %m, %loop ]
  %m = add i8 %n, -1
  %done = icmp ult i8 %n, 2
  br i1 %done, label %out, label %loop
out:
  %r = sub i64 %x, %y
  ret i64 %r""")
case('nested', 64, [8, 8], """start:
  br label %outer
outer:
  %i = phi i8 [ 0, %start ], [ %i1, %next ]
  %s = phi i64 [ 0, %start ], [ %s2, %next ]
  %end = icmp uge i8 %i, %a
  br i1 %end, label %out, label %inner
inner:
  %j = phi i8 [ 0, %outer ], [ %j1, %more ]
  %s1 = phi i64 [ %s, %outer ], [ %s3, %more ]
  %last = icmp uge i8 %j, %b
  br i1 %last, label %next, label %body
body:
  %p = mul i8 %i, %j
  switch i8 %p, label %more [
    i8 12, label %next
    i8 35, label %found
  ]
more:
  %w = zext i8 %p to i64
  %s3 = add i64 %s1, %w
  %j1 = add i8 %j, 1
  %huge = icmp ugt i8 %p, 200
  br i1 %huge, label %out, label %inner
next:
  %s2 = phi i64 [ %s1, %inner ], [ %s1, %body ]
  %i1 = add i8 %i, 3
  %wrapped = icmp ult i8 %i1, 3
  br i1 %wrapped, label %out, label %outer
found:
  %g = add i64 %s1, 77777
  br label %out
out:
  %r = phi i64 [ %s, %outer ], [ %s2, %next ], [ %g, %found ], [ %s3, %more ]
  %q = xor i64 %r, 5
  ret i64 %q""")
case('outer_again', 64, [8, 8], """start:
  br label %outer
outer:
  %i = phi i8 [ 0, %start ], [ %i1, %inner ]
  %s = phi i64 [ 0, %start ], [ %s2, %inner ]
  %i1 = add i8 %i, 1
  %end = icmp ugt i8 %i, 40
  br i1 %end, label %out, label %inner
inner:
  %j = phi i8 [ %i, %outer ], [ %j1, %more ]
  %s1 = phi i64 [ %s, %outer ], [ %s2, %more ]
  %s2 = add i64 %s1, 3
  %j1 = add i8 %j, %b
  %far = icmp ugt i8 %j1, 99
  br i1 %far, label %outer, label %more
more:
  %near = icmp eq i8 %j1, %a
  %s3 = mul i64 %s2, 5
  %stop = icmp ult i8 %b, 2
  %both = or i1 %near, %stop
  br i1 %both, label %out, label %inner
out:
  %t = phi i64 [ %s, %outer ], [ %s3, %more ]
  %q = xor i64 %t, 9
  ret i64 %q""")
case('one_of_two', 8, [8, 8], """  %k = and i8 %a, 1
  switch i8 %k, label %never [
    i8 1, label %x
    i8 0, label %y
  ]
x:
  ret i8 %b
y:
  %r = add i8 %b, 9
  ret i8 %r
never:
  unreachable""")
for mask in (2305843009213693944, 2305843009213693951, 536870904, 1152921504606846968):
    case(f'shift_and_mask_{mask}', 64, [64], f'  %x = lshr i64 %a, 3\n  %r = and i64 %x, {mask}\n  ret i64 %r')
value('shift_and_no_bit', 64, [64], 'and i64 %x, 0')
FUNCTIONS[-1] = (*FUNCTIONS[-1][:4], FUNCTIONS[-1][4].replace('{\n', '{\n  %x = lshr i64 %a, 3\n'))
# Arms that differ in one width alone.
case('widths_of_arms', 64, [8], """  %c = icmp eq i8 %a, 0
  br i1 %c, label %x, label %y
x:
  br label %narrow
narrow:
  %i = phi i32 [ 1, %x ], [ %i1, %more ]
  %i1 = mul i32 %i, 5
  %d = icmp eq i32 %i1, 1808548329
  br i1 %d, label %found, label %more
more:
  %far = icmp ugt i32 %i1, 2000000000
  br i1 %far, label %out, label %narrow
y:
  br label %wide
wide:
  %j = phi i64 [ 1, %y ], [ %j1, %again ]
  %j1 = mul i64 %j, 5
  %e = icmp eq i64 %j1, 1808548329
  br i1 %e, label %found, label %again
again:
  %end = icmp ugt i64 %j1, 2000000000
  br i1 %end, label %out, label %wide
found:
  ret i64 3
out:
  ret i64 7""")
# Loops whose labels are named as the variables of C that are in them.
case('labels_as_variables', 64, [64, 64], """start:
  %x = mul i64 %a, %b
  %y = add i64 %a, %b
  %c = icmp ult i64 %a, 9
  br i1 %c, label %p, label %q
p:
  br label %n3
n3:
  %i = phi i64 [ 0, %p ], [ %i1, %n3 ]
  %s = phi i64 [ 1, %p ], [ %s1, %n3 ]
  %s1 = mul i64 %s, %x
  %i1 = add i64 %i, 1
  %d = icmp eq i64 %i1, 5
  br i1 %d, label %e, label %n3
q:
  br label %n4
n4:
  %j = phi i64 [ 0, %q ], [ %j1, %n4 ]
  %t = phi i64 [ 1, %q ], [ %t1, %n4 ]
  %t1 = mul i64 %t, %y
  %j1 = add i64 %j, 1
  %f = icmp eq i64 %j1, 5
  br i1 %f, label %e, label %n4
e:
  %r = phi i64 [ %s1, %n3 ], [ %t1, %n4 ]
  %v = mul i64 %r, %r
  ret i64 %v""")
# Arms that differ in the numbers of a switch.
case('twins_numbers', 8, [8, 8], """  %c = icmp ult i8 %a, 9
  br i1 %c, label %x, label %y
x:
  switch i8 %b, label %e [
    i8 1, label %p
    i8 2, label %q
  ]
y:
  switch i8 %b, label %e [
    i8 1, label %p
    i8 3, label %q
  ]
p:
  br label %e
q:
  br label %e
e:
  %r = phi i8 [ 1, %x ], [ 1, %y ], [ 5, %p ], [ 6, %q ]
  %s = mul i8 %r, %r
  ret i8 %s""")
# An arm that may jump does not end: what follows it is another case.
case('exits_of_cases', 8, [8, 8], """  switch i8 %a, label %e [
    i8 1, label %x
    i8 2, label %y
    i8 3, label %z
  ]
x:
  %c = icmp ult i8 %b, 9
  br i1 %c, label %far, label %e
y:
  %d = icmp ult i8 %b, 5
  br i1 %d, label %far, label %e
z:
  br label %far
e:
  %s = mul i8 %b, 7
  br label %far
far:
  %t = phi i8 [ 21, %x ], [ 22, %y ], [ 23, %z ], [ %s, %e ]
  %u = mul i8 %t, %b
  ret i8 %u""")
# What was read is not read again where it is used: another block has written there.
case('read_before', 64, [64, 64], """  %m = alloca i64, align 8
  store i64 %a, ptr %m, align 8
  %x = load i64, ptr %m, align 8
  %c = icmp ult i64 %a, %b
  br i1 %c, label %w, label %e
w:
  store i64 %b, ptr %m, align 8
  br label %e
e:
  %r = add i64 %x, 5
  ret i64 %r""")
for how in ('ult', 'ule', 'ugt', 'uge'):
    case(f'pointers_{how}', 1, [64, 64], f"""  %p = inttoptr i64 %a to ptr
  %q = inttoptr i64 %b to ptr
  %r = icmp {how} ptr %p, %q
  ret i1 %r""")
for number in ('true', 'false'):
    case(f'switch_{number}', 8, [8], f"""  %c = icmp ult i8 %a, 9
  switch i1 %c, label %x [
    i1 {number}, label %y
  ]
x:
  ret i8 %a
y:
  %r = mul i8 %a, 7
  ret i8 %r""")
case('one_of_three', 8, [8, 8], """  %k = urem i8 %a, 3
  switch i8 %k, label %never [
    i8 1, label %x
    i8 0, label %y
    i8 2, label %z
  ]
x:
  ret i8 %b
y:
  %r = add i8 %b, 9
  ret i8 %r
z:
  %s = mul i8 %b, 5
  ret i8 %s
never:
  unreachable""")
case('two_ends', 8, [8, 8], """  %c = icmp ult i8 %a, 9
  br i1 %c, label %x, label %e
x:
  %d = icmp ult i8 %b, 9
  br i1 %d, label %e, label %y
y:
  br label %e
e:
  %r = phi i8 [ %b, %0 ], [ %a, %x ], [ 5, %y ]
  %s = phi i8 [ 1, %0 ], [ 2, %x ], [ %a, %y ]
  ret i8 %r""")
case('rotated', 64, [8, 64], """start:
  br label %loop
loop:
  %i = phi i8 [ 0, %start ], [ %i1, %loop ]
  %p = phi i64 [ %b, %start ], [ %q, %loop ]
  %q = phi i64 [ 1, %start ], [ %s, %loop ]
  %s = phi i64 [ 2, %start ], [ %t, %loop ]
  %t = phi i64 [ 3, %start ], [ %u, %loop ]
  %u = phi i64 [ 4, %start ], [ %p, %loop ]
  %i1 = add i8 %i, 1
  %c = icmp uge i8 %i1, %a
  br i1 %c, label %out, label %loop
out:
  %v = mul i64 %p, %q
  %w = mul i64 %s, 7
  %x = mul i64 %t, %u
  %y = sub i64 %v, %w
  %r = sub i64 %y, %x
  ret i64 %r""")
# Constants behind what changes nothing are as wide as they were.
case('frozen_choice', 64, [64], """  %c = icmp ult i64 %a, 9
  %f = freeze i64 3
  %x = select i1 %c, i64 %f, i64 1
  %y = shl i64 %x, 33
  %z = lshr i64 %y, 1
  %r = xor i64 %z, %a
  ret i64 %r""")
case('bit_shifted', 64, [8], '  %c = icmp ult i8 %a, 9\n  %x = zext i1 %c to i64\n  %r = shl i64 %x, 40\n  ret i64 %r')
for w in (40, 48, 56):
    case(f'narrowed{w}', 8, [64], f'  %x = trunc i64 %a to i{w}\n  %r = trunc i{w} %x to i8\n  ret i8 %r')
for w in (1, *WIDTHS):
    case(f'freeze_of{w}', w, [64], f"""  %m = alloca i64, align 8
  store i64 %a, ptr %m, align 8
  %x = load i64, ptr %m, align 8
  %y = {f'trunc i64 %x to i{w}' if w < 64 else 'add i64 %x, 1'}
  %r = freeze i{w} %y
  ret i{w} %r""")
case('freeze_of128', 64, [64, 64], """  %x = zext i64 %a to i128
  %y = shl i128 %x, 61
  %z = zext i64 %b to i128
  %w = add i128 %y, %z
  %f = freeze i128 %w
  %h = lshr i128 %f, 64
  %g = xor i128 %h, %f
  %r = trunc i128 %g to i64
  ret i64 %r""")
case('freeze_of40', 64, [64], """  %x = trunc i64 %a to i40
  %f = freeze i40 %x
  %r = zext i40 %f to i64
  ret i64 %r""")
case('freeze_of_double', 64, [64], """  %x = uitofp i64 %a to double
  %f = freeze double %x
  %r = bitcast double %f to i64
  ret i64 %r""")
case('frozen_pointer', 64, [64], """  %m = alloca i64, align 8
  store i64 %a, ptr %m, align 8
  %f = freeze ptr %m
  %r = load i64, ptr %f, align 8
  ret i64 %r""")
case('behind_null', 64, [64], """  %p = getelementptr i8, ptr null, i64 8
  %q = getelementptr inbounds i8, ptr null, i64 %a
  %x = ptrtoint ptr %p to i64
  %y = ptrtoint ptr %q to i64
  %z = mul i64 %y, 3
  %r = add i64 %x, %z
  ret i64 %r""", 'a < 99')

# Calls: of functions of the module, by pointer, of each other, with two results, of what stands elsewhere.
declare('i64 @outside(i64)')
case('calls', 64, [64, 64], """  %p = call { i64, i1 } @pair(i64 %a, i64 %b)
  %x = extractvalue { i64, i1 } %p, 0
  %o = extractvalue { i64, i1 } %p, 1
  %y = select i1 %o, i64 %x, i64 17
  %z = call i64 @outside(i64 %y)
  ret i64 %z""")
case('by_pointer_of_two', 64, [8, 64], """  %c = icmp ult i8 %a, 5
  %f = select i1 %c, ptr @minus, ptr @twice_minus
  %r = call i64 %f(i64 %b, i64 3)
  ret i64 %r""")
case('is_even', 1, [8], """  %z = icmp eq i8 %a, 0
  br i1 %z, label %yes, label %no
yes:
  ret i1 true
no:
  %b = sub i8 %a, 1
  %r = call i1 @is_odd(i8 %b)
  ret i1 %r""")
case('is_odd', 1, [8], """  %z = icmp eq i8 %a, 0
  br i1 %z, label %yes, label %no
yes:
  ret i1 false
no:
  %b = sub i8 %a, 1
  %r = call i1 @is_even(i8 %b)
  ret i1 %r""")
# A jump over a block that sets something: C++ allows none over a declaration that does.
case('jump_over', 64, [8, 64], """  switch i8 %a, label %first [
    i8 0, label %x
    i8 1, label %second
  ]
x:
  br label %first
first:
  %s = phi i64 [ 5, %0 ], [ %b, %x ]
  %t = mul i64 %s, %b
  %u = add i64 %t, 9
  %v = mul i64 %u, %t
  br label %second
second:
  %w = phi i64 [ %v, %first ], [ %b, %0 ]
  %r = xor i64 %w, %b
  ret i64 %r""")
# A field that is kept is not the first one.
case('kept_field', 64, [64, 64], """  %p = insertvalue { i64, i1 } poison, i64 %a, 0
  %c = icmp ult i64 %a, %b
  %q = insertvalue { i64, i1 } %p, i1 %c, 1
  %s = insertvalue { i64, i1 } %q, i64 7, 0
  %d = extractvalue { i64, i1 } %s, 1
  %n = zext i1 %d to i64
  %r = add i64 %n, 5
  ret i64 %r""")
# Arms that do the same, and then jump to other places.
case('twins_far', 8, [8, 8], """  %m = alloca i8, align 1
  %c = icmp ult i8 %a, 9
  br i1 %c, label %x, label %y
x:
  store i8 %b, ptr %m, align 1
  %d = icmp ult i8 %b, 64
  br i1 %d, label %first, label %second
y:
  store i8 %b, ptr %m, align 1
  %d2 = icmp ult i8 %b, 64
  br i1 %d2, label %first, label %third
first:
  %e = icmp ult i8 %b, 8
  br i1 %e, label %second, label %third
second:
  %v = load i8, ptr %m, align 1
  %w = mul i8 %v, 3
  store i8 %w, ptr %m, align 1
  br label %out
third:
  %t = load i8, ptr %m, align 1
  %u = add i8 %t, 100
  store i8 %u, ptr %m, align 1
  br label %out
out:
  %r = load i8, ptr %m, align 1
  %f = mul i8 %r, %r
  %g = add i8 %f, %r
  ret i8 %g""")
case('constants', 64, [8], """  %k = and i8 %a, 3
  %i = zext i8 %k to i64
  %p = getelementptr i8, ptr @table, i64 %i
  %x = load i64, ptr %p, align 1
  %q = getelementptr inbounds i8, ptr @text, i64 %i
  %y = load i8, ptr %q, align 1
  %s = load ptr, ptr getelementptr inbounds (i8, ptr @pointers, i64 16), align 8
  %u = load i8, ptr %s, align 1
  %v = zext i8 %y to i64
  %w = zext i8 %u to i64
  %z = mul i64 %v, %w
  %t = load i64, ptr @text, align 8
  %m = xor i64 %z, %t
  %r = add i64 %x, %m
  ret i64 %r""")
case('bytes', 64, [8, 8], """  %m = alloca [128 x i8], align 16
  call void @llvm.memset.p0.i64(ptr %m, i8 %a, i64 64, i1 false)
  %n = getelementptr inbounds i8, ptr %m, i64 64
  call void @llvm.memset.p0.i64(ptr %n, i8 %a, i64 64, i1 false)
  %i = and i8 %b, 63
  %j = zext i8 %i to i64
  %p = getelementptr inbounds i8, ptr %n, i64 %j
  store i8 %b, ptr %p, align 1
  %x = load <16 x i8>, ptr %m, align 1
  %y = load <16 x i8>, ptr %n, align 1
  %c = icmp ne <16 x i8> %x, %y
  %d = icmp slt <16 x i8> %y, zeroinitializer
  %e = or <16 x i1> %c, %d
  %f = bitcast <16 x i1> %e to i16
  %u = load <64 x i8>, ptr %m, align 1
  %v = load <64 x i8>, ptr %n, align 1
  %g = icmp ne <64 x i8> %u, %v
  %h = sext <64 x i1> %g to <64 x i8>
  %k = shufflevector <64 x i8> %h, <64 x i8> poison, <16 x i32> <i32 16, i32 17, i32 18, i32 19, i32 20, i32 21, i32 22, i32 23, i32 24, i32 25, i32 26, i32 27, i32 28, i32 29, i32 30, i32 31>
  %l = icmp slt <16 x i8> %k, zeroinitializer
  %o = bitcast <16 x i1> %l to i16
  %q = zext i16 %f to i64
  %s = zext i16 %o to i64
  %t = mul i64 %s, 65537
  %r = xor i64 %q, %t
  ret i64 %r""")

HELPERS = '''target datalayout = "e-m:e-i64:64-i128:128-n8:16:32:64-S128"
@table = private unnamed_addr constant [16 x i8] c"0123456789abcdef", align 8
@text = private unnamed_addr constant [9 x i8] c"a\\22\\5C\\00?zz\\FF!", align 8
@pointers = private constant <{ [16 x i8], ptr }> <{ [16 x i8] zeroinitializer, ptr getelementptr (i8, ptr @text, i64 5) }>, align 8
define internal void @set(ptr noalias %p, i64 %n) #0 {
  store i64 %n, ptr %p, align 8
  ret void
}
define internal { i64, i1 } @pair(i64 %a, i64 %b) {
  %c = icmp ult i64 %a, %b
  %s = sub i64 %a, %b
  %p = insertvalue { i64, i1 } poison, i64 %s, 0
  %q = insertvalue { i64, i1 } %p, i1 %c, 1
  ret { i64, i1 } %q
}
define internal i64 @minus(i64 %n, i64 %m) {
  %r = sub i64 %n, %m
  ret i64 %r
}
define internal i64 @twice_minus(i64 %n, i64 %m) {
  %k = shl i64 %n, 1
  %r = sub i64 %k, %m
  ret i64 %r
}
attributes #0 = { noinline }
'''


def module():
    return HELPERS + ''.join(sorted(DECLARED)) + ''.join(text for *_, text in FUNCTIONS)


# What no call shows: a module, and texts that its translation has to have.
EXPECTED = [(f'define i64 @f(ptr %a) {{\n  %r = load atomic i64, ptr %a {order}, align 8\n  ret i64 %r\n}}\n', f'atomic_load64(p1, ORDER_{name})')
            for order, name in (('monotonic', 'RELAXED'), ('acquire', 'ACQUIRE'), ('seq_cst', 'SEQ_CST'))] + \
    [(f'define void @f(ptr %a) {{\n  store atomic i8 1, ptr %a {order}, align 1\n  ret void\n}}\n', f'atomic_store8(p1, 1, ORDER_{name})')
     for order, name in (('monotonic', 'RELAXED'), ('release', 'RELEASE'), ('seq_cst', 'SEQ_CST'))] + [
    ('define i64 @f(ptr %a) {\n  %r = atomicrmw xchg ptr %a, i64 3 acq_rel, align 8\n  ret i64 %r\n}\n', 'atomic_exchange64(p1, 3, ORDER_ACQ_REL)'),
    ('define i16 @f(i16 %a, i16 %b) {\n  %r = mul i16 %a, %b\n  ret i16 %r\n}\n', '(uint16_t)(1u * n1 * n2)'),
    ('define i64 @f(ptr %a) {\n  %r = load i64, ptr %a, align 4\n  ret i64 %r\n}\n', 'load64u(p1)'),
    ('define void @f() {\n  call void asm sideeffect "", "~{memory}"()\n  ret void\n}\n', '\tBARRIER();'),
    ('define i8 @f(ptr %a) {\n  %r = load volatile i8, ptr %a, align 1\n  ret i8 %r\n}\n', 'load8_volatile(p1)'),
    ('define internal void @f() #0 {\n  ret void\n}\ndefine void @g() {\n  call void @f()\n  ret void\n}\n'
     'attributes #0 = { cold noinline }\n', 'static COLD void c_f(void)', 'c_f();'),
    ('define i32 @f(i64 %a) {\n  %c = icmp eq i64 %a, 3\n  br i1 %c, label %x, label %y\nx:\n  ret i32 6\ny:\n'
     '  tail call void @f()\n  ret i32 0\n}\n', '\tif (RARE(n1 == 3))\n\t\treturn 6;'),
    # A load that nothing uses orders what follows it.
    ('define i64 @f(ptr %a, ptr %b) {\n  %x = load atomic i64, ptr %a acquire, align 8\n  %r = load i64, ptr %b, align 8\n  ret i64 %r\n}\n',
     '\t(void)atomic_load64(p1, ORDER_ACQUIRE);\n\treturn load64(p2);'),
    ('define i8 @f(ptr %a, ptr %b) {\n  %x = load volatile i8, ptr %a, align 1\n  ret i8 5\n}\n', '\t(void)load8_volatile(p1);'),
    # What was read before a barrier, or before an atomic load, is not read behind it.
    *[(f'define i64 @f(ptr %a, ptr %b) {{\n  %x = load i64, ptr %a, align 8\n  {between}\n  %r = add i64 %x, 3\n  ret i64 %r\n}}\n',
       f'\tuint64_t n3 = load64(p1);\n\t{written}')
      for between, written in (('call void asm sideeffect "", "~{memory}"()', 'BARRIER();'),
                               ('%y = load atomic i8, ptr %b acquire, align 1', '(void)atomic_load8(p2, ORDER_ACQUIRE);'),
                               ('%y = load volatile i8, ptr %b, align 1', '(void)load8_volatile(p2);'))],
    # Alignment, and copies that overlap: most compilers and processors don't show that one is wrong.
    ('define ptr @f(ptr %a) {\n  %r = load ptr, ptr %a, align 1\n  ret ptr %r\n}\n', 'loadptru(p1)',
     'loadptru(const byte *p) { return (byte *)(uintptr_t)load64u(p); }'),
    ('define void @f(ptr %a) {\n  store ptr %a, ptr %a, align 1\n  ret void\n}\n', 'storeptru(p1, p1)',
     'storeptru(byte *p, byte *v) { store64u(p, (uint64_t)(uintptr_t)v); }'),
    ('define void @f(ptr %a, ptr %b) {\n  call void @llvm.memmove.p0.p0.i64(ptr %a, ptr %b, i64 8, i1 false)\n  ret void\n}\n',
     '\tmemmove(p1, p2, 8);'),
    # A default that traps is no default that never is.
    ('define i64 @f(i64 %a) {\n  switch i64 %a, label %x [\n    i64 1, label %y\n    i64 3, label %z\n  ]\nx:\n'
     '  call void @llvm.trap()\n  unreachable\ny:\n  ret i64 6\nz:\n  ret i64 7\n}\n', '\tdefault: {\n\t\tTRAP();\n\t\tUNREACHABLE();\n'),
    ('define internal void @f() #0 {\n  ret void\n}\ndefine void @g() {\n  call void @f()\n  ret void\n}\n'
     'attributes #0 = { noinline }\n', 'static NOINLINE void c_f(void)'),
    ('@x = private constant [2 x i8] c"ab", align 8\n', 'ALIGN(8) byte c_x[2] = { 97, 98 };'),
    ('define i128 @f(ptr %a) {\n  %r = load i128, ptr %a, align 1\n  ret i128 %r\n}\n', 'load128u(p1)'),
    # A name has as many parts as no other one has, or a number.
    ('define void @"x::a::f"() {\n  ret void\n}\ndefine void @"y::a::f"() {\n  ret void\n}\n'
     'define void @"y::a::f<z>"() {\n  ret void\n}\n', ' c_a_f(void)', ' c_y_a_f(void)', ' c_y_a_f_2(void)'),
    # Each piece of a program has the constant, or one has it because its address says something.
    *[(f'@x = private {unnamed}constant [1 x i8] c"a", align 1\ndefine void @timers_program_main() {{\n  ret void\n}}\n', written)
      for unnamed, written in (('unnamed_addr ', '\nstatic const ALIGN(1) byte tp_x[1] = { 97 };\n'),
                               ('', '#if !defined PIECE || PIECE == 0\nOWN const ALIGN(1) byte tp_x[1] = { 97 };\n#else\nextern '))],
    # What may be any value is a 0 as wide as that is.
    ('define i64 @f() {\n  %f = freeze i64 poison\n  %r = shl i64 %f, 40\n  ret i64 %r\n}\n', '(uint64_t)0 << 40'),
    # Memory that was never written has one value.
    (f'define i64 @f() {{\n  %m = alloca i64, align 8\n  %u = load i64, ptr %m, align 8\n  %f = freeze i64 %u\n'
     '  %r = mul i64 %f, %f\n  ret i64 %r\n}\n', '\tALIGN(8) byte p1[8];\n\tuint64_t n2 = frozen64(load64(p1));\n\treturn n2 * n2;'),
] + [
    # An address is C's sum where the module reads or writes, and goes to a function that wants a value. Elsewhere it may be null's.
    (f'define {result} @f(ptr %a, i64 %n, i1 %c) {{\n  %p = getelementptr inbounds i8, ptr %a, i64 8\n'
     f'  %q = getelementptr inbounds i8, ptr %p, i64 %n\n{text}}}\n{more}', written)
    for result, text, more, written in (
        ('i1', '  %r = icmp eq ptr %p, null\n  ret i1 %r\n', '', 'at(p1, 8) == NULL'),
        ('void', '  store ptr %p, ptr %a, align 8\n  ret void\n', '', 'storeptr(p1, at(p1, 8));'),
        ('void', '  store i8 1, ptr %p, align 1\n  ret void\n', '', 'store8(p1 + 8, 1);'),
        ('void', '  store i8 1, ptr %q, align 1\n  ret void\n', '', 'store8(inside(p1 + 8, n2), 1);'),
        ('void', '  %s = getelementptr i8, ptr %a, i64 %n\n  store i8 1, ptr %s, align 1\n  ret void\n', '', 'store8(at(p1, n2), 1);'),
        ('void', '  %s = getelementptr inbounds i8, ptr %a, i64 -8\n  store i8 1, ptr %s, align 1\n  ret void\n', '', 'store8(p1 - 8, 1);'),
        ('void', '  %s = getelementptr i8, ptr null, i64 8\n  store i8 1, ptr %s, align 1\n  ret void\n', '', 'store8(at(NULL, 8), 1);'),
        ('void', '  %s = getelementptr i8, ptr %a, i64 -8\n  store i8 1, ptr %s, align 1\n  ret void\n', '',
         'store8(at(p1, UINT64_C(18446744073709551608)), 1);'),
        ('void', '  call void @llvm.memmove.p0.p0.i64(ptr %p, ptr %a, i64 %n, i1 false)\n  ret void\n', '', '\tmemmove(at(p1, 8), p1, (size_t)n2);'),
        ('i1', '  br i1 %c, label %x, label %y\nx:\n  br label %y\ny:\n  %s = phi ptr [ %p, %0 ], [ null, %x ]\n'
         '  %r = icmp eq ptr %s, %a\n  ret i1 %r\n', '', ' = at(p1, 8);\n'),
        ('ptr', '  ret ptr %p\n', '', 'return at(p1, 8);'), ('noundef ptr', '  ret ptr %p\n', '', 'return p1 + 8;'),
        ('ptr', '  %r = select i1 %c, ptr null, ptr %q\n  ret ptr %r\n', '', 'b3 ? NULL : at(at(p1, 8), n2)'),
        ('void', '  call void @g(ptr %p)\n  ret void\n', 'define internal void @g(ptr %a) {\n  ret void\n}\n', 'c_g(at(p1, 8));'),
        ('void', '  call void @g(ptr %p)\n  ret void\n', 'define internal void @g(ptr noundef %a) {\n  ret void\n}\n', 'c_g(p1 + 8);'),
        ('void', '  br i1 %c, label %x, label %y\nx:\n  ret void\ny:\n  store i8 1, ptr %q, align 1\n  store i8 1, ptr %q, align 1\n  ret void\n', '',
         '\tbyte *p4 = at(at(p1, 8), n2);\n\tif (b3)'),
        ('void', '  store i8 1, ptr %q, align 1\n  store i8 1, ptr %q, align 1\n  ret void\n', '', '\tbyte *p4 = inside(p1 + 8, n2);'),
        ('void', '  call void @g()\n  store i8 1, ptr %q, align 1\n  store i8 1, ptr %q, align 1\n  ret void\n', 'declare void @g()\n',
         '\tbyte *p4 = at(at(p1, 8), n2);\n\tg();'))
] + [
    # The first variant of an enum; of no number wider than that, since what compilers are told is a long.
    (f'define i64 @f(i{bits} %a) {{\n  switch i{bits} %a, label %x [\n    i{bits} {first}, label %y\n    i{bits} 3, label %z\n'
     '  ]\nx:\n  ret i64 5\ny:\n  ret i64 6\nz:\n  ret i64 7\n}\n', f'\tswitch ({chosen}) {{')
    for bits, first, chosen in ((8, 0, 'MOSTLY_0(n1)'), (8, 1, 'n1'), (64, 0, 'n1'))
] + [
    # Arms that do the same are one. What they set is not the same if another one is set, or from another one.
    (f'define i64 @f(ptr %a, i64 %n) {{\n  %t = load i8, ptr %a, align 1\n  %c = icmp eq i8 %t, 0\n'
     f'  br i1 %c, label %x, label %y\nx:\n  %u = load i64, ptr %a, align 8\n  store i64 7, ptr %a, align 8\n'
     f'  %v = add i64 %u, %n\n  br label %e\ny:\n  %u2 = load i64, ptr %a, align 8\n  store i64 7, ptr %a, align 8\n'
     f'  %v2 = add i64 {added}\n  br label %e\ne:\n  %r = phi i64 [ %v, %x ], [ {taken}, %y ]\n  ret i64 %r\n}}\n', written)
    for added, taken, written in (('%u2, %n', '%v2', '\n\tuint64_t n4 = load64(p1);\n\tstore64(p1, 7);\n'),
                                  ('%u2, %u2', '%v2', '\tif (load8(p1) == 0) {'), ('%u2, %n', '%n', '\tif (load8(p1) != 0) {'),
                                  ('%n, %u2', '%v2', '\tif (load8(p1) == 0) {'))
]

# Names of fields: of a call of the library, of functions that it calls, and of one that two call with other types.
NAMED = ''.join(f'define internal void @"{path}"() #0 {{\n  ret void\n}}\n' for path in SMOOTH) + """define internal void @"timer_wheels::lazy::LazyWheel::move"(ptr noundef %w) {
  %p = getelementptr inbounds i8, ptr %w, i64 216
  %k = getelementptr inbounds i8, ptr %w, i64 32
  %n = load i64, ptr %p, align 8
  %m = add i64 %n, 1
  store i64 %m, ptr %p, align 8
  call void @both(ptr %k)
  call void @links(ptr %k)
  ret void
}
define internal void @both(ptr noundef %x) {
  %p = getelementptr inbounds i8, ptr %x, i64 8
  store i64 7, ptr %p, align 8
  ret void
}
define internal void @links(ptr noundef %x) {
  %p = getelementptr inbounds i8, ptr %x, i64 64
  store i64 11, ptr %p, align 8
  ret void
}
define i32 @timers_stop(ptr %t, i64 %place, i64 %serial, ptr %action) {
  %mark.at = getelementptr inbounds i8, ptr %t, i64 8
  %mark = load i64, ptr %mark.at, align 8
  %c = icmp eq i64 %mark, 1
  br i1 %c, label %open, label %shut
shut:
  ret i32 1
open:
  %all = load ptr, ptr %t, align 8
  %w = getelementptr inbounds i8, ptr %all, i64 8
  call void @"timer_wheels::lazy::LazyWheel::move"(ptr noundef %w)
  call void @both(ptr %all)
  %tick.at = getelementptr inbounds i8, ptr %all, i64 16
  %links = getelementptr inbounds i8, ptr %all, i64 40
  call void @links(ptr %links)
  %other.at = getelementptr inbounds i8, ptr %all, i64 136
  %tick = load i64, ptr %tick.at, align 8
  %tick1 = add i64 %tick, %place
  store i64 %tick1, ptr %tick.at, align 8
  store i64 %tick, ptr %other.at, align 8
  %rows = load ptr, ptr %links, align 8
  %far = shl i64 %place, 5
  %near = shl i64 %place, 4
  %entry = getelementptr inbounds i8, ptr %rows, i64 %far
  %part = getelementptr inbounds i8, ptr %rows, i64 %near
  %field = getelementptr inbounds i8, ptr %entry, i64 24
  %none = getelementptr inbounds i8, ptr %part, i64 24
  %a = load i64, ptr %field, align 8
  %b = load i64, ptr %none, align 8
  %found = icmp eq i64 %a, %serial
  %either = select i1 %found, ptr %entry, ptr %t
  %x = getelementptr inbounds i8, ptr %either, i64 16
  store i64 %a, ptr %x, align 8
  store i64 %b, ptr %action, align 8
  ret i32 0
}
define i64 @timers_expire_batch(ptr %t, ptr %out, i64 %room) {
  ret i64 %room
}
attributes #0 = { noinline }
"""
EXPECTED.append((NAMED, '\tif (RARE(load64(t + CTimers_mark) != 1))\n\t\treturn TIMERS_NOT_OPEN;\n\tbyte *timers1 = loadptr(t + CTimers_at);\n',
                 '\tstore64(wheel1 + LazyWheel_filings, load64(wheel1 + LazyWheel_filings) + 1);\n\ttm_both(wheel1 + LazyWheel_links);\n',
                 'tm_LazyWheel_move(timers1 + Timers_lazy_or_smooth);\n\ttm_both(timers1);\n\ttm_links(timers1 + Timers_links);\n',
                 'tm_both(byte *p1)\n{\n\tstore64(p1 + 8, 7);\n', 'tm_links(byte *links1)\n{\n\tstore64(links1 + Links_lists, 11);\n',
                 '\tuint64_t tick2 = load64(timers1 + Timers_tick);\n\tstore64(timers1 + Timers_tick, tick2 + handle_1);\n',
                 '\tstore64(timers1 + 136, tick2);\n', 'byte *entry4 = inside(entry3, handle_1 << 5);\n',
                 'action5 = load64(entry4 + UnownedEntry_action);\n', 'n6 = load64(inside(entry3, handle_1 << 4) + 24);\n',
                 '\tstore64(((action5 == handle_2) ? entry4 : t) + 16, action5);\n', '\treturn TIMERS_OK;\n',
                 'Links_lists = 64', 'LazyWheel_links = 32, LazyWheel_filings = 216',
                 '/* Stops the timer with exactly this handle', ' -> IsOpen t.old }', ' and Does (Stopped (base_handle handle) timer) t.old t.new)', '(byte *t, byte *out, uint64_t out_length)\n'))

# Text, and the line that has to be named.
REFUSED = [
    ('define i64 @f(i64 %a) {\n  %r = frobnicate i64 %a\n  ret i64 %r\n}', 2),
    ('define i64 @f(i64 %a) {\n  %r = add i64 %a, 1, !x !0, surprise\n  ret i64 %r\n}', 2),
    ('define i64 @f(i64 %a) {\n  %r = add i64 %a, 1 surprise\n  ret i64 %r\n}', 2),
    ('define i24 @f(i24 %a) {\n  %r = add i24 %a, 1\n  ret i24 %r\n}', 1),
    ('define ptr @f(ptr %a, i64 %i) {\n  %r = getelementptr i64, ptr %a, i64 %i\n  ret ptr %r\n}', 2),
    ('define i1 @f(ptr %a) {\n  %r = load i1, ptr %a, align 1\n  ret i1 %r\n}', 2),
    ('define { i64, i64 } @f(ptr %a) {\n  %r = load { i64, i64 }, ptr %a, align 8\n  ret { i64, i64 } %r\n}', 2),
    ('define void @f() {\n  %r = alloca { i8, i64 }, align 8\n  ret void\n}', 2),
    ('@x = internal constant [2 x i64] [i64 1, i64 2], align 8\n', 1),
    ('define i48 @f(i48 %a) {\n  %r = add i48 %a, 1\n  ret i48 %r\n}', 2),
    ('define i128 @f(i128 %a) {\n  %r = udiv i128 %a, 3\n  ret i128 %r\n}', 2),
    ('define void @f(<2 x i64> %a) {\n  ret void\n}', 1),
    ('define void @f(ptr %a) {\n  %r = load <16 x i8>, ptr %a, align 1\n  store <16 x i8> %r, ptr %a, align 1\n  ret void\n}', 3),
    ('declare i32 @llvm.ctpop.i32(i32)\ndefine i32 @f(i32 %a) {\n  %r = call i32 @llvm.ctpop.i32(i32 %a)\n  ret i32 %r\n}', 3),
    ('define i64 @f(ptr %a) {\n  %r = call i64 (ptr, ...) @g(ptr %a)\n  ret i64 %r\n}', 1),
    ('define i1 @f(i64 %a) {\n  %x = uitofp i64 %a to double\n  %r = fcmp ueq double %x, 1.000000e+00\n  ret i1 %r\n}', 3),
    ('define i64 @f(i64 %a) {\n  %r = sdiv i64 %a, 3\n  ret i64 %r\n}', 2),
    ('define i1 @f(i1 %a, i1 %b) {\n  %r = add i1 %a, %b\n  ret i1 %r\n}', 2),
    ('define i1 @f(i1 %a, i1 %b) {\n  %r = icmp ult i1 %a, %b\n  ret i1 %r\n}', 2),
    ('define i1 @f(ptr %a, ptr %b) {\n  %r = icmp slt ptr %a, %b\n  ret i1 %r\n}', 2),
    ('define float @f(float %a) {\n  ret float %a\n}', 1),
    ('define i64 @f(<2 x i64> %a) {\n  %r = extractelement <2 x i64> %a, i64 0\n  ret i64 %r\n}', 2),
    ('declare i64 @llvm.bitreverse.i64(i64)\ndefine i64 @f(i64 %a) {\n  %r = call i64 @llvm.bitreverse.i64(i64 %a)\n'
     '  ret i64 %r\n}', 3),
    ('define i64 @f(ptr %a) {\n  %r = load atomic i64, ptr %a syncscope("x") acquire, align 8\n  ret i64 %r\n}', 2),
    ('define i64 @f(ptr %a) {\n  %r = load atomic i64, ptr %a acquire, align 4\n  ret i64 %r\n}', 2),
    ('define i32 @f(ptr %a) {\n  %r = load atomic i32, ptr %a acquire, align 4\n  ret i32 %r\n}', 2),
    ('define i64 @f(ptr %a) {\n  %r = atomicrmw add ptr %a, i64 1 acquire, align 8\n  ret i64 %r\n}', 2),
    ('define i64 @f(ptr %a) {\n  %r = load volatile i64, ptr %a, align 8\n  ret i64 %r\n}', 2),
    ('define void @f(ptr %a) {\n  store volatile i64 0, ptr %a, align 8\n  ret void\n}', 2),
    ('define void @f(ptr %a) {\n  call void @llvm.memset.p0.i64(ptr %a, i8 0, i64 8, i1 true)\n  ret void\n}', 2),
    ('define i64 @f(i64 %a) {\n  %r = shl i64 %a, 64\n  ret i64 %r\n}', 2),
    ('define void @f() {\n  br label %x\nx:\n  %m = alloca i64, align 8\n  store i64 1, ptr %m, align 8\n  br label %x\n}', 4),
    ('define void @f(i1 %a) {\n  br i1 %a, label %x, label %y\nx:\n  br label %y\ny:\n  br label %x\n}', 1),
    ('@x = thread_local global i64 0, align 8\n', 1),
    ('@x = internal constant i64 0, align 8\n', 1),
    ('@x = internal constant <{ i8, i64 }> <{ i8 0, i64 1 }>, align 1\n', 1),
    ('target datalayout = "E-m:e-i64:64"\n', 1),
    ('target datalayout = "e-p:32:32-i64:64"\n', 1),
    ('target datalayout = "e-m:e-P1-i64:64"\n', 1),
    *[(f'define void @f() #0 {{\n  ret void\n}}\nattributes #0 = {{ nounwind {word} }}\n', 4)
      for word in ('null_pointer_is_valid', 'strictfp', '"denormal-fp-math"="preserve-sign"', '"no-nans-fp-math"="true"')],
    ('@y = private constant [1 x i8] zeroinitializer, align 1\n'
     '@x = internal constant <{ [3 x i8], ptr }> <{ [3 x i8] zeroinitializer, ptr @y }>, align 8\n', 2),
    ('define void @f() personality ptr null {\n  ret void\n}', 1),
    ('define void @f(ptr byval(i64) %a) {\n  ret void\n}', 1),
    ('define void @f() {\n  musttail call void @f()\n  ret void\n}', 2),
    ('define void @f() {\n  call void asm sideeffect "nop", "~{memory}"()\n  ret void\n}', 2),
]
