"""Modules and operations, and how they are printed, written by hand."""

FUNCTION = b'''"func.func"() <{function_type = (i32) -> i32, sym_name = "f"}> ({
^bb0(%a: i32):
  %c = "arith.constant"() <{value = 2 : i32}> : () -> i32
  %s = "arith.addi"(%a, %c) <{overflowFlags = #arith.overflow<none>}> : (i32, i32) -> i32
  "func.return"(%s) : (i32) -> ()
}) : () -> ()
'''
FUNCTION_PRINTED = '''"builtin.module"() ({
  "func.func"() <{function_type = (i32) -> i32, sym_name = "f"}> ({
  ^bb0(%arg0: i32):
    %0 = "arith.constant"() <{value = 2 : i32}> : () -> i32
    %1 = "arith.addi"(%arg0, %0) <{overflowFlags = #arith.overflow<none>}> : (i32, i32) -> i32
    "func.return"(%1) : (i32) -> ()
  }) : () -> ()
}) : () -> ()
'''
TWICE_PRINTED = FUNCTION_PRINTED.replace("(%arg0, %0)", "(%0, %0)")
EMPTY = '"builtin.module"() ({\n^bb0:\n}) : () -> ()\n'
TWO = ('"builtin.module"() ({\n  "builtin.module"() ({\n  ^bb0:\n  }) : () -> ()\n  "test.a"() : () -> ()\n}) : () -> '
       '()\n')
NAMED = '"builtin.module"() <{sym_name = "m"}> ({\n  "test.a"() : () -> ()\n}) {b} : () -> ()\n'
HIDDEN = '''"builtin.module"() ({
  %0 = "arith.constant"() <{value = 1 : i32}> : () -> i32
  "builtin.module"() ({
    %1 = "test.d"() : () -> i32
    "test.u"(%1) : (i32) -> ()
  }) : () -> ()
}) : () -> ()
'''
THREE = b'''%0:2 = "test.pair"() {b, a = 1 : i8} : () -> (i8, index)
"test.use"(%0#1) : (index) -> ()
%m = "memref.alloc"() <{operandSegmentSizes = array<i32: 0, 0>}> : () -> memref<i32>'''
THREE_PRINTED = '''"builtin.module"() ({
  %0:2 = "test.pair"() {a = 1 : i8, b} : () -> (i8, index)
  "test.use"(%0#1) : (index) -> ()
  %1 = "memref.alloc"() <{operandSegmentSizes = array<i32: 0, 0>}> : () -> memref<i32>
}) : () -> ()
'''
PACKS = b'''%a:2, %b, %c:0x3 = "t"() : () -> (i1, i2, i3, i4, i5, i6)
"u"(%a, %a#0, %a #1, %b, %b#00, %c#2, %c#01) : (i1, i1, i2, i3, i3, i6, i5) -> ()
"v"() ({
^bb0(%d: i8):
  "w"(%d#0, %c) : (i8, i4) -> ()
}) : () -> ()
'''
PACKS_PRINTED = '''"builtin.module"() ({
  %0:6 = "t"() : () -> (i1, i2, i3, i4, i5, i6)
  "u"(%0#0, %0#0, %0#1, %0#2, %0#2, %0#5, %0#4) : (i1, i1, i2, i3, i3, i6, i5) -> ()
  "v"() ({
  ^bb0(%arg0: i8):
    "w"(%arg0, %0#3) : (i8, i4) -> ()
  }) : () -> ()
}) : () -> ()
'''
LOOP = b'''"func.func"() <{sym_name = "g", function_type = (memref<4xi32>, i1) -> ()}> ({
^entry(%m: memref<4xi32>, %p: i1):
  %z = "arith.constant"() <{value = 0 : index}> : () -> index // the lower bound
  %n = "arith.constant"() {value = 4 : index} : () -> index
  %s:2 = "scf.for"(%z, %n, %z, %p, %z) ({
  ^bb(%i: index, %q: i1, %k: index):
    %x = "memref.load"(%m, %i) <{nontemporal = false}> : (memref<4xi32>, index) -> i32
    "scf.if"(%q) ({ "memref.store"(%x, %m, %k) : (i32, memref<4xi32>, index) -> () "scf.yield"() : () -> () \
}, {}) : (i1) -> ()
    "scf.yield"(%q, %i) : (i1, index) -> ()
  }) : (index, index, index, i1, index) -> (i1, index)
  "test.use"(%s#1, %s) {a.b = [unit, @g::@"x y"], "c d"} : (index, i1) -> ()
  "func.return"() : () -> ()
}) : () -> ()
'''
ATTRIBUTES = b'''"test.a"() ({}, {}) {x = [[unit, 7 : si8, #arith.overflow<nsw, nuw>, "a\\"\\\\\\n", @a::@"odd name", \
{"odd name" = 7 : si8, a}], \
[memref<4x?xi32>, () -> ((i32, i32) -> i1), array<i32>, array<i1: -1, 0>]]} : () -> ()'''
ATTRIBUTES_PRINTED = '"test.a"() ({}, {}) {x = [[unit, 7 : si8, #arith.overflow<nsw, nuw>, "a\\22\\\\\\0A", ' \
    '@a::@"odd name", {a, "odd name" = 7 : si8}], ' \
    '[memref<4x?xi32>, () -> ((i32, i32) -> i1), array<i32>, array<i1: true, false>]]} : () -> ()\n'
SIX = b'"test.a"() {a = 255 : i8, b = -0 : i8, c = true, d = 0xFF : ui8, e = -1 : i1, f = 7} : () -> ()'
SIX_PRINTED = '"test.a"() {a = -1 : i8, b = 0 : i8, c = true, d = 255 : ui8, e = true, f = 7 : i64} : () -> ()\n'
