"""Scripts over modules with opaque terms: the output of each part of the workbench. The answers are those of the
rules in Python."""

# Listed operations with opaque types that their rows don't allow, and properties that are opaque.
ROWS = """"func.func"() <{function_type = (f32, !d.t, memref<4xf32>, index, i1) -> f32, sym_name = "f"}> ({
^bb0(%f: f32, %d: !d.t, %m: memref<4xf32>, %i: index, %c: i1):
  "scf.for"(%f, %f, %f) ({
  ^bb0(%x: f32):
    "scf.yield"() : () -> ()
  }) : (f32, f32, f32) -> ()
  "scf.if"(%d) ({
    "scf.yield"() : () -> ()
  }, {}) : (!d.t) -> ()
  %0 = "memref.load"(%m, %i) : (memref<4xf32>, index) -> f32
  %1 = "memref.load"(%m, %f) : (memref<4xf32>, f32) -> f32
  %2 = "memref.load"(%m) : (memref<4xf32>) -> f32
  %3 = "memref.load"(%m, %i) : (memref<4xf32>, index) -> f64
  "memref.store"(%f, %m, %i) : (f32, memref<4xf32>, index) -> ()
  "memref.store"(%d, %m, %i) : (!d.t, memref<4xf32>, index) -> ()
  %4 = "memref.alloc"() : () -> memref<4xf32>
  %5 = "memref.alloc"(%f) : (f32) -> memref<?xf32>
  %6 = "scf.while"(%f) ({
  ^bb0(%x: f32):
    "scf.condition"(%d, %x) : (!d.t, f32) -> ()
  }, {
  ^bb0(%x: f32):
    "scf.yield"(%x) : (f32) -> ()
  }) : (f32) -> f32
  %7 = "arith.select"(%c, %f, %f) : (i1, f32, f32) -> f32
  %8 = "arith.select"(%c, %f, %d) : (i1, f32, !d.t) -> f32
  %9 = "arith.cmpi"(%i, %i) <{predicate = #d.p}> : (index, index) -> i1
  %10 = "arith.addi"(%i, %i) <{overflowFlags = #arith.other<nsw>}> : (index, index) -> index
  %11 = "arith.addi"(%i, %f) : (index, f32) -> index
  "func.return"(%d) : (!d.t) -> ()
}) : () -> ()
"func.func"() <{function_type = !d.fn<() -> ()>, sym_name = "g" : !d.s}> ({
  "func.call"() <{callee = #d.callee<f>}> : () -> ()
  "func.return"() : () -> ()
}) : () -> ()
"func.func"() <{function_type = (f32) -> (), sym_name = "h"}> ({
^bb0(%x: f64):
  %0 = "memref.alloc"() <{operandSegmentSizes = array<i16: 0, 0>}> : () -> memref<i8>
  "func.return"() : () -> ()
}) : () -> ()
// -----
report diagnostics
"""

# Operations with types beyond the table, which break no rule about the types of their row, and the rules that are
# reported all the same.
BEYOND_ROWS = """%v = "t.v"() : () -> vector<4xi8>
%w = "t.w"() : () -> vector<4xi16>
%i = "t.i"() : () -> i8
%m = "t.m"() : () -> memref<4xi8, strided<[2]>>
%b = "t.b"() : () -> vector<4xi1>
%x = "t.x"() : () -> index
%0 = "arith.addi"(%v, %v) : (vector<4xi8>, vector<4xi8>) -> vector<4xi8>
%1 = "arith.addi"(%v, %w) : (vector<4xi8>, vector<4xi16>) -> i8
%2 = "arith.cmpi"(%v, %v) <{predicate = 0 : i64}> : (vector<4xi8>, vector<4xi8>) -> vector<4xi1>
%3 = "arith.cmpi"(%v, %v) <{predicate = 10 : i64}> : (vector<4xi8>, vector<4xi8>) -> vector<4xi1>
%4 = "arith.cmpi"(%v, %v) : (vector<4xi8>, vector<4xi8>) -> vector<4xi1>
%5 = "arith.extsi"(%w) : (vector<4xi16>) -> vector<4xi8>
%6 = "arith.extsi"(%i) : (i8) -> vector<4xi8>
%7 = "arith.index_cast"(%v) : (vector<4xi8>) -> vector<4xindex>
%8 = "arith.select"(%b, %v, %v) : (vector<4xi1>, vector<4xi8>, vector<4xi8>) -> vector<4xi8>
%9 = "arith.constant"() <{value = dense<0> : vector<4xi8>}> : () -> vector<4xi8>
%10 = "arith.constant"() <{value = 1.0 : f32}> : () -> i8
%11 = "arith.constant"() <{value = 1 : i8}> : () -> f32
%12 = "arith.constant"() : () -> f32
%13 = "memref.load"(%m, %x) : (memref<4xi8, strided<[2]>>, index) -> i8
%14 = "memref.load"(%m) : (memref<4xi8, strided<[2]>>) -> f32
"memref.store"(%i, %m, %i) : (i8, memref<4xi8, strided<[2]>>, i8) -> ()
"memref.dealloc"(%m) : (memref<4xi8, strided<[2]>>) -> ()
%15 = "memref.alloc"(%i) <{operandSegmentSizes = array<i32: 0, 0>}> : (i8) -> memref<4xi8, 1>
%16 = "memref.alloc"() <{operandSegmentSizes = array<f32: 0.0>}> : () -> memref<4xi8, 1>
%17 = "arith.addi"(%v) : (vector<4xi8>) -> vector<4xi8>
%18:2 = "arith.addi"(%v, %v) : (vector<4xi8>, vector<4xi8>) -> (vector<4xi8>, vector<4xi8>)
// -----
report diagnostics
report effects
report dead
report constants
"""

# Rules at opaque types: those on any type do as ever, and beyond the table only that which erases what is dead.
REWRITES = """"func.func"() <{function_type = (f32, i1, vector<4xi8>) -> f32, sym_name = "f"}> ({
^bb0(%f: f32, %c: i1, %v: vector<4xi8>):
  %t = "arith.constant"() <{value = true}> : () -> i1
  %z = "arith.constant"() <{value = dense<0> : vector<4xi8>}> : () -> vector<4xi8>
  %u = "arith.constant"() <{value = 2.0 : f32}> : () -> f32
  %0 = "arith.select"(%t, %f, %u) : (i1, f32, f32) -> f32
  %1 = "arith.select"(%c, %0, %0) : (i1, f32, f32) -> f32
  %2 = "arith.addi"(%v, %z) : (vector<4xi8>, vector<4xi8>) -> vector<4xi8>
  %3 = "arith.subi"(%v, %v) : (vector<4xi8>, vector<4xi8>) -> vector<4xi8>
  %4 = "builtin.unrealized_conversion_cast"(%f) : (f32) -> !d.t
  %5 = "builtin.unrealized_conversion_cast"(%4) : (!d.t) -> f32
  %6 = "scf.if"(%t) ({
    "t.in"(%2, %3) : (vector<4xi8>, vector<4xi8>) -> ()
    "scf.yield"(%5) : (f32) -> ()
  }, {
    "scf.yield"(%f) : (f32) -> ()
  }) : (i1) -> f32
  %one = "arith.constant"() <{value = 1 : index}> : () -> index
  %zero = "arith.constant"() <{value = 0 : index}> : () -> index
  %7 = "scf.for"(%zero, %zero, %one, %6) ({
  ^bb0(%i: index, %x: f32):
    "scf.yield"(%x) : (f32) -> ()
  }) : (index, index, index, f32) -> f32
  %8 = "arith.addi"(%v, %v) : (vector<4xi8>, vector<4xi8>) -> vector<4xi8>
  %9 = "memref.alloc"() : () -> memref<4xf32>
  "memref.store"(%7, %9, %zero) : (f32, memref<4xf32>, index) -> ()
  "func.return"(%1) : (f32) -> ()
}) : () -> ()
// -----
report diagnostics
begin
canon
print
rollback
apply erase-dead #19
apply erase-dead #17
apply 3 #7
apply 10 #8
apply 16 #5
apply 15 #6
apply 21 #10
apply 24 #17
apply 23 #17
apply 22 #11
rewrite 1
print ids
"""

# A dead operation beyond the table is erased if it has no diagnostics and no property outside its row; no other rule
# applies.
DEAD = """%f = "arith.constant"() <{value = 1.0 : f32}> : () -> f32
%v = "t.v"() : () -> vector<4xi8>
%x = "t.x"() : () -> index
%z = "arith.constant"() <{value = dense<0> : vector<4xi8>}> : () -> vector<4xi8>
%s = "arith.addi"(%v, %z) : (vector<4xi8>, vector<4xi8>) -> vector<4xi8>
%p = "arith.muli"(%s, %s) : (vector<4xi8>, vector<4xi8>) -> vector<4xi8>
%a = "memref.alloc"() : () -> memref<4xi8, 1>
%l = "memref.load"(%a, %x) : (memref<4xi8, 1>, index) -> i8
%b = "memref.alloc"() : () -> memref<4xi8, 1>
"memref.dealloc"(%b) : (memref<4xi8, 1>) -> ()
%i = "arith.constant"() <{value = 1 : i8}> : () -> f32
%n = "arith.constant"() : () -> f32
%k = "arith.constant"() <{other, value = 2.0 : f64}> : () -> f64
%o = "arith.addi"(%v) : (vector<4xi8>) -> vector<4xi8>
%w = "arith.constant"() <{value = 1.0 : f32}> : () -> i32
%t = "arith.constant"() <{value = true}> : () -> i1
"scf.if"(%t) ({
  %y = "arith.subi"(%v, %v) {a} : (vector<4xi8>, vector<4xi8>) -> vector<4xi8>
  "scf.yield"() : () -> ()
}, {}) : (i1) -> ()
// -----
report diagnostics
report dead
begin
apply 1 #1
apply erase-dead #6
apply 1 #5
apply 1 #5
apply 1 #4
apply 1 #7
apply 1 #8
apply 1 #7
apply 1 #9
apply 1 #10
apply 1 #11
apply 1 #12
apply 1 #13
apply 1 #14
apply 1 #15
apply 1 #18
print ids
rollback
apply 2 #1
apply fold-to-constant #5
apply 4 #5
apply 7 #18
apply 8 #6
apply 25 #6
apply 26 #18
begin
rewrite 2,4,7,8
rewrite 1 trace limit 1
canon trace
print
report diagnostics
rollback
canon trace limit 3
rewrite 7,22,1 trace
print ids
"""

# Conversion: an opaque type isn't index, and only casts between index and i64 become others.
CONVERSIONS = """"func.func"() <{function_type = (index, f32, vector<4xindex>) -> f32, sym_name = "f"}> ({
^bb0(%i: index, %f: f32, %v: vector<4xindex>):
  %0 = "arith.addi"(%i, %i) : (index, index) -> index
  %1 = "arith.addi"(%v, %v) : (vector<4xindex>, vector<4xindex>) -> vector<4xindex>
  %2 = "arith.maxsi"(%v, %v) : (vector<4xindex>, vector<4xindex>) -> vector<4xindex>
  %3 = "scf.for"(%i, %i, %i, %f) ({
  ^bb0(%j: index, %x: f32):
    "scf.yield"(%x) : (f32) -> ()
  }) : (index, index, index, f32) -> f32
  %4 = "builtin.unrealized_conversion_cast"(%f) : (f32) -> !d.t
  %5 = "builtin.unrealized_conversion_cast"(%4) : (!d.t) -> f32
  "t.u"(%0, %1, %3, %5) : (index, vector<4xindex>, f32, f32) -> ()
  "func.return"(%f) : (f32) -> ()
}) : () -> ()
// -----
begin
convert partial dynamic arith.addi,scf.for rules 28,29
print
rollback
convert partial illegal arith.maxsi rules 25
insert before #10 "t.w"(%v7.0) : (!d.t) -> ()
convert partial illegal arith.constant rules 2
erase #11
convert partial illegal arith.constant rules 2
convert full legal builtin.module,func.func,func.return,t.u,scf.yield,arith.index_cast dynamic arith.addi,\
arith.maxsi,scf.for rules 28,29
"""

# Edits, marks and reports: an opaque term is like any other, and no symbol hides in one.
EDITS = """"func.func"() <{function_type = () -> (), sym_name = "f", sym_visibility = "private"}> ({
  "func.return"() : () -> ()
}) : () -> ()
%0:2 = "t.a"() {k = {a = @f, b = #d.x<"@f">}, l = "s" : !d.t} : () -> (tensor<4xf32>, f32)
"t.b"(%0#0, %0#1) {m = dense<"@g"> : tensor<1x!d.s>} : (tensor<4xf32>, f32) -> ()
// -----
report symbols
report unreached
report uses
begin
set-attr #3 k #d.y
report symbols
report unreached
begin
set-attr #3 l [#d.a, {b, a = 1.5}]
set-attr #4 "a b" loc("f":1:2)
set-operand #4 1 %v3.0
set-operand #4 0 %v3.1
print
rollback
print
rollback
insert end #0 0 %r = "t.c"(%v3.0) ({ ^bb0(%x: tensor<4xf32>, %y: !d.t): "t.d"(%x, %y) : (tensor<4xf32>, !d.t) -> () \
}) : (tensor<4xf32>) -> complex<f64>
insert end #0 0 "t.c"(%v3.0) : (tensor< 4xf32>) -> ()
insert end #0 0 "t.c"(%v3.0) : (tensor<4xf32>) -> !t
insert end #0 0 "t.c"(%v3.0) {k = #d.a<(>} : (tensor<4xf32>) -> ()
insert end #0 0 "t.c"() : () -> tensor<4 // x>
insert end #0 0 "t.c"() {k = #d.a<"//">} : () -> ()
expect 24 replace %v3.0 %v3.1
expect 13 set-attr #3 k #m
expect 2 set-attr #3 k dense<1>
expect 5 set-attr #3 k 1 : f32
expect 1 set-attr #3 k #d.a<"x>
expect TooDeep set-attr #3 k #d.a<((((((((((((((((((((((((((((((((
set-attr #3 k sparse<[[0, 1]], 1.0> : tensor<4x4xf32>
set-attr #4 alignment distinct[0]<>
detach diagnostics
attach diagnostics
report diagnostics
print ids
sweep
"""

# Scripts, each with a name and a sentence.
SCRIPTS = (
    ("script-rows", "Listed operations whose rules don't allow opaque types and properties have diagnostics.", ROWS),
    ("script-rows-beyond", "An operation with opaque types has the diagnostics of its form, and none of its types.",
     BEYOND_ROWS),
    ("script-rewrites", "Rules on any type apply to operations with opaque types, and others don't.", REWRITES),
    ("script-dead", "Dead operations with opaque types are erased, and no other rule applies to them.", DEAD),
    ("script-conversions", "A conversion takes no opaque type for `index`.", CONVERSIONS),
    ("script-edits", "Edits, marks and reports of a module with opaque types and attributes.", EDITS))
