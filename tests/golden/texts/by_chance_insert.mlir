%0:8 = "t.d"() ({
^bb0(%a: i32, %b: i32, %c: i32, %d: i32):
}, {
^bb0(%a: i32, %b: i32, %c: i32, %d: i32):
}, {
^bb0(%a: i32, %b: i32, %c: i32, %d: i32):
}) : () -> (i32, i32, i32, i32, i32, i32, i32, i32)
%x2:3 = "t.e"() : () -> (i32, i32, i32)
%x3:3 = "t.e"() : () -> (i32, i32, i32)
%x4:3 = "t.e"() : () -> (i32, i32, i32)
%x5:3 = "t.e"() : () -> (i32, i32, i32)
%x6:3 = "t.e"() : () -> (i32, i32, i32)
%x7:3 = "t.e"() : () -> (i32, i32, i32)
%x8:3 = "t.e"() : () -> (i32, i32, i32)
// -----
insert end #0 0 %c1, %a2 = "a b"() : (),-> (i64  (i8) -> i1)
insert end #0 0 %a1:2, %a2:1, %d3:1 =("arith.constant"() ({}) : () -> (i1, memref<i8>, si8, i1)
insert end #0 0 %c1@duiltin.module"() : () -> (memref<?x4xindex>)
begin
insert end #0 0 %c1, %c2:1, %a3:2 = "memref.load"()	{a} : () -> (i8, memref<0x07x?xui3>, i1, memref<i32>)
print
report uses
rollback
insert end #0 0 %c1:1 = "scf.for")  {} : () -> (i128)
begin
insert end #0 0 %b1 = "a b"() : () -> (i1)
print
report uses
rollback
insert end #0 0 %d1:2, %d2:2 = "func.call"() <{i8}> : () -> (memref<i8unit memref<0x07x?xui3>, i1, i1)
insert end #0 0 %b1:2, %2:2 = "scf.for"() <{overflowFlags =<"k l"}> {i8=100, callee =	array<i32>, alignment  = [unit, []]} : : () -> (ui8, i128, () -> (), memref<i8>)
insert end #0 0 %c1:2 = "scf.for"() : () -> (si8, ui64none)
begin
insert end #0 0 "x"() ({ }){callee =array<i32: 1, 1>, _x.y$z =	@"k l"::@"m"} : () -> ()
print
report uses
rollback
