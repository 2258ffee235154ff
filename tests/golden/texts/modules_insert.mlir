%0:8 = "t.d"() ({
^bb0(%a: i32, %b: i32, %c: i32, %d: i32):
}, {
^bb0(%a: i32, %b: i32, %c: i32, %d: i32):
}, {
^bb0(%a: i32, %b: i32, %c: i32, %d: i32):
}) : () -> (i32, i32, i32, i32, i32, i32, i32, i32)
%x2:3 = "t.e"() : () -> (i32, i32, i32)
%x3:3 = "t.e"() : () -> (i32, i32, i32)
%x4:3 = "t.e"() : () -> (i32, i32, i32)
%x5:3 = "t.e"() : () -> (i32, i32, i32)
%x6:3 = "t.e"() : () -> (i32, i32, i32)
%x7:3 = "t.e"() : () -> (i32, i32, i32)
%x8:3 = "t.e"() : () -> (i32, i32, i32)
// -----
begin
insert end #0 0 "test.a"() ({}, {}) {x = [[unit, 7 : si8, #arith.overflow<nsw, nuw>, "a\"\\\n", @a::@"odd name", {"odd name" = 7 : si8, a}], [memref<4x?xi32>, () -> ((i32, i32) -> i1), array<i32>, array<i1: -1, 0>]]} : () -> ()
print
report uses
rollback
begin
insert end #0 0 "test.a"() {a = 255 : i8, b = -0 : i8, c = true, d = 0xFF : ui8, e = -1 : i1, f = 7} : () -> ()
print
report uses
rollback
begin
insert end #0 0 "test.a"() {f = 7, e = false, d = 255 : ui8, c = -1 : i1, b = 0 : i8, a = -1 : i8} : () -> ()
print
report uses
rollback
