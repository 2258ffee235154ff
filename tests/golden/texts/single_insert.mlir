%0:8 = "t.d"() ({
^bb0(%a: i32, %b: i32, %c: i32, %d: i32):
}, {
^bb0(%a: i32, %b: i32, %c: i32, %d: i32):
}, {
^bb0(%a: i32, %b: i32, %c: i32, %d: i32):
}) : () -> (i32, i32, i32, i32, i32, i32, i32, i32)
%x2:3 = "t.e"() : () -> (i32, i32, i32)
%x3:3 = "t.e"() : () -> (i32, i32, i32)
%x4:3 = "t.e"() : () -> (i32, i32, i32)
%x5:3 = "t.e"() : () -> (i32, i32, i32)
%x6:3 = "t.e"() : () -> (i32, i32, i32)
%x7:3 = "t.e"() : () -> (i32, i32, i32)
%x8:3 = "t.e"() : () -> (i32, i32, i32)
// -----
insert end #0 0 "t"() : () -> () x
insert end #0 0 "t"() : () -> () $
insert end #0 0 "t"() : () -> () ^a:
insert end #0 0 "t"() : () -> () }
insert end #0 0 "t"() : () -> () #a
insert end #0 0 x
begin
insert end #0 0 "t"() : () -> () // end
print
report uses
rollback
begin
insert end #0 0 "t"() ({ "u"() : () -> () }) : () -> ()
print
report uses
rollback
insert end #0 0 "t"() ({ "u"() : () -> () }) : () -> (i129)
begin
insert end #0 0 "t"() : () -> ()
print
report uses
rollback
insert end #0 0 %a = "t"() : () -> ()
insert end #0 0 "t"() $
insert end #0 0 "t"() : () : ()
insert end #0 0 "t"(%a) : (i32) -> ()
insert end #0 0 %a, %a = "t"() : () -> (i32, i32)
insert end #0 0 "t"() : () -> si129
insert end #0 0 "t"() {a = 128 : si8} : () -> ()
insert end #0 0 "t"() ({^a: ^b:}) : () -> ()
insert end #0 0 "t"() [^a] : () -> ()
insert end #0 0 "t"() {a = [[[[[[[[[[[[[[[[[[[[[[[[[[[[[[[[[]]]]]]]]]]]]]]]]]]]]]]]]]]]]]]]]]} : () -> ()
insert end #0 0 %a:257 = "t"() : () -> ()
insert end #0 0 "t"() {a, a} : () -> ()
insert end #0 0 module {}
begin
insert end #0 0 %a:2, %b, %c:0x3 = "t"() : () -> (i1, i2, i3, i4, i5, i6)
print
report uses
rollback
begin
insert end #0 0 %a, %b:2 = "t"() : () -> (i1, i2, i3)
print
report uses
rollback
begin
insert end #0 0 "builtin.module"() ({^a:}) : () -> ()
print
report uses
rollback
