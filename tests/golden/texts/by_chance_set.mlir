"a"() : () -> ()
// -----
set-attr #1 a array<< ,i8>array
set-attr #1 a {"a", alignment}
print
set-attr #1 a {a, alignment}
print
set-attr #1 a 18446744073709551616 :ui8 
set-attr #1 a "`b\00
set-attr #1 a 0x80000000 : si8
set-attr #1 a :2rue
set-attr #1 a {_x."y$z}"\q q"
set-attr #1 a u"\q"//t
set-attr #1 a 256 : si128
print
set-attr #1 a si8 si8
set-attr #1 a [array<i16: 1, -1, 1>]
print
set-attr #1 a array<i16: 0>
print
set-attr #1 a "\q"128 : ui64
set-attr #1 a @g.h@g.h:@f
set-attr #1 a -17014118346046923173168-1297303715884105728 : ui64
set-attr #1 a   : si128
set-attr #1 a array}
set-attr #1 a [@"m"::@"m"::@g.h, 7@: i32, "true~	\\"]
set-attr #1 a #arith.overflow<{nsw,nuw >
set-attr #1 a ini0xindex
set-attr #1 a #arith.overflow<*sw>
set-attr #1 a array<i16: 0, , 1, -1>
set-attr #1 a -2,56 : si128
set-attr #1 a "\00~"
print
set-attr #1 a true true
set-attr #1 a {"c d" = 100 : i64}
print
set-attr #1 a @=::@f
set-attr #1 a [ [#arith.overflow>]
set-attr #1 a 69 6>9 si8, si8
set-attr #1 a 0 0
set-attr #1 a [array<i8: 0, -1
set-attr #1 a ""99999999999999999999
set-attr #1 a [array<i64: 1>, 0x0000000000000000000000000000000 : i8, " \"a"]
print
set-attr #1 a [array<i64: 1>, 0 : i8, " \22a"]
print
set-attr #1 a 26 : i32
print
set-attr #1 a 0"
set-attr #1 a array<i32: 1, 1, -1>
print
set-attr #1 a "`\\\\"
print
set-attr #1 a 4294967295 : ui64
print
set-attr #1 a "\" \""
print
set-attr #1 a "\22 \22"
print
set-attr #1 a 0x5e : i128
print
set-attr #1 a 94 : i128
print
set-attr #1 a nonerray<i1>
set-attr #1 a "\""
print
set-attr #1 a i1 i1
set-attr #1 a array<i64: 1>
print
set-attr #1 a [@"k l"::@0::@f]
print
set-attr #1 a [@"k l"::@"0"::@f]
print
set-attr #1 a "" ""
set-attr #1 a [array<i8: -1, -1>]
print
set-attr #1 a ::"""
set-attr #1 a ><i64>
set-attr #1 a array:2<i32: 1, -1, 0>
set-attr #1 a  <array<i1
set-attr #1 a 184467440737095516->5 5 : i64
set-attr #1 a   :922337203685475807si128
set-attr #1 a array<i1: -1>
print
set-attr #1 a array<i1: true>
print
set-attr #1 a [si65si65
set-attr #1 a 4294967295 : si128
print
set-attr #1 a 100
print
set-attr #1 a 100 : i64
print
set-attr #1 a {a = 0 : i64, overflowFlags = 4294967295 : ui64}
print
set-attr #1 a #arith.oi0erflow<nuw,nsw>
set-attr #1 a 2147483648 : index
print
set-attr #1 a }{
set-attr #1 a {true, b, "c d"}
print
set-attr #1 a {b, "c d", true}
print
set-attr #1 a array<i1: 1>
print
set-attr #1 a #bverflowFlags=@g.h::@0::}
set-attr #1 a array<i16: -1>
print
set-attr #1 a [0, f32 ,}
set-attr #1 a ["\00", [], raf32 -1, 1>]
set-attr #1 a 1, 1
set-attr #1 a #arith.overflownsw<>
set-attr #1 a {-129
set-attr #1 a 2
print
set-attr #1 a 2 : i64
print
set-attr #1 a [@0, #arith.overflow<nsw, nuloc, []]
set-attr #1 a 7 : si128
print
set-attr #1 a array->i16: -1, 1, -1>
set-attr #1 a #arith.overflow<nsw,,nuw>
set-attr #1 a array<i16: 0, -1i16 -1>
set-attr #1 a [array<i32>, : : i64]
set-attr #1 a i0@0
set-attr #1 a [@g.h::@"m"::@g.h, "\00ä", [{overflowFlags	=	array<i8>}, ["\\\""], "\n\"\00"]]
print
set-attr #1 a [@g.h::@m::@g.h, "\00\C3\A4", [{overflowFlags = array<i8>}, ["\\\22"], "\0A\22\00"]]
print
set-attr #1 a -128 : ui64
set-attr #1 a array<i16true
set-attr #1 a falsefalse
set-attr #1 a 127[ [: i32]
set-attr #1 a @"m"loc:@f
set-attr #1 a [[
set-attr #1 a {b,  oi0erflowFlags}
print
set-attr #1 a {b, oi0erflowFlags}
print
set-attr #1 a array<<i32: -1
set-attr #1 a 131 : i128
print
set-attr #1 a {value	=	-9223372036854775807 : index, b, "c d"  = index}
print
set-attr #1 a {b, "c d" = index, value = -9223372036854775807 : index}
print
set-attr #1 a [@"m", array<i32: 0  1>]
set-attr #1 a @0"m"::@
set-attr #1 a [18446744073709551616 : i128, {}, @"m"]
print
set-attr #1 a [18446744073709551616 : i128, {}, @m]
print
set-attr #1 a {_x.y$z = {}, b = array<i64: 0, 1>, callee}
print
set-attr #1 a array<i8: -1, 1, 1>
print
set-attr #1 a [{"a"	=  @0::@"m", i8  =	0xffffffffffffffffffffffffffffffff : i8}]
set-attr #1 a { {}*
set-attr #1 a -0xfffffffffffffffffffffffffffffff256f  :0xfffffffffffffffffffffffffffffff256fi64
set-attr #1 a @"k l"
print
set-attr #1 a @"m"
print
set-attr #1 a @m
print
set-attr #1 a array<i8: 0, -1>
print
set-attr #1 a array<i16: 1>
print
set-attr #1 a !c
set-attr #1 a =array>i32: , -1>
set-attr #1 a [[], ]
set-attr #1 a "\n]
set-attr #1 a {alignment = 255 : ui64, callee = "", true = #arith.overflow<nsw>}
print
set-attr #1 a @g.h::@"m"
print
set-attr #1 a @g.h::@m
print
set-attr #1 a <<memref?x4xindex>
set-attr #1 a array<i64: 1, 1,, 1>
set-attr #1 a array<i8: -1, 0>
print
set-attr #1 a unitunit
set-attr #1 a {alignment = [#arith.overflow<none>], b = memref<i8>, "c d" = 127 : si128}
print
set-attr #1 a "*
set-attr #1 a [array<i1>array ,<i16: -1, "\q",, 0>]
set-attr #1 a 255 : i64
print
set-attr #1 a @"m"::@0
print
set-attr #1 a @m::@"0"
print
set-attr #1 a @0::@0::@"m99999999999999999999
set-attr #1 a @::@"m"::@g.h"k l"
set-attr #1 a #arith.overflow< <nsw>
set-attr #1 a #0ui64
set-attr #1 a #arith.overflow@dnone>
set-attr #1 a  127-: i8
set-attr #1 a {_x.y$z, b = [i8, [], {a = @"k l"::@"k l"::@"0", b = 1 : i64, overflowFlags = @f}]}
print
set-attr #1 a i3= =2#b
set-attr #1 a array<i8: -1
set-attr #1 a {a	= [a], sym_name}
set-attr #1 a array<i1: 0, 0>
print
set-attr #1 a array<i1: false, false>
print
set-attr #1 a [{ {overflowFlags=	[i1, 18446744073709551615 : si8], true}]
set-attr #1 a { {}
set-attr #1 a  0xffffffffffffffff: index
set-attr #1 a array<i32: 0, 0> 1,
set-attr #1 a {"c d" = array<i16>}
print
set-attr #1 a {i8}
print
set-attr #1 a tr
set-attr #1 a <memref?xui3>
set-attr #1 a as"
set-attr #1 a array<i64: 0, 0, 1>
print
set-attr #1 a a?1<i32, i32: 1, -1, 0>
set-attr #1 a {callee = array<i8: 1, -1>}
print
set-attr #1 a [[], 9223372036854775807 : ui8, 0xffffffffffffffffffffffffffffffff : i128]
