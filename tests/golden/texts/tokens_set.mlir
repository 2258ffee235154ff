"a"() : () -> ()
// -----
set-attr #1 a 0x1F
print
set-attr #1 a 31 : i64
print
set-attr #1 a 007
print
set-attr #1 a 7 : i64
print
set-attr #1 a 12
print
set-attr #1 a 12 : i64
print
set-attr #1 a 0x
set-attr #1 a 0xg
set-attr #1 a 00x1
set-attr #1 a 0X1
set-attr #1 a 0xfg
set-attr #1 a 0x1.5
set-attr #1 a -1
print
set-attr #1 a -1 : i64
print
set-attr #1 a - 1
print
set-attr #1 a 007:
set-attr #1 a 1.5e3
set-attr #1 a -1.5e3
set-attr #1 a array<i8: 1.5e3>
set-attr #1 a 1.
set-attr #1 a -1.
set-attr #1 a array<i8: 1.>
set-attr #1 a 1.e3
set-attr #1 a -1.e3
set-attr #1 a array<i8: 1.e3>
set-attr #1 a 1.5e
set-attr #1 a -1.5e
set-attr #1 a array<i8: 1.5e>
set-attr #1 a 1.5e+
set-attr #1 a -1.5e+
set-attr #1 a array<i8: 1.5e+>
set-attr #1 a 1.5E-07x
set-attr #1 a -1.5E-07x
set-attr #1 a array<i8: 1.5E-07x>
set-attr #1 a 1.5e+3e4
set-attr #1 a -1.5e+3e4
set-attr #1 a array<i8: 1.5e+3e4>
set-attr #1 a 1..2
set-attr #1 a -1..2
set-attr #1 a array<i8: 1..2>
set-attr #1 a 1e5
set-attr #1 a {a.b$c}
print
set-attr #1 a {a-b}
set-attr #1 a {_0, A}
print
set-attr #1 a {A, _0}
print
set-attr #1 a [i32, i8]
print
set-attr #1 a @0
print
set-attr #1 a @"0"
print
set-attr #1 a @a::@0
print
set-attr #1 a @a::@"0"
print
set-attr #1 a @1
print
set-attr #1 a @"1"
print
set-attr #1 a @a::@1
print
set-attr #1 a @a::@"1"
print
set-attr #1 a @a1-b.$_c
print
set-attr #1 a @"a1-b.$_c"
print
set-attr #1 a @a::@a1-b.$_c
print
set-attr #1 a @a::@"a1-b.$_c"
print
set-attr #1 a @-
print
set-attr #1 a @"-"
print
set-attr #1 a @a::@-
print
set-attr #1 a @a::@"-"
print
set-attr #1 a @.0
print
set-attr #1 a @".0"
print
set-attr #1 a @a::@.0
print
set-attr #1 a @a::@".0"
print
set-attr #1 a @$
print
set-attr #1 a @"$"
print
set-attr #1 a @a::@$
print
set-attr #1 a @a::@"$"
print
set-attr #1 a @a
print
set-attr #1 a @a::@a
print
set-attr #1 a @_
print
set-attr #1 a @a::@_
print
set-attr #1 a @A9
print
set-attr #1 a @a::@A9
print
set-attr #1 a @00
print
set-attr #1 a @"00"
print
set-attr #1 a @a::@00
print
set-attr #1 a @a::@"00"
print
set-attr #1 a @-0
print
set-attr #1 a @"-0"
print
set-attr #1 a @a::@-0
print
set-attr #1 a @a::@"-0"
print
set-attr #1 a @a-
print
set-attr #1 a @"a-"
print
set-attr #1 a @a::@a-
print
set-attr #1 a @a::@"a-"
print
set-attr #1 a @f::@g
print
set-attr #1 a @0a
set-attr #1 a @"a b"c
set-attr #1 a @""
print
set-attr #1 a !t.x>
set-attr #1 a #arith.overflow <none>
print
set-attr #1 a #arith.overflow<none>
print
set-attr #1 a #arith.overflow.x<none>
set-attr #1 a #arith.overflo<none>
set-attr #1 a #arith.overflow-<none>
set-attr #1 a """
set-attr #1 a "a\"b" c
set-attr #1 a "\\"x
set-attr #1 a "\0a\FF\n\t"
print
set-attr #1 a "\0A\FF\0A\09"
print
set-attr #1 a "	ä"
print
set-attr #1 a "\09\08\C3\A4"
print
set-attr #1 a "x"
print
set-attr #1 a "c"
print
set-attr #1 a  // the end
