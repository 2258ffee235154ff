"a"() : () -> ()
// -----
set-attr #1 a [unit, true, 1]
print
set-attr #1 a [unit, true, 1 : i64]
print
set-attr #1 a {"b c" = true, a}
print
set-attr #1 a {a, "b c" = true}
print
set-attr #1 a [unit, false, 1]
print
set-attr #1 a [unit, false, 1 : i64]
print
set-attr #1 a {"b c" = false, a}
print
set-attr #1 a {a, "b c" = false}
print
set-attr #1 a [unit, unit, 1]
print
set-attr #1 a [unit, unit, 1 : i64]
print
set-attr #1 a {"b c" = unit, a}
print
set-attr #1 a {a, "b c"}
print
set-attr #1 a [unit, 1, 1]
print
set-attr #1 a [unit, 1 : i64, 1 : i64]
print
set-attr #1 a {"b c" = 1, a}
print
set-attr #1 a {a, "b c" = 1 : i64}
print
set-attr #1 a [unit, -1 : i8, 1]
print
set-attr #1 a [unit, -1 : i8, 1 : i64]
print
set-attr #1 a {"b c" = -1 : i8, a}
print
set-attr #1 a {a, "b c" = -1 : i8}
print
set-attr #1 a 0x10 : index
print
set-attr #1 a 16 : index
print
set-attr #1 a [unit, 0x10 : index, 1]
print
set-attr #1 a [unit, 16 : index, 1 : i64]
print
set-attr #1 a {"b c" = 0x10 : index, a}
print
set-attr #1 a {a, "b c" = 16 : index}
print
set-attr #1 a "a\n"
print
set-attr #1 a "a\0A"
print
set-attr #1 a [unit, "a\n", 1]
print
set-attr #1 a [unit, "a\0A", 1 : i64]
print
set-attr #1 a {"b c" = "a\n", a}
print
set-attr #1 a {a, "b c" = "a\0A"}
print
set-attr #1 a [unit, i32, 1]
print
set-attr #1 a [unit, i32, 1 : i64]
print
set-attr #1 a {"b c" = i32, a}
print
set-attr #1 a {a, "b c" = i32}
print
set-attr #1 a [unit, index, 1]
print
set-attr #1 a [unit, index, 1 : i64]
print
set-attr #1 a {"b c" = index, a}
print
set-attr #1 a {a, "b c" = index}
print
set-attr #1 a [unit, () -> (), 1]
print
set-attr #1 a [unit, () -> (), 1 : i64]
print
set-attr #1 a {"b c" = () -> (), a}
print
set-attr #1 a {a, "b c" = () -> ()}
print
set-attr #1 a memref<?x4xi32>
print
set-attr #1 a [unit, memref<?x4xi32>, 1]
print
set-attr #1 a [unit, memref<?x4xi32>, 1 : i64]
print
set-attr #1 a {"b c" = memref<?x4xi32>, a}
print
set-attr #1 a {a, "b c" = memref<?x4xi32>}
print
set-attr #1 a [1, [unit]]
print
set-attr #1 a [1 : i64, [unit]]
print
set-attr #1 a [unit, [1, [unit]], 1]
print
set-attr #1 a [unit, [1 : i64, [unit]], 1 : i64]
print
set-attr #1 a {"b c" = [1, [unit]], a}
print
set-attr #1 a {a, "b c" = [1 : i64, [unit]]}
print
set-attr #1 a {a, b = 1}
print
set-attr #1 a {a, b = 1 : i64}
print
set-attr #1 a [unit, {a, b = 1}, 1]
print
set-attr #1 a [unit, {a, b = 1 : i64}, 1 : i64]
print
set-attr #1 a {"b c" = {a, b = 1}, a}
print
set-attr #1 a {a, "b c" = {a, b = 1 : i64}}
print
set-attr #1 a [unit, @a, 1]
print
set-attr #1 a [unit, @a, 1 : i64]
print
set-attr #1 a {"b c" = @a, a}
print
set-attr #1 a {a, "b c" = @a}
print
set-attr #1 a @a::@"b c"
print
set-attr #1 a [unit, @a::@"b c", 1]
print
set-attr #1 a [unit, @a::@"b c", 1 : i64]
print
set-attr #1 a {"b c" = @a::@"b c", a}
print
set-attr #1 a {a, "b c" = @a::@"b c"}
print
set-attr #1 a [unit, array<i8>, 1]
print
set-attr #1 a [unit, array<i8>, 1 : i64]
print
set-attr #1 a {"b c" = array<i8>, a}
print
set-attr #1 a {a, "b c" = array<i8>}
print
set-attr #1 a array<i1: true, 0>
print
set-attr #1 a array<i1: true, false>
print
set-attr #1 a [unit, array<i1: true, 0>, 1]
print
set-attr #1 a [unit, array<i1: true, false>, 1 : i64]
print
set-attr #1 a {"b c" = array<i1: true, 0>, a}
print
set-attr #1 a {a, "b c" = array<i1: true, false>}
print
set-attr #1 a #arith.overflow<nsw, nuw>
print
set-attr #1 a [unit, #arith.overflow<nsw, nuw>, 1]
print
set-attr #1 a [unit, #arith.overflow<nsw, nuw>, 1 : i64]
print
set-attr #1 a {"b c" = #arith.overflow<nsw, nuw>, a}
print
set-attr #1 a {a, "b c" = #arith.overflow<nsw, nuw>}
print
set-attr #1 a []
print
set-attr #1 a [unit, [], 1]
print
set-attr #1 a [unit, [], 1 : i64]
print
set-attr #1 a {"b c" = [], a}
print
set-attr #1 a {a, "b c" = []}
print
set-attr #1 a [ unit ]
print
set-attr #1 a [unit]
print
set-attr #1 a [unit, [ unit ], 1]
print
set-attr #1 a [unit, [unit], 1 : i64]
print
set-attr #1 a {"b c" = [ unit ], a}
print
set-attr #1 a {a, "b c" = [unit]}
print
set-attr #1 a [1 : i8, "a", i32, [true], {a}, @b, array<i8>, #arith.overflow<nsw>]
print
set-attr #1 a [unit, [1 : i8, "a", i32, [true], {a}, @b, array<i8>, #arith.overflow<nsw>], 1]
print
set-attr #1 a [unit, [1 : i8, "a", i32, [true], {a}, @b, array<i8>, #arith.overflow<nsw>], 1 : i64]
print
set-attr #1 a {"b c" = [1 : i8, "a", i32, [true], {a}, @b, array<i8>, #arith.overflow<nsw>], a}
print
set-attr #1 a {a, "b c" = [1 : i8, "a", i32, [true], {a}, @b, array<i8>, #arith.overflow<nsw>]}
print
set-attr #1 a [[], [[]], {}]
print
set-attr #1 a [unit, [[], [[]], {}], 1]
print
set-attr #1 a [unit, [[], [[]], {}], 1 : i64]
print
set-attr #1 a {"b c" = [[], [[]], {}], a}
print
set-attr #1 a {a, "b c" = [[], [[]], {}]}
print
set-attr #1 a [unit, {}, 1]
print
set-attr #1 a [unit, {}, 1 : i64]
print
set-attr #1 a {"b c" = {}, a}
print
set-attr #1 a {a, "b c" = {}}
print
set-attr #1 a {a = {a}, b = {a}}
print
set-attr #1 a [unit, {a = {a}, b = {a}}, 1]
print
set-attr #1 a [unit, {a = {a}, b = {a}}, 1 : i64]
print
set-attr #1 a {"b c" = {a = {a}, b = {a}}, a}
print
set-attr #1 a {a, "b c" = {a = {a}, b = {a}}}
print
set-attr #1 a {a = {b = {c}}, "x y" = [unit], d}
print
set-attr #1 a {a = {b = {c}}, d, "x y" = [unit]}
print
set-attr #1 a [unit, {a = {b = {c}}, "x y" = [unit], d}, 1]
print
set-attr #1 a [unit, {a = {b = {c}}, d, "x y" = [unit]}, 1 : i64]
print
set-attr #1 a {"b c" = {a = {b = {c}}, "x y" = [unit], d}, a}
print
set-attr #1 a {a, "b c" = {a = {b = {c}}, d, "x y" = [unit]}}
print
set-attr #1 a @a::@b :: @c
print
set-attr #1 a @a::@b::@c
print
set-attr #1 a [unit, @a::@b :: @c, 1]
print
set-attr #1 a [unit, @a::@b::@c, 1 : i64]
print
set-attr #1 a {"b c" = @a::@b :: @c, a}
print
set-attr #1 a {a, "b c" = @a::@b::@c}
print
set-attr #1 a @"a b"::@""
print
set-attr #1 a [unit, @"a b"::@"", 1]
print
set-attr #1 a [unit, @"a b"::@"", 1 : i64]
print
set-attr #1 a {"b c" = @"a b"::@"", a}
print
set-attr #1 a {a, "b c" = @"a b"::@""}
print
set-attr #1 a {true, false = unit, i32}
print
set-attr #1 a {false, i32, true}
print
set-attr #1 a [unit, {true, false = unit, i32}, 1]
print
set-attr #1 a [unit, {false, i32, true}, 1 : i64]
print
set-attr #1 a {"b c" = {true, false = unit, i32}, a}
print
set-attr #1 a {a, "b c" = {false, i32, true}}
print
set-attr #1 a [unit, array<i1>, 1]
print
set-attr #1 a [unit, array<i1>, 1 : i64]
print
set-attr #1 a {"b c" = array<i1>, a}
print
set-attr #1 a {a, "b c" = array<i1>}
print
set-attr #1 a array<i1: true, false, 0, 1, -1>
print
set-attr #1 a array<i1: true, false, false, true, true>
print
set-attr #1 a [unit, array<i1: true, false, 0, 1, -1>, 1]
print
set-attr #1 a [unit, array<i1: true, false, false, true, true>, 1 : i64]
print
set-attr #1 a {"b c" = array<i1: true, false, 0, 1, -1>, a}
print
set-attr #1 a {a, "b c" = array<i1: true, false, false, true, true>}
print
set-attr #1 a array < i8 : -128, 255 >
print
set-attr #1 a array<i8: -128, -1>
print
set-attr #1 a [unit, array < i8 : -128, 255 >, 1]
print
set-attr #1 a [unit, array<i8: -128, -1>, 1 : i64]
print
set-attr #1 a {"b c" = array < i8 : -128, 255 >, a}
print
set-attr #1 a {a, "b c" = array<i8: -128, -1>}
print
set-attr #1 a array<i16: -32768, 65535>
print
set-attr #1 a array<i16: -32768, -1>
print
set-attr #1 a [unit, array<i16: -32768, 65535>, 1]
print
set-attr #1 a [unit, array<i16: -32768, -1>, 1 : i64]
print
set-attr #1 a {"b c" = array<i16: -32768, 65535>, a}
print
set-attr #1 a {a, "b c" = array<i16: -32768, -1>}
print
set-attr #1 a array<i32: -2147483648, 4294967295, 0x10>
print
set-attr #1 a array<i32: -2147483648, -1, 16>
print
set-attr #1 a [unit, array<i32: -2147483648, 4294967295, 0x10>, 1]
print
set-attr #1 a [unit, array<i32: -2147483648, -1, 16>, 1 : i64]
print
set-attr #1 a {"b c" = array<i32: -2147483648, 4294967295, 0x10>, a}
print
set-attr #1 a {a, "b c" = array<i32: -2147483648, -1, 16>}
print
set-attr #1 a array<i64: -9223372036854775808, 18446744073709551615>
print
set-attr #1 a array<i64: -9223372036854775808, -1>
print
set-attr #1 a [unit, array<i64: -9223372036854775808, 18446744073709551615>, 1]
print
set-attr #1 a [unit, array<i64: -9223372036854775808, -1>, 1 : i64]
print
set-attr #1 a {"b c" = array<i64: -9223372036854775808, 18446744073709551615>, a}
print
set-attr #1 a {a, "b c" = array<i64: -9223372036854775808, -1>}
print
set-attr #1 a [unit, #arith.overflow<none>, 1]
print
set-attr #1 a [unit, #arith.overflow<none>, 1 : i64]
print
set-attr #1 a {"b c" = #arith.overflow<none>, a}
print
set-attr #1 a {a, "b c" = #arith.overflow<none>}
print
set-attr #1 a #arith.overflow<nsw>
print
set-attr #1 a [unit, #arith.overflow<nsw>, 1]
print
set-attr #1 a [unit, #arith.overflow<nsw>, 1 : i64]
print
set-attr #1 a {"b c" = #arith.overflow<nsw>, a}
print
set-attr #1 a {a, "b c" = #arith.overflow<nsw>}
print
set-attr #1 a #arith.overflow<nuw>
print
set-attr #1 a [unit, #arith.overflow<nuw>, 1]
print
set-attr #1 a [unit, #arith.overflow<nuw>, 1 : i64]
print
set-attr #1 a {"b c" = #arith.overflow<nuw>, a}
print
set-attr #1 a {a, "b c" = #arith.overflow<nuw>}
print
set-attr #1 a #arith.overflow<nuw, nsw>
print
set-attr #1 a [unit, #arith.overflow<nuw, nsw>, 1]
print
set-attr #1 a {"b c" = #arith.overflow<nuw, nsw>, a}
print
set-attr #1 a #arith.overflow<nsw, nsw>
print
set-attr #1 a [unit, #arith.overflow<nsw, nsw>, 1]
print
set-attr #1 a {"b c" = #arith.overflow<nsw, nsw>, a}
print
set-attr #1 a [unit, #arith.overflow<>, 1]
set-attr #1 a {"b c" = #arith.overflow<>, a}
set-attr #1 a #arith.overflow<none, nsw>
set-attr #1 a [unit, #arith.overflow<none, nsw>, 1]
set-attr #1 a {"b c" = #arith.overflow<none, nsw>, a}
set-attr #1 a #arith.overflow<nsw, none>
set-attr #1 a [unit, #arith.overflow<nsw, none>, 1]
set-attr #1 a {"b c" = #arith.overflow<nsw, none>, a}
set-attr #1 a #arith.overflow<fast>
set-attr #1 a [unit, #arith.overflow<fast>, 1]
set-attr #1 a {"b c" = #arith.overflow<fast>, a}
set-attr #1 a #arith.overflow<nsw nuw>
set-attr #1 a [unit, #arith.overflow<nsw nuw>, 1]
set-attr #1 a {"b c" = #arith.overflow<nsw nuw>, a}
set-attr #1 a #arith.overflow<nsw,>
set-attr #1 a [unit, #arith.overflow<nsw,>, 1]
set-attr #1 a {"b c" = #arith.overflow<nsw,>, a}
set-attr #1 a #arith.overflow
set-attr #1 a [unit, #arith.overflow, 1]
set-attr #1 a {"b c" = #arith.overflow, a}
set-attr #1 a #arith.overflow<nsw
set-attr #1 a [unit, #arith.overflow<nsw, 1]
set-attr #1 a {"b c" = #arith.overflow<nsw, a}
set-attr #1 a #arith.fastmath<none>
set-attr #1 a [unit, #arith.fastmath<none>, 1]
set-attr #1 a {"b c" = #arith.fastmath<none>, a}
set-attr #1 a [1, 2
set-attr #1 a [unit, [1, 2, 1]
set-attr #1 a {"b c" = [1, 2, a}
set-attr #1 a [1 2]
set-attr #1 a [unit, [1 2], 1]
set-attr #1 a {"b c" = [1 2], a}
set-attr #1 a [1,, 2]
set-attr #1 a [unit, [1,, 2], 1]
set-attr #1 a {"b c" = [1,, 2], a}
set-attr #1 a {a b}
set-attr #1 a [unit, {a b}, 1]
set-attr #1 a {"b c" = {a b}, a}
set-attr #1 a {a = 1 b}
set-attr #1 a [unit, {a = 1 b}, 1]
set-attr #1 a {"b c" = {a = 1 b}, a}
set-attr #1 a {1}
set-attr #1 a [unit, {1}, 1]
set-attr #1 a {"b c" = {1}, a}
set-attr #1 a {a = 1,}
set-attr #1 a [unit, {a = 1,}, 1]
set-attr #1 a {"b c" = {a = 1,}, a}
set-attr #1 a dense<1> : i8
set-attr #1 a [unit, dense<1> : i8, 1]
set-attr #1 a {"b c" = dense<1> : i8, a}
set-attr #1 a opaque<1>
set-attr #1 a [unit, opaque<1>, 1]
set-attr #1 a {"b c" = opaque<1>, a}
set-attr #1 a affine_map<(d0) -> (d0)>
set-attr #1 a [unit, affine_map<(d0) -> (d0)>, 1]
set-attr #1 a {"b c" = affine_map<(d0) -> (d0)>, a}
set-attr #1 a dense_resource<a>
set-attr #1 a [unit, dense_resource<a>, 1]
set-attr #1 a {"b c" = dense_resource<a>, a}
set-attr #1 a loc(unknown)
set-attr #1 a [unit, loc(unknown), 1]
set-attr #1 a {"b c" = loc(unknown), a}
set-attr #1 a strided<[1]>
set-attr #1 a [unit, strided<[1]>, 1]
set-attr #1 a {"b c" = strided<[1]>, a}
set-attr #1 a array<i8
set-attr #1 a [unit, array<i8, 1]
set-attr #1 a {"b c" = array<i8, a}
set-attr #1 a array<i8:
set-attr #1 a [unit, array<i8:, 1]
set-attr #1 a {"b c" = array<i8:, a}
set-attr #1 a array<i8:1
set-attr #1 a [unit, array<i8:1, 1]
set-attr #1 a {"b c" = array<i8:1, a}
set-attr #1 a array<i8:1,2>
print
set-attr #1 a array<i8: 1, 2>
print
set-attr #1 a [unit, array<i8:1,2>, 1]
print
set-attr #1 a [unit, array<i8: 1, 2>, 1 : i64]
print
set-attr #1 a {"b c" = array<i8:1,2>, a}
print
set-attr #1 a {a, "b c" = array<i8: 1, 2>}
print
set-attr #1 a array<i8: 1 2>
set-attr #1 a [unit, array<i8: 1 2>, 1]
set-attr #1 a {"b c" = array<i8: 1 2>, a}
set-attr #1 a array<memref<i8>>
set-attr #1 a [unit, array<memref<i8>>, 1]
set-attr #1 a {"b c" = array<memref<i8>>, a}
set-attr #1 a array<[i8]>
set-attr #1 a [unit, array<[i8]>, 1]
set-attr #1 a {"b c" = array<[i8]>, a}
set-attr #1 a array<"i8">
set-attr #1 a [unit, array<"i8">, 1]
set-attr #1 a {"b c" = array<"i8">, a}
set-attr #1 a array<-1>
set-attr #1 a [unit, array<-1>, 1]
set-attr #1 a {"b c" = array<-1>, a}
set-attr #1 a [unit, array<1.5>, 1]
set-attr #1 a {"b c" = array<1.5>, a}
set-attr #1 a array<1>
set-attr #1 a [unit, array<1>, 1]
set-attr #1 a {"b c" = array<1>, a}
set-attr #1 a [unit, array<true>, 1]
set-attr #1 a {"b c" = array<true>, a}
set-attr #1 a array<i1: yes>
set-attr #1 a [unit, array<i1: yes>, 1]
set-attr #1 a {"b c" = array<i1: yes>, a}
set-attr #1 a [unit, array<i1: 2>, 1]
set-attr #1 a {"b c" = array<i1: 2>, a}
set-attr #1 a array<i1: -2>
set-attr #1 a [unit, array<i1: -2>, 1]
set-attr #1 a {"b c" = array<i1: -2>, a}
set-attr #1 a array<i8: - 1>
print
set-attr #1 a array<i8: -1>
print
set-attr #1 a [unit, array<i8: - 1>, 1]
print
set-attr #1 a [unit, array<i8: -1>, 1 : i64]
print
set-attr #1 a {"b c" = array<i8: - 1>, a}
print
set-attr #1 a {a, "b c" = array<i8: -1>}
print
set-attr #1 a array<i8: --1>
set-attr #1 a [unit, array<i8: --1>, 1]
set-attr #1 a {"b c" = array<i8: --1>, a}
set-attr #1 a array<i8 :>
set-attr #1 a [unit, array<i8 :>, 1]
set-attr #1 a {"b c" = array<i8 :>, a}
set-attr #1 a array<i1: true : i1>
set-attr #1 a [unit, array<i1: true : i1>, 1]
set-attr #1 a {"b c" = array<i1: true : i1>, a}
set-attr #1 a array<i64: true>
set-attr #1 a [unit, array<i64: true>, 1]
set-attr #1 a {"b c" = array<i64: true>, a}
set-attr #1 a array<i8: $>
set-attr #1 a [unit, array<i8: $>, 1]
set-attr #1 a {"b c" = array<i8: $>, a}
set-attr #1 a [unit, array<$>, 1]
set-attr #1 a {"b c" = array<$>, a}
set-attr #1 a [unit, %a, 1]
set-attr #1 a {"b c" = %a, a}
set-attr #1 a ^a
set-attr #1 a [unit, ^a, 1]
set-attr #1 a {"b c" = ^a, a}
set-attr #1 a [unit, ä, 1]
set-attr #1 a {"b c" = ä, a}
set-attr #1 a @a::b
set-attr #1 a [unit, @a::b, 1]
set-attr #1 a {"b c" = @a::b, a}
set-attr #1 a [unit, @a::, 1]
set-attr #1 a {"b c" = @a::, a}
set-attr #1 a @a::1
set-attr #1 a [unit, @a::1, 1]
set-attr #1 a {"b c" = @a::1, a}
set-attr #1 a @a::@
set-attr #1 a [unit, @a::@, 1]
set-attr #1 a {"b c" = @a::@, a}
set-attr #1 a [$]
set-attr #1 a [unit, [$], 1]
set-attr #1 a {"b c" = [$], a}
set-attr #1 a {$}
set-attr #1 a [unit, {$}, 1]
set-attr #1 a {"b c" = {$}, a}
set-attr #1 a {a = $}
set-attr #1 a [unit, {a = $}, 1]
set-attr #1 a {"b c" = {a = $}, a}
set-attr #1 a {"\q"}
set-attr #1 a [unit, {"\q"}, 1]
set-attr #1 a {"b c" = {"\q"}, a}
set-attr #1 a array<i1: 0, -2, -2>
set-attr #1 a array<i1: 0, -1, -1>
print
set-attr #1 a array<i1: false, true, true>
print
set-attr #1 a array<i1: 0, 0, 0>
print
set-attr #1 a array<i1: false, false, false>
print
set-attr #1 a array<i1: 0, 1, 1>
print
set-attr #1 a array<i1: 0, 2, 2>
set-attr #1 a array<i1: 0, 18446744073709551616, 18446744073709551616>
set-attr #1 a array<i1: 0, 170141183460469231731687303715884105728, 170141183460469231731687303715884105728>
set-attr #1 a array<i1: 0, 340282366920938463463374607431768211455, 340282366920938463463374607431768211455>
set-attr #1 a array<i1: 0, 340282366920938463463374607431768211456, 340282366920938463463374607431768211456>
set-attr #1 a array<i1: 0, -340282366920938463463374607431768211456, -340282366920938463463374607431768211456>
set-attr #1 a array<i8: 0, -129, -129>
set-attr #1 a array<i8: 0, -128, -128>
print
set-attr #1 a array<i8: 0, -1, -1>
print
set-attr #1 a array<i8: 0, 0, 0>
print
set-attr #1 a array<i8: 0, 1, 1>
print
set-attr #1 a array<i8: 0, 127, 127>
print
set-attr #1 a array<i8: 0, 128, 128>
print
set-attr #1 a array<i8: 0, 255, 255>
print
set-attr #1 a array<i8: 0, 256, 256>
set-attr #1 a array<i8: 0, 18446744073709551616, 18446744073709551616>
set-attr #1 a array<i8: 0, 170141183460469231731687303715884105728, 170141183460469231731687303715884105728>
set-attr #1 a array<i8: 0, 340282366920938463463374607431768211455, 340282366920938463463374607431768211455>
set-attr #1 a array<i8: 0, 340282366920938463463374607431768211456, 340282366920938463463374607431768211456>
set-attr #1 a array<i8: 0, -340282366920938463463374607431768211456, -340282366920938463463374607431768211456>
set-attr #1 a array<i16: 0, -32769, -32769>
set-attr #1 a array<i16: 0, -32768, -32768>
print
set-attr #1 a array<i16: 0, -1, -1>
print
set-attr #1 a array<i16: 0, 0, 0>
print
set-attr #1 a array<i16: 0, 1, 1>
print
set-attr #1 a array<i16: 0, 32767, 32767>
print
set-attr #1 a array<i16: 0, 32768, 32768>
print
set-attr #1 a array<i16: 0, 65535, 65535>
print
set-attr #1 a array<i16: 0, 65536, 65536>
set-attr #1 a array<i16: 0, 18446744073709551616, 18446744073709551616>
set-attr #1 a array<i16: 0, 170141183460469231731687303715884105728, 170141183460469231731687303715884105728>
set-attr #1 a array<i16: 0, 340282366920938463463374607431768211455, 340282366920938463463374607431768211455>
set-attr #1 a array<i16: 0, 340282366920938463463374607431768211456, 340282366920938463463374607431768211456>
set-attr #1 a array<i16: 0, -340282366920938463463374607431768211456, -340282366920938463463374607431768211456>
set-attr #1 a array<i32: 0, -2147483649, -2147483649>
set-attr #1 a array<i32: 0, -2147483648, -2147483648>
print
set-attr #1 a array<i32: 0, -1, -1>
print
set-attr #1 a array<i32: 0, 0, 0>
print
set-attr #1 a array<i32: 0, 1, 1>
print
set-attr #1 a array<i32: 0, 2147483647, 2147483647>
print
set-attr #1 a array<i32: 0, 2147483648, 2147483648>
print
set-attr #1 a array<i32: 0, 4294967295, 4294967295>
print
set-attr #1 a array<i32: 0, 4294967296, 4294967296>
set-attr #1 a array<i32: 0, 18446744073709551616, 18446744073709551616>
set-attr #1 a array<i32: 0, 170141183460469231731687303715884105728, 170141183460469231731687303715884105728>
set-attr #1 a array<i32: 0, 340282366920938463463374607431768211455, 340282366920938463463374607431768211455>
set-attr #1 a array<i32: 0, 340282366920938463463374607431768211456, 340282366920938463463374607431768211456>
set-attr #1 a array<i32: 0, -340282366920938463463374607431768211456, -340282366920938463463374607431768211456>
set-attr #1 a array<i64: 0, -9223372036854775809, -9223372036854775809>
set-attr #1 a array<i64: 0, -9223372036854775808, -9223372036854775808>
print
set-attr #1 a array<i64: 0, -1, -1>
print
set-attr #1 a array<i64: 0, 0, 0>
print
set-attr #1 a array<i64: 0, 1, 1>
print
set-attr #1 a array<i64: 0, 9223372036854775807, 9223372036854775807>
print
set-attr #1 a array<i64: 0, 9223372036854775808, 9223372036854775808>
print
set-attr #1 a array<i64: 0, 18446744073709551615, 18446744073709551615>
print
set-attr #1 a array<i64: 0, 18446744073709551616, 18446744073709551616>
set-attr #1 a array<i64: 0, 170141183460469231731687303715884105728, 170141183460469231731687303715884105728>
set-attr #1 a array<i64: 0, 340282366920938463463374607431768211455, 340282366920938463463374607431768211455>
set-attr #1 a array<i64: 0, 340282366920938463463374607431768211456, 340282366920938463463374607431768211456>
set-attr #1 a array<i64: 0, -340282366920938463463374607431768211456, -340282366920938463463374607431768211456>
set-attr #1 a "a\n", x
set-attr #1 a unit}
set-attr #1 a @a : x
set-attr #1 a {b, a, "a b", B}
print
set-attr #1 a {B, a, "a b", b}
print
set-attr #1 a {b, a, B, "a b"}
print
set-attr #1 a {b, "a b", a, B}
print
set-attr #1 a {b, "a b", B, a}
print
set-attr #1 a {b, B, a, "a b"}
print
set-attr #1 a {b, B, "a b", a}
print
set-attr #1 a {a, b, "a b", B}
print
set-attr #1 a {a, b, B, "a b"}
print
set-attr #1 a {a, "a b", b, B}
print
set-attr #1 a {a, "a b", B, b}
print
set-attr #1 a {a, B, b, "a b"}
print
set-attr #1 a {a, B, "a b", b}
print
set-attr #1 a {"a b", b, a, B}
print
set-attr #1 a {"a b", b, B, a}
print
set-attr #1 a {"a b", a, b, B}
print
set-attr #1 a {"a b", a, B, b}
print
set-attr #1 a {"a b", B, b, a}
print
set-attr #1 a {"a b", B, a, b}
print
set-attr #1 a {B, b, a, "a b"}
print
set-attr #1 a {B, b, "a b", a}
print
set-attr #1 a {B, a, b, "a b"}
print
set-attr #1 a {B, "a b", b, a}
print
set-attr #1 a {B, "a b", a, b}
print
set-attr #1 a {b, a, "a b", B, _, "", ab, "a\00"}
print
set-attr #1 a {"", B, _, a, "a\00", "a b", ab, b}
print
