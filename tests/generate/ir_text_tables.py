"""Texts that are refused, written by hand from the rules: a name, a sentence, what the text is, the number of the
refusal, and texts with the byte at which each is refused."""

A, M, O = "attr", "module", "op"

REFUSED = [
    ("bytes-of-no-token", "A byte that begins no token is refused there.", A, 1, [
        (b'/', 0), (b' /x', 1), (b' / /', 1), (b'$', 0), (b'\n.5', 1), (b'// a\n&', 5), (b'\xc3\xa4', 0), (b'\x0b', 0),
        (b'\x00', 0),
        (b'+1', 0), (b'\\', 0),
    ]),
    ("signs-without-names", "A sign of a value, label, alias or symbol without a name is refused.", A, 1, [
        (b'%', 0), (b' % a', 1), (b'^:', 0), (b'#', 0), (b'! ', 0), (b'@', 0), (b'  @ a', 2), (b'@%', 0),
    ]),
    ("open-strings", "A string that isn't closed is refused at its quote.", A, 1, [
        (b'"', 0), (b' "abc', 1), (b' "a\nb"', 1), (b'"a\x0bb"', 0), (b'"a\x0cb"', 0), (b'"a\rb"', 0), (b'@"abc', 1),
    ]),
    ("bad-escapes", "An escape that there is none of is refused at its backslash.", A, 1, [
        (b'"ab\\qc"', 3), (b'"ab\\q', 3), (b' "a\\4"', 3), (b'@"a\\', 3),
    ]),
    ("line-feeds-in-strings", "A line feed ends an open string, before or after an escape.", A, 1, [
        (b'"a\n\\q"', 0), (b'"a\\\n"', 2), (b'"a\\0\n"', 2), (b'"\\n\\0g"', 3),
    ]),
    ("dimensions-too-large", "A dimension of 2^63 or more is refused at its digits.", A, 7, [
        (b'memref<2x 9223372036854775808xi32>', 10), (b'memref<2x 9223372036854775808 $', 10),
        (b'memref<2x 340282366920938463463374607431768211456xi32>', 10), (b'memref<2x 18446744073709551616xi32>', 10),
    ]),
    ("dimensions-without-x", "An `x` has to follow each dimension.", A, 1, [
        (b'memref<4 .5xi32>', 9), (b'memref<? $', 9),
    ]),
    ("dimensions-without-x", "An `x` has to follow each dimension.", A, 2, [
        (b'memref<4 >', 9), (b'memref<4 i32>', 9), (b'memref<4 *xi32>', 9), (b'memref<? 4xi32>', 9), (b'memref<4 ', 9),
    ]),
    ("other-memrefs", "Memrefs of other shapes, layouts and elements aren't supported.", A, 13, [
        (b'memref<*xi32>', 7), (b'memref<4xi32 , #a>', 13), (b'memref<4x *xi32>', 10), (b'memref<4x f32>', 10),
        (b'memref<4x xi32>', 10),
        (b'memref<4x memref<i32>>', 10), (b'memref<4x () -> ()>', 10), (b'memref<4x !a.b>', 10),
        (b'memref<4x #a.b>', 10),
    ]),
    ("widths-of-elements", "An element of a memref has a width from 1 to 128.", A, 6, [
        (b'memref<i129>', 7), (b'memref<4xui0>', 9),
    ]),
    ("texts-in-memrefs", "A text that fits in no memref is refused at its byte.", A, 2, [
        (b'memref', 6), (b'memref(i32)', 6), (b'memref 4xi32', 7), (b'memref<>', 7), (b'memref<4x>', 9),
        (b'memref<-1xi32>', 7),
        (b'memref<4xi32)', 12), (b'memref<4xi32', 12),
    ]),
    ("texts-in-memrefs", "A text that fits in no memref is refused at its byte.", A, 13, [
        (b'memref<4xi32$', 9),
    ]),
    ("texts-in-memrefs", "A text that fits in no memref is refused at its byte.", A, 1, [
        (b'memref<4xi32 $', 13),
    ]),
    ("words-like-memref", "A word that only begins like `memref` isn't supported.", A, 13, [
        (b'memrefs<i32>', 0), (b'memref.x<i32>', 0), (b'tensor<4xi32>', 0),
    ]),
    ("memrefs-in-function-types", "A memref of floats in a function type is refused at its element.", A, 13, [
        (b'(i1, memref<4xf32>) -> ()', 14),
    ]),
    ("overflow-without-a-flag", "`#arith.overflow` needs a flag between its brackets.", A, 2, [
        (b'#arith.overflow<>', 16),
    ]),
    ("literals-out-of-range", "A literal that its type doesn't hold is refused at its sign.", A, 7, [
        (b'  256 : i8', 2), (b' -129 : i8', 1),
    ]),
    ("literals-too-large", "A literal without a type has at most 64 bits, and any literal at most 128.", A, 7, [
        (b'18446744073709551616', 0), (b'0x100000000000000000000000000000000', 0),
    ]),
    ("widths-of-literals", "A wrong width is refused at the type.", A, 6, [
        (b'1 : i129', 4), (b'i01', 0),
    ]),
    ("literals-of-other-types", "A literal needs an integer type.", A, 5, [
        (b'1 : () -> ()', 4),
    ]),
    ("minus-without-an-integer", "A minus needs an integer after it.", A, 13, [
        (b'- 1.5', 2),
    ]),
    ("minus-without-an-integer", "A minus needs an integer after it.", A, 2, [
        (b'-true', 1),
    ]),
    ("names-of-other-dialects", "Types and attributes of other dialects aren't supported.", A, 13, [
        (b'!a.b', 0), (b'#a.b', 0), (b'1.5', 0), (b'f32', 0),
    ]),
    ("no-attribute-at-all", "A text that begins no attribute is refused there.", A, 2, [
        (b' )', 1), (b'', 0),
    ]),
    ("open-arrays", "An array needs items, commas between them, and a bracket at its end.", A, 2, [
        (b'[', 1), (b'[1', 2), (b'[1 }', 3), (b'[1,]', 3), (b'[,]', 1),
    ]),
    ("arrays-of-other-attributes", "An array has no items that aren't supported.", A, 13, [
        (b'[1, !a.b]', 4), (b'[1, #a.b]', 4),
    ]),
    ("keys-that-come-twice", "A key that comes twice is refused at its second place.", A, 12, [
        (b'{a, b, a}', 7), (b'{a = 1, "a"}', 8), (b'{a, a = $}', 4),
    ]),
    ("open-dictionaries", "A dictionary needs keys, commas between them, and a bracket at its end.", A, 2, [
        (b'{', 1), (b'{a', 2), (b'{a =}', 4), (b'{a ]', 3), (b'{a,}', 3), (b'{@a}', 1),
    ]),
    ("symbols-of-symbols", "A nested reference goes on with symbols alone.", A, 2, [
        (b'@a:: b', 5), (b'@a::', 4),
    ]),
    ("items-out-of-range", "An item of a dense array has to fit its type.", A, 7, [
        (b'array<i8: 256>', 10), (b'array<i8: 1, -129>', 13), (b'array<i1: 2>', 10),
        (b'array<i64: 18446744073709551616>', 11),
        (b'array<i64: - 9223372036854775809>', 11), (b'array<i64: 0x100000000000000000000000000000000>', 11),
    ]),
    ("items-that-are-no-integers", "An item of a dense array is an integer without a type.", A, 2, [
        (b'array<i8: 1.5>', 10), (b'array<i8: -1.5>', 11), (b'array<i8: true>', 10), (b'array<i8: 1 : i8>', 12),
        (b'array<i8: >', 10),
        (b'array<i8: 1,>', 12), (b'array<i8 1>', 9), (b'array', 5), (b'array [', 6), (b'array<>', 6),
    ]),
    ("other-types-of-items", "The items of a dense array have one of a few types.", A, 13, [
        (b'array<i5>', 6), (b'array<si8>', 6), (b'array<index>', 6), (b'array<f32>', 6), (b'array<() -> ()>', 6),
        (b'array<!a.b>', 6),
        (b'array<i>', 6),
    ]),
    ("other-types-of-items", "The items of a dense array have one of a few types.", A, 6, [
        (b'array<i129>', 6), (b'array<i0>', 6), (b'array<ui01>', 6), (b'array<i08>', 6),
    ]),
    ("text-after-an-attribute", "A token after the attribute is refused.", A, 2, [
        (b'1 2', 2), (b'unit,', 4), (b'[1] ]', 4), (b'"a" : i32', 4), (b'true : i1', 5), (b'1 : i32 loc("x")', 8),
        (b'@a @b', 3),
        (b'i32 -> i32', 4), (b'{a} {b}', 4), (b'1 // a\n a', 8), (b'array<i8> x', 10),
    ]),
    ("texts-that-are-no-attributes", "A text that is no attribute is refused at its byte.", A, 2, [
        (b'', 0), (b' // a', 5), (b' )', 1), (b'%a', 0), (b'-true', 1), (b'[1,]', 3), (b'#arith.overflow<>', 16),
        (b'{a = }', 5),
    ]),
    ("tokens-in-attributes", "A byte in an attribute that begins no token is refused there.", A, 1, [
        (b'$', 0), (b'1 $', 2), (b'"a', 0), (b'"\\q"', 1), (b'[1, $]', 4),
    ]),
    ("widths-and-values", "Types of literals, widths and values are refused at their bytes.", A, 5, [
        (b'1 : () -> ()', 4),
    ]),
    ("widths-and-values", "Types of literals, widths and values are refused at their bytes.", A, 6, [
        (b'i0', 0), (b'i129', 0), (b'1 : ui01', 4), (b'[si129]', 1),
    ]),
    ("widths-and-values", "Types of literals, widths and values are refused at their bytes.", A, 7, [
        (b'256 : i8', 0), (b'[-129 : i8]', 1), (b'memref<9223372036854775808xi8>', 7),
    ]),
    ("keys-and-other-attributes", "Keys that come twice, and attributes that aren't supported, are refused.", A, 12, [
        (b'{a, a}', 4), (b'[{b = 1, "b"}]', 9),
    ]),
    ("keys-and-other-attributes", "Keys that come twice, and attributes that aren't supported, are refused.", A, 13, [
        (b'f32', 0), (b'!a.b', 0), (b'#a.b', 0), (b'1.5', 0), (b'[dense<1>]', 1), (b'array<f32>', 6),
        (b'memref<*xi8>', 7),
    ]),
    ("not-utf-8-first", "A byte that isn't UTF-8 is refused before what comes before it.", A, 14, [
        (b'"\xff"', 1), (b'1 \xff', 2), (b'$ \xff', 2), (b'1 // \xc3(', 5),
    ]),
    ("tokens-in-modules", "A byte in a module that begins no token is refused there.", M, 1, [
        (b'"t"() $', 6), (b'"t', 0), (b'"t\\q"() : () -> ()', 2), (b'% = "t"() : () -> ()', 0),
        (b'"t"() {a = /} : () -> ()', 11),
        (b'"t"() {a = @"x} : () -> ()', 12), (b'"t"() : () -> (i32&)', 18),
    ]),
    ("no-operation-at-all", "A text that begins no operation is refused there.", M, 2, [
        (b')', 0), (b'^a:', 0), (b'"t"() : () -> () ^a:', 17), (b'"" () : () -> ()', 0), (b'1', 0), (b'@a', 0),
        (b'%a = #b', 5),
        (b'%a = !b', 5), (b'%a = ^b', 5), (b'%a "t"() : () -> i32', 3), (b'%a, = "t"() : () -> i32', 4), (b'"t" ', 4),
        (b'"t" : () -> ()', 4), (b'"t"(1) : () -> ()', 4),
    ]),
    ("texts-in-operations", "A token that doesn't fit in an operation is refused there.", M, 2, [
        (b'"t"() () : () -> ()', 7), (b'"t"() <a> : () -> ()', 7), (b'"t"() {1} : () -> ()', 7),
        (b'"t"() <{}> [^a] : () -> ()', 11),
        (b'"t"() {} {} : () -> ()', 9), (b'"t"() ({^a x', 11), (b'"t"() ({^a(x: i1):', 11), (b'"t"() ({^a(%x i1):', 14),
        (b'"t"() ({^a(%x: i1 x):', 18), (b'"t"() ({"u"() : () -> ()', 24),
    ]),
    ("no-function-type", "An operation's type has to be a function type.", M, 2, [
        (b'"t"() : f32', 8), (b'"t"() : !t', 8), (b'"t"() : ()', 10), (b'"t"() : () : ()', 11),
        (b'"t"() : (,) -> ()', 9),
        (b'"t"() : (i1 i1) -> ()', 12), (b'"t"() : () -> "x"', 14),
    ]),
    ("no-attributes-in-modules", "A text that is no attribute is refused in an operation.", M, 2, [
        (b'"t"() {a = "x" : i32} : () -> ()', 15), (b'"t"() {a = true : i1} : () -> ()', 16),
        (b'"t"() {a = #arith.overflow<>} : () -> ()', 27), (b'"t"() {a = #arith.overflow<none, nsw>} : () -> ()', 31),
        (b'"t"() {a = -true} : () -> ()', 12), (b'"t"() {a = } : () -> ()', 11), (b'"t"() {a = %b', 11),
        (b'"t"() {a = 1 : 2} : () -> ()', 15),
    ]),
    ("names-not-bound", "A name is refused if no value of its scope has it.", M, 3, [
        (b'"t"(%a) : (i32) -> ()', 4), (b'"t"(%a) : (i32) -> ()\n%a = "t"() : () -> i32\n', 4),
        (b'%a = "t"(%a) : (i32) -> i32', 9),
        (b'"t"() ({%a = "t"() : () -> i32\n}) : () -> () "u"(%a) : (i32) -> ()', 49),
        (b'"t"() ({^a(%a: i32):}, {"u"(%a) : (i32) -> ()}) : () -> ()', 28),
        (b'%a = "t"() ({"u"(%a) : (i32) -> ()}) : () -> i32', 17),
        (b'%a = "t"() : () -> i32\n"func.func"() ({"u"(%a) : (i32) -> ()}) : () -> ()', 43),
        (b'%a = "t"() : () -> i32\n"u"(%a, %b) : (i32) -> ()', 31),
    ]),
    ("names-bound-already", "A name is refused if a value of its scope has it already.", M, 4, [
        (b'%a = "t"() : () -> i32\n%a = "t"() : () -> i32', 23),
        (b'%a = "t"() : () -> i32\n%b, %a = "t"() : () -> (i32, i32)', 27),
        (b'%a, %a = "t"() : () -> (i32, i32)', 4),
        (b'%a = "t"() : () -> i32\n"u"() ({%a = "t"() : () -> i32}) : () -> ()', 31),
        (b'%a = "t"() : () -> i32\n"u"() ({^b(%a: i32):}) : () -> ()', 34),
        (b'"u"() ({^b(%a: i32, %a: i32):}) : () -> ()', 20),
        (b'"u"() ({^b(%a: i32, %a: f32):}) : () -> ()', 20), (b'"u"() ({^b(%a: i32, %a i32):}) : () -> ()', 20),
    ]),
    ("types-that-differ", "The types of operands and results have to be those of the values.", M, 5, [
        (b'%a = "t"() : () -> i32\n"u"(%a) : (i64) -> ()', 31), (b'%a = "t"() : () -> i32\n"u"(%a) : () -> ()', 31),
        (b'"u"() : (i32) -> ()', 6), (b'%a = "t"() : () -> i32\n"u"(%a, %a) : (i32) -> ()', 35),
        (b'%a, %b = "t"() : () -> i32', 15),
        (b'%a = "t"() : () -> ()', 11), (b'%a = "t"() : () -> (i32, i32)', 11),
        (b'%a = "t"() : () -> i32\n%a, %b = "t"() : () -> i32', 38),
        (b'%a = "t"() : () -> i32\n%b, %a = "t"() : () -> (i32, i32, i32)', 38),
        (b'"t"() {a = 1 : () -> ()} : () -> ()', 15),
    ]),
    ("widths-in-modules", "A width has to be from 1 to 128, without zeros in front.", M, 6, [
        (b'"t"() : (i0) -> ()', 9), (b'"t"() : () -> si129', 14), (b'"t"() {a = ui08} : () -> ()', 11),
        (b'"t"() {a = i99999999999999999999999999999999999999999} : () -> ()', 11),
        (b'"t"() {a = 1 : i129} : () -> ()', 15),
        (b'"test.a"() {a = 1 : i129} : () -> ()', 20),
    ]),
    ("values-that-do-not-fit", "A literal has to fit its type.", M, 7, [
        (b'"test.a"() {a = 256 : i8} : () -> ()', 16), (b'"t"() {a = -129 : i8} : () -> ()', 11),
        (b'"t"() {a = -1 : ui8} : () -> ()', 11),
        (b'"t"() {a = 128 : si8} : () -> ()', 11), (b'"t"() {a = 2 : i1} : () -> ()', 11),
        (b'"t"() {a = 9223372036854775808 : index} : () -> ()', 11),
        (b'"t"() {a = -9223372036854775809} : () -> ()', 11),
        (b'"t"() {a = 99999999999999999999 $', 11),
        (b'"t"() {a = 340282366920938463463374607431768211456 : () -> ()} : () -> ()', 11),
    ]),
    ("second-blocks", "A region has one block, and a second is refused at its label.", M, 8, [
        (b'"t"() ({^a: ^b:}) : () -> ()', 12), (b'"t"() ({^a: "u"() : () -> () ^b:}) : () -> ()', 29),
        (b'"t"() ({"u"() : () -> () ^a:}) : () -> ()', 25),
    ]),
    ("successors", "Successors aren't supported.", M, 9, [
        (b'"t"()[^a] : () -> ()', 5), (b'"t"() [] : () -> ()', 6),
        (b'%a = "t"() : () -> i32\n"u"(%a) [^a] : (i32) -> ()', 31),
    ]),
    ("keys-twice-in-operations", "A key comes once among an operation's properties and attributes.", M, 12, [
        (b'"t"() {a, a} : () -> ()', 10), (b'"t"() {a, "a" = 1} : () -> ()', 10), (b'"t"() <{a}> {a} : () -> ()', 13),
        (b'"t"() <{a, b, a}> : () -> ()', 14), (b'"func.func"() <{sym_name = "f"}> {a, sym_name = "f"} : () -> ()', 37),
    ]),
    ("other-operations", "Operations in the pretty form, aliases and locations aren't supported.", M, 13, [
        (b'module {}', 0), (b'%a = arith.constant 1 : i32', 5), (b'#map = 1', 0), (b'!t = i32', 0),
        (b'"t"() : () -> () loc("x")', 17),
        (b'"builtin.module"() ({}) : () -> () loc("x")', 35), (b'"t"() ({^a(%a: i32 loc(unknown)):}) : () -> ()', 19),
        (b'"t"() ({x}) : () -> ()', 8),
    ]),
    ("other-types-in-modules", "A type that isn't supported is refused at its place in a module.", M, 13, [
        (b'"t"() : () -> f32', 14), (b'"t"() : () -> !llvm.ptr', 14), (b'"t"() : (none) -> ()', 9),
        (b'"t"() : (i1, vector<4xi32>) -> ()', 13), (b'"t"() : () -> (memref<4xf32>)', 24), (b'"t"() : () -> #a', 14),
        (b'"t"() {a = 1 : f32} : () -> ()', 15), (b'"t"() : () -> true', 14), (b'"t"() : () -> 1.5', 14),
        (b'"t"() ({^a(%a: f32):}) : () -> ()', 15),
    ]),
    ("other-attributes-in-modules", "An attribute that isn't supported is refused at its place in a module.", M, 13, [
        (b'"t"() {a = 1.5} : () -> ()', 11), (b'"t"() {a = dense<1>} : () -> ()', 11),
        (b'"t"() {a = #a.b} : () -> ()', 11),
        (b'"t"() {a = !a.b} : () -> ()', 11), (b'"t"() {a = f32} : () -> ()', 11),
        (b'"t"() {a = array<f32>} : () -> ()', 17),
        (b'"t"() {a = [f32]} : () -> ()', 12), (b'"t"() {a = {b = f32}} : () -> ()', 16),
        (b'"t"() {a = dense_resource<a>} : () -> ()', 11), (b'"t"() {a = affine_map<(d0) -> (d0)>} : () -> ()', 11),
        (b'"t"() {a = memref<*xi32>} : () -> ()', 18), (b'"t"() {a = -1.5} : () -> ()', 12),
    ]),
    ("not-utf-8-in-modules", "A byte that isn't UTF-8 is refused in names and comments.", M, 14, [
        (b'"t\xff"() : () -> ()', 2), (b'// \xc3(', 3), (b'$ \xff', 2),
    ]),
    ("counts-that-differ", "The counts of names have to add up to the number of results.", M, 5, [
        (b'%a:2 = "t"() : () -> i32', 13), (b'%a:2 = "t"() : () -> (i32, i32, i32)', 13),
        (b'%a:2, %b = "t"() : () -> (i32, i32)', 17),
        (b'%a = "t"() : () -> i32\n%a:2 = "t"() : () -> i32', 36),
        (b'%a:2 = "t"() : () -> (i32, i64)\n"u"(%a#1) : (i32) -> ()', 42),
    ]),
    ("counts-of-nothing", "A name can't have a count of zero results.", M, 7, [
        (b'%a:0 = "t"() : () -> ()', 3), (b'%a: 0x0 = "t"() : () -> ()', 4),
        (b'%a:2, %b:0 = "t"() : () -> (i32, i32)', 9),
    ]),
    ("counts-over-256", "The counts of an operation's names can't exceed 256.", M, 11, [
        (b'%a:257 = "t"() : () -> ()', 3), (b'%a:0x101 = "t"() : () -> ()', 3),
        (b'%a:1000000000000000000000000000000000000000 = "t"() : () -> ()', 3), (b'%a:256, %b = "t"() : () -> ()', 8),
        (b'%a:256, %b:1 = "t"() : () -> ()', 11), (b'%a:200, %b:57 = "t"() : () -> ()', 11),
        (b'%a:255, %b, %c = "t"() : () -> ()', 12),
    ]),
    ("places-over-a-count", "A place has to be below its name's count.", M, 3, [
        (b'%a = "t"() : () -> i32\n"u"(%a#1) : (i32) -> ()', 29),
        (b'%a:2 = "t"() : () -> (i32, i32)\n"u"(%a#2) : (i32) -> ()', 38),
        (b'%a:2 = "t"() : () -> (i32, i32)\n"u"(%a #3) : (i32) -> ()', 39),
        (b'%a = "t"() : () -> i32\n"u"(%a#18446744073709551616) : (i32) -> ()', 29),
        (b'%a = "t"() : () -> i32\n"u"(%a#1000000000000000000000000000000000000000) : (i32) -> ()', 29),
        (b'"t"() ({^a(%b: i32): "u"(%b#1) : (i32) -> ()}) : () -> ()', 27),
    ]),
    ("no-count-and-no-place", "A count or a place has to be a number.", M, 2, [
        (b'%a:b = "t"() : () -> i32', 3), (b'%a: = "t"() : () -> i32', 4), (b'%a::2 = "t"() : () -> i32', 2),
        (b'%a:2 3 = "t"() : () -> i32', 5), (b'%a = "t"() : () -> i32\n"u"(%a#x) : (i32) -> ()', 29),
        (b'%a = "t"() : () -> i32\n"u"(%a#0 #0) : (i32) -> ()', 32),
    ]),
    ("packs-bound-already", "A name with a count is refused if it is there already.", M, 4, [
        (b'%a:2, %a = "t"() : () -> (i1, i1, i1)', 6), (b'%a, %b:2, %a:3 = "t"() : () -> (i1, i1, i1, i1, i1, i1)', 10),
        (b'%a = "t"() : () -> i32\n%b:3, %a:2 = "t"() : () -> (i1, i1, i1, i1, i1)', 29),
        (b'%a:3 = "t"() : () -> (i1, i1, i1)\n%b:2, %c, %a:2 = "t"() : () -> (i1, i1, i1, i1, i1)', 44),
    ]),
    ("counts-before-later-faults", "A fault in a count is refused before a later fault.", M, 7, [
        (b'%a:0 = "t"() $', 3),
    ]),
    ("other-widths", "Integers of other widths are refused at their types.", M, 6, [
        (b'"t"() : () -> i0', 14), (b'"t"() : () -> i129', 14), (b'"t"() : () -> si0', 14),
        (b'"t"() : () -> si129', 14),
        (b'"t"() : () -> ui0', 14), (b'"t"() : () -> ui129', 14), (b'"t"() : () -> i01', 14),
        (b'"t"() : () -> (i128, i0128)', 21), (b'"t"() : () -> (i64, i064)', 20),
    ]),
    ("dimensions-below-2-to-the-63", "A dimension has to be below 2^63.", M, 7, [
        (b'"t"() : () -> memref<9223372036854775808xi32>', 21),
        (b'"t"() : () -> memref<2x18446744073709551616xi1>', 23),
        (b'"t"() {a = memref<?x9223372036854775808xi1>} : () -> ()', 20),
    ]),
    ("names-of-no-value", "A name like `%v1.0` that writes no value is unknown.", O, 3, [
        (b'"t"(%v1) : (i32) -> ()', 4), (b'"t"(%v1.) : (i32) -> ()', 4), (b'"t"(%v.0) : (i32) -> ()', 4),
        (b'"t"(%v1.0.0) : (i32) -> ()', 4), (b'"t"(%a1.0) : (i32) -> ()', 4), (b'"t"(%a1.0.0.0) : (i32) -> ()', 4),
        (b'"t"(%w1.0) : (i32) -> ()', 4), (b'"t"(%vx.0) : (i32) -> ()', 4), (b'"t"(%v4294967296.0) : (i32) -> ()', 4),
        (b'"t"(%v0.4294967296) : (i32) -> ()', 4), (b'"t"(%v0.0#1) : (i32) -> ()', 9),
        (b'"t"(%v99999999999999999999999999999999999999999.0) : (i32) -> ()', 4),
    ]),
    ("no-operation-of-a-command", "The text of a command is one operation, with nothing after it.", O, 2, [
        (b'"t"() : () -> () "u"() : () -> ()', 17),
    ]),
    ("no-operation-of-a-command", "The text of a command is one operation, with nothing after it.", O, 13, [
        (b'"t"() : () -> () loc("x")', 17),
    ]),
    ("no-operation-of-a-command", "The text of a command is one operation, with nothing after it.", O, 2, [
        (b'', 0), (b'^a: "t"() : () -> ()', 0),
    ]),
    ("no-operation-of-a-command", "The text of a command is one operation, with nothing after it.", O, 5, [
        (b'"t"(%v0.0) : (i64) -> ()', 11),
    ]),
]

# A text for each refusal of a reader, in the order of their numbers. Each is one operation, or would be.
GOLDEN = [
    (b'"t"() $', 1, 6),
    (b'"t"() : () : ()', 2, 11),
    (b'"t"(%a) : (i32) -> ()', 3, 4),
    (b'%a, %a = "t"() : () -> (i32, i32)', 4, 4),
    (b'%a = "t"() : () -> ()', 5, 11),
    (b'"t"() : () -> si129', 6, 14),
    (b'"t"() {a = 128 : si8} : () -> ()', 7, 11),
    (b'"t"() ({^a: ^b:}) : () -> ()', 8, 12),
    (b'"t"() [^a] : () -> ()', 9, 6),
    (b'"t"() {a = [[[[[[[[[[[[[[[[[[[[[[[[[[[[[[[[[]]]]]]]]]]]]]]]]]]]]]]]]]]]]]]]]]} : () -> ()', 10, 43),
    (b'%a:257 = "t"() : () -> ()', 11, 3),
    (b'"t"() {a, a} : () -> ()', 12, 10),
    (b'module {}', 13, 0),
    (b'"t\xff"() : () -> ()', 14, 2),
]

# Texts with the token at their front: its kind, what it holds, and what is left.
FRONTS = [
    (b"12", ("integer", b"12", b"")), (b"007:", ("integer", b"007", b":")), (b"0x1F", ("integer", b"0x1F", b"")),
    (b"0xfg", ("integer", b"0xf", b"g")),
    (b"0x", ("integer", b"0", b"x")), (b"0xg", ("integer", b"0", b"xg")), (b"00x1", ("integer", b"00", b"x1")),
    (b"0X1", ("integer", b"0", b"X1")),
    (b"0x1.5", ("integer", b"0x1", b".5")), (b"-1", ("mark", b"", b"1")),
    (b"1.5e3", ("float", b"1.5e3", b"")), (b"1.", ("float", b"1.", b"")), (b"1.e3", ("float", b"1.e3", b"")),
    (b"1.5e", ("float", b"1.5", b"e")),
    (b"1.5e+", ("float", b"1.5", b"e+")), (b"1.5E-07x", ("float", b"1.5E-07", b"x")),
    (b"1.5e+3e4", ("float", b"1.5e+3", b"e4")),
    (b"1e5", ("integer", b"1", b"e5")), (b"1..2", ("float", b"1.", b".2")),
    (b"a.b$c", ("bare", b"a.b$c", b"")), (b"a-b", ("bare", b"a", b"-b")), (b"_0", ("bare", b"_0", b"")),
    (b"i32,", ("bare", b"i32", b",")),
    (b"%0#1", ("value", b"0", b"#1")), (b"%1a", ("value", b"1", b"a")), (b"%a1-b.$_c:", ("value", b"a1-b.$_c", b":")),
    (b"%-", ("value", b"-", b"")),
    (b"%.0", ("value", b".0", b"")),
    (b"^bb0(", ("label", b"bb0", b"(")), (b"#arith.overflow<", ("hash", b"arith.overflow", b"<")),
    (b"#0:", ("hash", b"0", b":")),
    (b"!t.x>", ("bang", b"t.x", b">")), (b"@f::@g", ("symbol", b"f", b"::@g")), (b"@0a", ("symbol", b"0", b"a")),
    (b'@"a b"c', ("quoted", b"a b", b"c")),
    (b'@""', ("quoted", b"", b"")),
    (b'"""', ("string", b"", b'"')), (b'"a\\"b" c', ("string", b'a\\"b', b" c")),
    (b'"\\\\"x', ("string", b"\\\\", b"x")),
    (b'"\\0a\\FF\\n\\t"', ("string", b"\\0a\\FF\\n\\t", b"")),
    (b'"\t\x08\xC3\xA4"', ("string", b"\t\x08\xC3\xA4", b"")),
    (b" \t\r\n x", ("bare", b"x", b"")), (b"// a\nb c", ("bare", b"b", b" c")), (b"// a\rb\n%c", ("value", b"c", b"")),
    (b"////\n//\n7", ("integer", b"7", b"")), (b'// "\xFF', ("mark", b"", b"")), (b"", ("mark", b"", b"")),
]

# Texts that begin with no token, and where they are refused.
NO_FRONTS = [(number, rows) for _, _, kind, number, rows in REFUSED if kind == A and number == 1][:5]
