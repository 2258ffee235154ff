"a"() : () -> ()
// -----
set-attr #1 a index
print
set-attr #1 a 0 : index
print
set-attr #1 a memref<2xindex>
print
set-attr #1 a (index) -> ()
print
set-attr #1 a () -> index
print
set-attr #1 a () -> (i1, index)
print
set-attr #1 a (i1, index) -> index
print
set-attr #1 a memref<i32>
print
set-attr #1 a 0 : memref<i32>
set-attr #1 a memref<2xmemref<i32>>
set-attr #1 a array<memref<i32>>
set-attr #1 a (memref<i32>) -> ()
print
set-attr #1 a () -> memref<i32>
print
set-attr #1 a () -> (i1, memref<i32>)
print
set-attr #1 a (i1, memref<i32>) -> index
print
set-attr #1 a memref<4xi32>
print
set-attr #1 a 0 : memref<4xi32>
set-attr #1 a memref<2xmemref<4xi32>>
set-attr #1 a array<memref<4xi32>>
set-attr #1 a (memref<4xi32>) -> ()
print
set-attr #1 a () -> memref<4xi32>
print
set-attr #1 a () -> (i1, memref<4xi32>)
print
set-attr #1 a (i1, memref<4xi32>) -> index
print
set-attr #1 a memref<?x4 x i8>
print
set-attr #1 a memref<?x4xi8>
print
set-attr #1 a 0 : memref<?x4 x i8>
set-attr #1 a memref<2xmemref<?x4 x i8>>
set-attr #1 a array<memref<?x4 x i8>>
set-attr #1 a (memref<?x4 x i8>) -> ()
print
set-attr #1 a (memref<?x4xi8>) -> ()
print
set-attr #1 a () -> memref<?x4 x i8>
print
set-attr #1 a () -> memref<?x4xi8>
print
set-attr #1 a () -> (i1, memref<?x4 x i8>)
print
set-attr #1 a () -> (i1, memref<?x4xi8>)
print
set-attr #1 a (i1, memref<?x4 x i8>) -> index
print
set-attr #1 a (i1, memref<?x4xi8>) -> index
print
set-attr #1 a memref<0x10xindex>
print
set-attr #1 a 0 : memref<0x10xindex>
set-attr #1 a memref<2xmemref<0x10xindex>>
set-attr #1 a array<memref<0x10xindex>>
set-attr #1 a (memref<0x10xindex>) -> ()
print
set-attr #1 a () -> memref<0x10xindex>
print
set-attr #1 a () -> (i1, memref<0x10xindex>)
print
set-attr #1 a (i1, memref<0x10xindex>) -> index
print
set-attr #1 a memref<007xsi8>
print
set-attr #1 a memref<7xsi8>
print
set-attr #1 a 0 : memref<007xsi8>
set-attr #1 a memref<2xmemref<007xsi8>>
set-attr #1 a array<memref<007xsi8>>
set-attr #1 a (memref<007xsi8>) -> ()
print
set-attr #1 a (memref<7xsi8>) -> ()
print
set-attr #1 a () -> memref<007xsi8>
print
set-attr #1 a () -> memref<7xsi8>
print
set-attr #1 a () -> (i1, memref<007xsi8>)
print
set-attr #1 a () -> (i1, memref<7xsi8>)
print
set-attr #1 a (i1, memref<007xsi8>) -> index
print
set-attr #1 a (i1, memref<7xsi8>) -> index
print
set-attr #1 a memref<0000000000000000000000000000000000000000000000000000000005xi1>
print
set-attr #1 a memref<5xi1>
print
set-attr #1 a 0 : memref<0000000000000000000000000000000000000000000000000000000005xi1>
set-attr #1 a memref<2xmemref<0000000000000000000000000000000000000000000000000000000005xi1>>
set-attr #1 a array<memref<0000000000000000000000000000000000000000000000000000000005xi1>>
set-attr #1 a (memref<0000000000000000000000000000000000000000000000000000000005xi1>) -> ()
print
set-attr #1 a (memref<5xi1>) -> ()
print
set-attr #1 a () -> memref<0000000000000000000000000000000000000000000000000000000005xi1>
print
set-attr #1 a () -> memref<5xi1>
print
set-attr #1 a () -> (i1, memref<0000000000000000000000000000000000000000000000000000000005xi1>)
print
set-attr #1 a () -> (i1, memref<5xi1>)
print
set-attr #1 a (i1, memref<0000000000000000000000000000000000000000000000000000000005xi1>) -> index
print
set-attr #1 a (i1, memref<5xi1>) -> index
print
set-attr #1 a memref<9223372036854775807xi32>
print
set-attr #1 a 0 : memref<9223372036854775807xi32>
set-attr #1 a memref<2xmemref<9223372036854775807xi32>>
set-attr #1 a array<memref<9223372036854775807xi32>>
set-attr #1 a (memref<9223372036854775807xi32>) -> ()
print
set-attr #1 a () -> memref<9223372036854775807xi32>
print
set-attr #1 a () -> (i1, memref<9223372036854775807xi32>)
print
set-attr #1 a (i1, memref<9223372036854775807xi32>) -> index
print
set-attr #1 a memref<4x?xui64>
print
set-attr #1 a (memref<4x?xui64>) -> ()
print
set-attr #1 a () -> memref<4x?xui64>
print
set-attr #1 a () -> (i1, memref<4x?xui64>)
print
set-attr #1 a (i1, memref<4x?xui64>) -> index
print
set-attr #1 a 0 : () -> ()
set-attr #1 a memref<2x() -> ()>
set-attr #1 a (() -> ()) -> ()
print
set-attr #1 a () -> () -> ()
set-attr #1 a () -> (i1, () -> ())
print
set-attr #1 a (i1, () -> ()) -> index
print
set-attr #1 a (i32) -> i32
print
set-attr #1 a 0 : (i32) -> i32
set-attr #1 a memref<2x(i32) -> i32>
set-attr #1 a array<(i32) -> i32>
set-attr #1 a ((i32) -> i32) -> ()
print
set-attr #1 a () -> (i32) -> i32
set-attr #1 a () -> (i1, (i32) -> i32)
print
set-attr #1 a (i1, (i32) -> i32) -> index
print
set-attr #1 a (i32) -> (i1, i2)
print
set-attr #1 a 0 : (i32) -> (i1, i2)
set-attr #1 a memref<2x(i32) -> (i1, i2)>
set-attr #1 a array<(i32) -> (i1, i2)>
set-attr #1 a ((i32) -> (i1, i2)) -> ()
print
set-attr #1 a () -> (i32) -> (i1, i2)
set-attr #1 a () -> (i1, (i32) -> (i1, i2))
print
set-attr #1 a (i1, (i32) -> (i1, i2)) -> index
print
set-attr #1 a () -> (() -> ())
print
set-attr #1 a 0 : () -> (() -> ())
set-attr #1 a memref<2x() -> (() -> ())>
set-attr #1 a array<() -> (() -> ())>
set-attr #1 a (() -> (() -> ())) -> ()
print
set-attr #1 a () -> () -> (() -> ())
set-attr #1 a () -> (i1, () -> (() -> ()))
print
set-attr #1 a (i1, () -> (() -> ())) -> index
print
set-attr #1 a 0 : () -> () -> ()
set-attr #1 a memref<2x() -> () -> ()>
set-attr #1 a array<() -> () -> ()>
set-attr #1 a (() -> () -> ()) -> ()
set-attr #1 a () -> () -> () -> ()
set-attr #1 a () -> (i1, () -> () -> ())
set-attr #1 a (i1, () -> () -> ()) -> index
set-attr #1 a (() -> ()) -> (() -> i1)
print
set-attr #1 a 0 : (() -> ()) -> (() -> i1)
set-attr #1 a memref<2x(() -> ()) -> (() -> i1)>
set-attr #1 a array<(() -> ()) -> (() -> i1)>
set-attr #1 a ((() -> ()) -> (() -> i1)) -> ()
print
set-attr #1 a () -> (() -> ()) -> (() -> i1)
set-attr #1 a () -> (i1, (() -> ()) -> (() -> i1))
print
set-attr #1 a (i1, (() -> ()) -> (() -> i1)) -> index
print
set-attr #1 a (i1,) -> ()
set-attr #1 a memref<2x(i1,) -> ()>
set-attr #1 a array<(i1,) -> ()>
set-attr #1 a ((i1,) -> ()) -> ()
set-attr #1 a () -> (i1,) -> ()
set-attr #1 a () -> (i1, (i1,) -> ())
set-attr #1 a (i1, (i1,) -> ()) -> index
set-attr #1 a (,i1) -> ()
set-attr #1 a memref<2x(,i1) -> ()>
set-attr #1 a array<(,i1) -> ()>
set-attr #1 a ((,i1) -> ()) -> ()
set-attr #1 a () -> (,i1) -> ()
set-attr #1 a () -> (i1, (,i1) -> ())
set-attr #1 a (i1, (,i1) -> ()) -> index
set-attr #1 a () -> (i1,)
set-attr #1 a memref<2x() -> (i1,)>
set-attr #1 a array<() -> (i1,)>
set-attr #1 a (() -> (i1,)) -> ()
set-attr #1 a () -> () -> (i1,)
set-attr #1 a () -> (i1, () -> (i1,))
set-attr #1 a (i1, () -> (i1,)) -> index
set-attr #1 a (index, memref<?xindex>) -> (memref<1x2x3xui7>, () -> ())
print
set-attr #1 a 0 : (index, memref<?xindex>) -> (memref<1x2x3xui7>, () -> ())
set-attr #1 a memref<2x(index, memref<?xindex>) -> (memref<1x2x3xui7>, () -> ())>
set-attr #1 a array<(index, memref<?xindex>) -> (memref<1x2x3xui7>, () -> ())>
set-attr #1 a ((index, memref<?xindex>) -> (memref<1x2x3xui7>, () -> ())) -> ()
print
set-attr #1 a () -> (index, memref<?xindex>) -> (memref<1x2x3xui7>, () -> ())
set-attr #1 a () -> (i1, (index, memref<?xindex>) -> (memref<1x2x3xui7>, () -> ()))
print
set-attr #1 a (i1, (index, memref<?xindex>) -> (memref<1x2x3xui7>, () -> ())) -> index
print
set-attr #1 a ()
set-attr #1 a memref<2x()>
set-attr #1 a array<()>
set-attr #1 a (()) -> ()
set-attr #1 a () -> (i1, ())
set-attr #1 a (i1, ()) -> index
set-attr #1 a () ->
set-attr #1 a memref<2x() ->>
set-attr #1 a array<() ->>
set-attr #1 a (() ->) -> ()
set-attr #1 a () -> () ->
set-attr #1 a () -> (i1, () ->)
set-attr #1 a (i1, () ->) -> index
set-attr #1 a () -> 1
set-attr #1 a memref<2x() -> 1>
set-attr #1 a array<() -> 1>
set-attr #1 a (() -> 1) -> ()
set-attr #1 a () -> () -> 1
set-attr #1 a () -> (i1, () -> 1)
set-attr #1 a (i1, () -> 1) -> index
set-attr #1 a () -> [
set-attr #1 a memref<2x() -> [>
set-attr #1 a array<() -> [>
set-attr #1 a (() -> [) -> ()
set-attr #1 a () -> () -> [
set-attr #1 a () -> (i1, () -> [)
set-attr #1 a (i1, () -> [) -> index
set-attr #1 a (i1 i2) -> ()
set-attr #1 a memref<2x(i1 i2) -> ()>
set-attr #1 a array<(i1 i2) -> ()>
set-attr #1 a ((i1 i2) -> ()) -> ()
set-attr #1 a () -> (i1 i2) -> ()
set-attr #1 a () -> (i1, (i1 i2) -> ())
set-attr #1 a (i1, (i1 i2) -> ()) -> index
set-attr #1 a memref<?x?x?x?xi1>
print
set-attr #1 a 0 : memref<?x?x?x?xi1>
set-attr #1 a memref<2xmemref<?x?x?x?xi1>>
set-attr #1 a array<memref<?x?x?x?xi1>>
set-attr #1 a (memref<?x?x?x?xi1>) -> ()
print
set-attr #1 a () -> memref<?x?x?x?xi1>
print
set-attr #1 a () -> (i1, memref<?x?x?x?xi1>)
print
set-attr #1 a (i1, memref<?x?x?x?xi1>) -> index
print
set-attr #1 a memref<9223372036854775808xi32>
set-attr #1 a memref<2xmemref<9223372036854775808xi32>>
set-attr #1 a array<memref<9223372036854775808xi32>>
set-attr #1 a (memref<9223372036854775808xi32>) -> ()
set-attr #1 a () -> memref<9223372036854775808xi32>
set-attr #1 a () -> (i1, memref<9223372036854775808xi32>)
set-attr #1 a (i1, memref<9223372036854775808xi32>) -> index
set-attr #1 a memref<2x18446744073709551616xi1>
set-attr #1 a memref<2xmemref<2x18446744073709551616xi1>>
set-attr #1 a array<memref<2x18446744073709551616xi1>>
set-attr #1 a (memref<2x18446744073709551616xi1>) -> ()
set-attr #1 a () -> memref<2x18446744073709551616xi1>
set-attr #1 a () -> (i1, memref<2x18446744073709551616xi1>)
set-attr #1 a (i1, memref<2x18446744073709551616xi1>) -> index
set-attr #1 a memref<?x9223372036854775808xi1>
set-attr #1 a memref<2xmemref<?x9223372036854775808xi1>>
set-attr #1 a array<memref<?x9223372036854775808xi1>>
set-attr #1 a (memref<?x9223372036854775808xi1>) -> ()
set-attr #1 a () -> memref<?x9223372036854775808xi1>
set-attr #1 a () -> (i1, memref<?x9223372036854775808xi1>)
set-attr #1 a (i1, memref<?x9223372036854775808xi1>) -> index
set-attr #1 a 0 : f32
set-attr #1 a memref<2xf32>
set-attr #1 a (f32) -> ()
set-attr #1 a () -> f32
set-attr #1 a () -> (i1, f32)
set-attr #1 a (i1, f32) -> index
set-attr #1 a none
set-attr #1 a 0 : none
set-attr #1 a memref<2xnone>
set-attr #1 a array<none>
set-attr #1 a (none) -> ()
set-attr #1 a () -> none
set-attr #1 a () -> (i1, none)
set-attr #1 a (i1, none) -> index
set-attr #1 a vector<4xi32>
set-attr #1 a 0 : vector<4xi32>
set-attr #1 a memref<2xvector<4xi32>>
set-attr #1 a array<vector<4xi32>>
set-attr #1 a (vector<4xi32>) -> ()
set-attr #1 a () -> vector<4xi32>
set-attr #1 a () -> (i1, vector<4xi32>)
set-attr #1 a (i1, vector<4xi32>) -> index
set-attr #1 a 0 : tensor<4xi32>
set-attr #1 a memref<2xtensor<4xi32>>
set-attr #1 a array<tensor<4xi32>>
set-attr #1 a (tensor<4xi32>) -> ()
set-attr #1 a () -> tensor<4xi32>
set-attr #1 a () -> (i1, tensor<4xi32>)
set-attr #1 a (i1, tensor<4xi32>) -> index
set-attr #1 a memref<2xmemref<*xi32>>
set-attr #1 a array<memref<*xi32>>
set-attr #1 a (memref<*xi32>) -> ()
set-attr #1 a () -> memref<*xi32>
set-attr #1 a () -> (i1, memref<*xi32>)
set-attr #1 a (i1, memref<*xi32>) -> index
set-attr #1 a memref<4xf32>
set-attr #1 a memref<2xmemref<4xf32>>
set-attr #1 a array<memref<4xf32>>
set-attr #1 a (memref<4xf32>) -> ()
set-attr #1 a () -> memref<4xf32>
set-attr #1 a () -> (i1, memref<4xf32>)
set-attr #1 a (i1, memref<4xf32>) -> index
set-attr #1 a memref<4x4>
set-attr #1 a memref<2xmemref<4x4>>
set-attr #1 a array<memref<4x4>>
set-attr #1 a (memref<4x4>) -> ()
set-attr #1 a () -> memref<4x4>
set-attr #1 a () -> (i1, memref<4x4>)
set-attr #1 a (i1, memref<4x4>) -> index
set-attr #1 a memref<4xi32, 1>
set-attr #1 a memref<2xmemref<4xi32, 1>>
set-attr #1 a array<memref<4xi32, 1>>
set-attr #1 a (memref<4xi32, 1>) -> ()
set-attr #1 a () -> memref<4xi32, 1>
set-attr #1 a () -> (i1, memref<4xi32, 1>)
set-attr #1 a (i1, memref<4xi32, 1>) -> index
set-attr #1 a memref<xi32>
set-attr #1 a memref<2xmemref<xi32>>
set-attr #1 a array<memref<xi32>>
set-attr #1 a (memref<xi32>) -> ()
set-attr #1 a () -> memref<xi32>
set-attr #1 a () -> (i1, memref<xi32>)
set-attr #1 a (i1, memref<xi32>) -> index
set-attr #1 a memref<4 4xi32>
set-attr #1 a memref<2xmemref<4 4xi32>>
set-attr #1 a array<memref<4 4xi32>>
set-attr #1 a (memref<4 4xi32>) -> ()
set-attr #1 a () -> memref<4 4xi32>
set-attr #1 a () -> (i1, memref<4 4xi32>)
set-attr #1 a (i1, memref<4 4xi32>) -> index
set-attr #1 a memref<4xx>
set-attr #1 a memref<2xmemref<4xx>>
set-attr #1 a array<memref<4xx>>
set-attr #1 a (memref<4xx>) -> ()
set-attr #1 a () -> memref<4xx>
set-attr #1 a () -> (i1, memref<4xx>)
set-attr #1 a (i1, memref<4xx>) -> index
set-attr #1 a memref<-4xi1>
set-attr #1 a memref<2xmemref<-4xi1>>
set-attr #1 a array<memref<-4xi1>>
set-attr #1 a (memref<-4xi1>) -> ()
set-attr #1 a () -> memref<-4xi1>
set-attr #1 a () -> (i1, memref<-4xi1>)
set-attr #1 a (i1, memref<-4xi1>) -> index
set-attr #1 a 0 : !a.b
set-attr #1 a memref<2x!a.b>
set-attr #1 a (!a.b) -> ()
set-attr #1 a () -> !a.b
set-attr #1 a () -> (i1, !a.b)
set-attr #1 a (i1, !a.b) -> index
set-attr #1 a 0 : #a.b
set-attr #1 a memref<2x#a.b>
set-attr #1 a array<#a.b>
set-attr #1 a (#a.b) -> ()
set-attr #1 a () -> #a.b
set-attr #1 a () -> (i1, #a.b)
set-attr #1 a (i1, #a.b) -> index
set-attr #1 a 0 : 1.5
set-attr #1 a memref<2x1.5>
set-attr #1 a array<1.5>
set-attr #1 a (1.5) -> ()
set-attr #1 a () -> 1.5
set-attr #1 a () -> (i1, 1.5)
set-attr #1 a (i1, 1.5) -> index
set-attr #1 a i
set-attr #1 a 0 : i
set-attr #1 a memref<2xi>
set-attr #1 a (i) -> ()
set-attr #1 a () -> i
set-attr #1 a () -> (i1, i)
set-attr #1 a (i1, i) -> index
set-attr #1 a si
set-attr #1 a 0 : si
set-attr #1 a memref<2xsi>
set-attr #1 a array<si>
set-attr #1 a (si) -> ()
set-attr #1 a () -> si
set-attr #1 a () -> (i1, si)
set-attr #1 a (i1, si) -> index
set-attr #1 a ui
set-attr #1 a 0 : ui
set-attr #1 a memref<2xui>
set-attr #1 a array<ui>
set-attr #1 a (ui) -> ()
set-attr #1 a () -> ui
set-attr #1 a () -> (i1, ui)
set-attr #1 a (i1, ui) -> index
set-attr #1 a i8x
set-attr #1 a 0 : i8x
set-attr #1 a memref<2xi8x>
set-attr #1 a array<i8x>
set-attr #1 a (i8x) -> ()
set-attr #1 a () -> i8x
set-attr #1 a () -> (i1, i8x)
set-attr #1 a (i1, i8x) -> index
set-attr #1 a i8.
set-attr #1 a 0 : i8.
set-attr #1 a memref<2xi8.>
set-attr #1 a array<i8.>
set-attr #1 a (i8.) -> ()
set-attr #1 a () -> i8.
set-attr #1 a () -> (i1, i8.)
set-attr #1 a (i1, i8.) -> index
set-attr #1 a i8_
set-attr #1 a 0 : i8_
set-attr #1 a memref<2xi8_>
set-attr #1 a array<i8_>
set-attr #1 a (i8_) -> ()
set-attr #1 a () -> i8_
set-attr #1 a () -> (i1, i8_)
set-attr #1 a (i1, i8_) -> index
set-attr #1 a i8$
set-attr #1 a 0 : i8$
set-attr #1 a memref<2xi8$>
set-attr #1 a array<i8$>
set-attr #1 a (i8$) -> ()
set-attr #1 a () -> i8$
set-attr #1 a () -> (i1, i8$)
set-attr #1 a (i1, i8$) -> index
set-attr #1 a I8
set-attr #1 a 0 : I8
set-attr #1 a memref<2xI8>
set-attr #1 a array<I8>
set-attr #1 a (I8) -> ()
set-attr #1 a () -> I8
set-attr #1 a () -> (i1, I8)
set-attr #1 a (i1, I8) -> index
set-attr #1 a u8
set-attr #1 a 0 : u8
set-attr #1 a memref<2xu8>
set-attr #1 a array<u8>
set-attr #1 a (u8) -> ()
set-attr #1 a () -> u8
set-attr #1 a () -> (i1, u8)
set-attr #1 a (i1, u8) -> index
set-attr #1 a s8
set-attr #1 a 0 : s8
set-attr #1 a memref<2xs8>
set-attr #1 a array<s8>
set-attr #1 a (s8) -> ()
set-attr #1 a () -> s8
set-attr #1 a () -> (i1, s8)
set-attr #1 a (i1, s8) -> index
set-attr #1 a int
set-attr #1 a 0 : int
set-attr #1 a memref<2xint>
set-attr #1 a array<int>
set-attr #1 a (int) -> ()
set-attr #1 a () -> int
set-attr #1 a () -> (i1, int)
set-attr #1 a (i1, int) -> index
set-attr #1 a indexx
set-attr #1 a 0 : indexx
set-attr #1 a memref<2xindexx>
set-attr #1 a array<indexx>
set-attr #1 a (indexx) -> ()
set-attr #1 a () -> indexx
set-attr #1 a () -> (i1, indexx)
set-attr #1 a (i1, indexx) -> index
set-attr #1 a index.
set-attr #1 a 0 : index.
set-attr #1 a memref<2xindex.>
set-attr #1 a array<index.>
set-attr #1 a (index.) -> ()
set-attr #1 a () -> index.
set-attr #1 a () -> (i1, index.)
set-attr #1 a (i1, index.) -> index
set-attr #1 a true
print
set-attr #1 a 0 : true
set-attr #1 a memref<2xtrue>
set-attr #1 a array<true>
set-attr #1 a (true) -> ()
set-attr #1 a () -> true
set-attr #1 a () -> (i1, true)
set-attr #1 a (i1, true) -> index
set-attr #1 a unit
print
set-attr #1 a 0 : unit
set-attr #1 a memref<2xunit>
set-attr #1 a array<unit>
set-attr #1 a (unit) -> ()
set-attr #1 a () -> unit
set-attr #1 a () -> (i1, unit)
set-attr #1 a (i1, unit) -> index
set-attr #1 a 0 : array
set-attr #1 a memref<2xarray>
set-attr #1 a array<array>
set-attr #1 a (array) -> ()
set-attr #1 a () -> array
set-attr #1 a () -> (i1, array)
set-attr #1 a (i1, array) -> index
set-attr #1 a "i32"
print
set-attr #1 a 0 : "i32"
set-attr #1 a memref<2x"i32">
set-attr #1 a array<"i32">
set-attr #1 a ("i32") -> ()
set-attr #1 a () -> "i32"
set-attr #1 a () -> (i1, "i32")
set-attr #1 a (i1, "i32") -> index
set-attr #1 a 0 : @i32
set-attr #1 a memref<2x@i32>
set-attr #1 a array<@i32>
set-attr #1 a (@i32) -> ()
set-attr #1 a () -> @i32
set-attr #1 a () -> (i1, @i32)
set-attr #1 a (i1, @i32) -> index
set-attr #1 a %i32
set-attr #1 a 0 : %i32
set-attr #1 a memref<2x%i32>
set-attr #1 a array<%i32>
set-attr #1 a (%i32) -> ()
set-attr #1 a () -> %i32
set-attr #1 a () -> (i1, %i32)
set-attr #1 a (i1, %i32) -> index
set-attr #1 a ^i32
set-attr #1 a 0 : ^i32
set-attr #1 a memref<2x^i32>
set-attr #1 a array<^i32>
set-attr #1 a (^i32) -> ()
set-attr #1 a () -> ^i32
set-attr #1 a () -> (i1, ^i32)
set-attr #1 a (i1, ^i32) -> index
set-attr #1 a 7
print
set-attr #1 a 0 : 7
set-attr #1 a memref<2x7>
set-attr #1 a array<7>
set-attr #1 a (7) -> ()
set-attr #1 a () -> 7
set-attr #1 a () -> (i1, 7)
set-attr #1 a (i1, 7) -> index
set-attr #1 a -
set-attr #1 a 0 : -
set-attr #1 a memref<2x->
set-attr #1 a array<->
set-attr #1 a (-) -> ()
set-attr #1 a () -> -
set-attr #1 a () -> (i1, -)
set-attr #1 a (i1, -) -> index
set-attr #1 a 0 : *
set-attr #1 a memref<2x*>
set-attr #1 a array<*>
set-attr #1 a (*) -> ()
set-attr #1 a () -> *
set-attr #1 a () -> (i1, *)
set-attr #1 a (i1, *) -> index
set-attr #1 a ?
set-attr #1 a 0 : ?
set-attr #1 a memref<2x?>
set-attr #1 a array<?>
set-attr #1 a (?) -> ()
set-attr #1 a () -> ?
set-attr #1 a () -> (i1, ?)
set-attr #1 a (i1, ?) -> index
set-attr #1 a 0 : 
set-attr #1 a memref<2x>
set-attr #1 a () -> 
set-attr #1 a () -> (i1, )
set-attr #1 a (i1, ) -> index
set-attr #1 a 0 : $
set-attr #1 a memref<2x$>
set-attr #1 a array<$>
set-attr #1 a ($) -> ()
set-attr #1 a () -> $
set-attr #1 a () -> (i1, $)
set-attr #1 a (i1, $) -> index
set-attr #1 a i 8
set-attr #1 a 0 : i 8
set-attr #1 a memref<2xi 8>
set-attr #1 a array<i 8>
set-attr #1 a (i 8) -> ()
set-attr #1 a () -> i 8
set-attr #1 a () -> (i1, i 8)
set-attr #1 a (i1, i 8) -> index
set-attr #1 a ()->i1
print
set-attr #1 a () -> i1
print
set-attr #1 a 0 : ()->i1
set-attr #1 a memref<2x()->i1>
set-attr #1 a array<()->i1>
set-attr #1 a (()->i1) -> ()
print
set-attr #1 a (() -> i1) -> ()
print
set-attr #1 a () -> ()->i1
set-attr #1 a () -> (i1, ()->i1)
print
set-attr #1 a () -> (i1, () -> i1)
print
set-attr #1 a (i1, ()->i1) -> index
print
set-attr #1 a (i1, () -> i1) -> index
print
set-attr #1 a memref<?xi8>
print
set-attr #1 a 0 : memref<?xi8>
set-attr #1 a memref<2xmemref<?xi8>>
set-attr #1 a array<memref<?xi8>>
set-attr #1 a (memref<?xi8>) -> ()
print
set-attr #1 a () -> memref<?xi8>
print
set-attr #1 a () -> (i1, memref<?xi8>)
print
set-attr #1 a (i1, memref<?xi8>) -> index
print
set-attr #1 a memref<4xui8>
print
set-attr #1 a 0 : memref<4xui8>
set-attr #1 a memref<2xmemref<4xui8>>
set-attr #1 a array<memref<4xui8>>
set-attr #1 a (memref<4xui8>) -> ()
print
set-attr #1 a () -> memref<4xui8>
print
set-attr #1 a () -> (i1, memref<4xui8>)
print
set-attr #1 a (i1, memref<4xui8>) -> index
print
set-attr #1 a memref<2x3xi8>
print
set-attr #1 a 0 : memref<2x3xi8>
set-attr #1 a memref<2xmemref<2x3xi8>>
set-attr #1 a array<memref<2x3xi8>>
set-attr #1 a (memref<2x3xi8>) -> ()
print
set-attr #1 a () -> memref<2x3xi8>
print
set-attr #1 a () -> (i1, memref<2x3xi8>)
print
set-attr #1 a (i1, memref<2x3xi8>) -> index
print
set-attr #1 a memref<3x2xi8>
print
set-attr #1 a 0 : memref<3x2xi8>
set-attr #1 a memref<2xmemref<3x2xi8>>
set-attr #1 a array<memref<3x2xi8>>
set-attr #1 a (memref<3x2xi8>) -> ()
print
set-attr #1 a () -> memref<3x2xi8>
print
set-attr #1 a () -> (i1, memref<3x2xi8>)
print
set-attr #1 a (i1, memref<3x2xi8>) -> index
print
set-attr #1 a complex<i1>
set-attr #1 a 0 : complex<i1>
set-attr #1 a memref<2xcomplex<i1>>
set-attr #1 a array<complex<i1>>
set-attr #1 a (complex<i1>) -> ()
set-attr #1 a () -> complex<i1>
set-attr #1 a () -> (i1, complex<i1>)
set-attr #1 a (i1, complex<i1>) -> index
set-attr #1 a memref<4xmemref<i1>>
set-attr #1 a memref<2xmemref<4xmemref<i1>>>
set-attr #1 a array<memref<4xmemref<i1>>>
set-attr #1 a (memref<4xmemref<i1>>) -> ()
set-attr #1 a () -> memref<4xmemref<i1>>
set-attr #1 a () -> (i1, memref<4xmemref<i1>>)
set-attr #1 a (i1, memref<4xmemref<i1>>) -> index
set-attr #1 a memref<4x?>
set-attr #1 a memref<2xmemref<4x?>>
set-attr #1 a array<memref<4x?>>
set-attr #1 a (memref<4x?>) -> ()
set-attr #1 a () -> memref<4x?>
set-attr #1 a () -> (i1, memref<4x?>)
set-attr #1 a (i1, memref<4x?>) -> index
set-attr #1 a memref<?
set-attr #1 a memref<2xmemref<?>
set-attr #1 a array<memref<?>
set-attr #1 a (memref<?) -> ()
set-attr #1 a () -> memref<?
set-attr #1 a () -> (i1, memref<?)
set-attr #1 a (i1, memref<?) -> index
set-attr #1 a memref<4x
set-attr #1 a memref<2xmemref<4x>
set-attr #1 a array<memref<4x>
set-attr #1 a (memref<4x) -> ()
set-attr #1 a () -> memref<4x
set-attr #1 a () -> (i1, memref<4x)
set-attr #1 a (i1, memref<4x) -> index
set-attr #1 a memref<4xi8
set-attr #1 a memref<2xmemref<4xi8>
set-attr #1 a array<memref<4xi8>
set-attr #1 a (memref<4xi8) -> ()
set-attr #1 a () -> memref<4xi8
set-attr #1 a () -> (i1, memref<4xi8)
set-attr #1 a (i1, memref<4xi8) -> index
set-attr #1 a memref<2xmemref>
set-attr #1 a array<memref>
set-attr #1 a (memref) -> ()
set-attr #1 a () -> memref
set-attr #1 a () -> (i1, memref)
set-attr #1 a (i1, memref) -> index
set-attr #1 a memref<(i1) -> i1>
set-attr #1 a memref<2xmemref<(i1) -> i1>>
set-attr #1 a array<memref<(i1) -> i1>>
set-attr #1 a (memref<(i1) -> i1>) -> ()
set-attr #1 a () -> memref<(i1) -> i1>
set-attr #1 a () -> (i1, memref<(i1) -> i1>)
set-attr #1 a (i1, memref<(i1) -> i1>) -> index
set-attr #1 a memref<ä>
set-attr #1 a memref<2xmemref<ä>>
set-attr #1 a array<memref<ä>>
set-attr #1 a (memref<ä>) -> ()
set-attr #1 a () -> memref<ä>
set-attr #1 a () -> (i1, memref<ä>)
set-attr #1 a (i1, memref<ä>) -> index
set-attr #1 a memref<0x0xi1>
print
set-attr #1 a 0 : memref<0x0xi1>
set-attr #1 a memref<2xmemref<0x0xi1>>
set-attr #1 a array<memref<0x0xi1>>
set-attr #1 a (memref<0x0xi1>) -> ()
print
set-attr #1 a () -> memref<0x0xi1>
print
set-attr #1 a () -> (i1, memref<0x0xi1>)
print
set-attr #1 a (i1, memref<0x0xi1>) -> index
print
set-attr #1 a memref<1xi1>
print
set-attr #1 a (memref<1xi1>) -> ()
print
set-attr #1 a () -> memref<1xi1>
print
set-attr #1 a () -> (i1, memref<1xi1>)
print
set-attr #1 a (i1, memref<1xi1>) -> index
print
set-attr #1 a memref<1x1.xi1>
set-attr #1 a memref<2xmemref<1x1.xi1>>
set-attr #1 a array<memref<1x1.xi1>>
set-attr #1 a (memref<1x1.xi1>) -> ()
set-attr #1 a () -> memref<1x1.xi1>
set-attr #1 a () -> (i1, memref<1x1.xi1>)
set-attr #1 a (i1, memref<1x1.xi1>) -> index
set-attr #1 a memref<"a">
set-attr #1 a memref<2xmemref<"a">>
set-attr #1 a array<memref<"a">>
set-attr #1 a (memref<"a">) -> ()
set-attr #1 a () -> memref<"a">
set-attr #1 a () -> (i1, memref<"a">)
set-attr #1 a (i1, memref<"a">) -> index
set-attr #1 a (memref<4xi32>, index) -> memref<?x?xi1>, i1
set-attr #1 a () -> (() -> i1)
print
set-attr #1 a () -> (i1)
print
