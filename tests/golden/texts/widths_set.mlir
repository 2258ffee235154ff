"a"() : () -> ()
// -----
set-attr #1 a 0 : i0
set-attr #1 a memref<2xi0>
set-attr #1 a (i0) -> ()
set-attr #1 a () -> i0
set-attr #1 a () -> (i1, i0)
set-attr #1 a (i1, i0) -> index
set-attr #1 a i1
print
set-attr #1 a 0 : i1
print
set-attr #1 a false
print
set-attr #1 a memref<2xi1>
print
set-attr #1 a array<i1>
print
set-attr #1 a (i1) -> ()
print
set-attr #1 a () -> (i1, i1)
print
set-attr #1 a (i1, i1) -> index
print
set-attr #1 a i2
print
set-attr #1 a 0 : i2
print
set-attr #1 a memref<2xi2>
print
set-attr #1 a array<i2>
set-attr #1 a (i2) -> ()
print
set-attr #1 a () -> i2
print
set-attr #1 a () -> (i1, i2)
print
set-attr #1 a (i1, i2) -> index
print
set-attr #1 a i7
print
set-attr #1 a 0 : i7
print
set-attr #1 a memref<2xi7>
print
set-attr #1 a array<i7>
set-attr #1 a (i7) -> ()
print
set-attr #1 a () -> i7
print
set-attr #1 a () -> (i1, i7)
print
set-attr #1 a (i1, i7) -> index
print
set-attr #1 a i8
print
set-attr #1 a 0 : i8
print
set-attr #1 a memref<2xi8>
print
set-attr #1 a array<i8>
print
set-attr #1 a (i8) -> ()
print
set-attr #1 a () -> i8
print
set-attr #1 a () -> (i1, i8)
print
set-attr #1 a (i1, i8) -> index
print
set-attr #1 a i9
print
set-attr #1 a 0 : i9
print
set-attr #1 a memref<2xi9>
print
set-attr #1 a array<i9>
set-attr #1 a (i9) -> ()
print
set-attr #1 a () -> i9
print
set-attr #1 a () -> (i1, i9)
print
set-attr #1 a (i1, i9) -> index
print
set-attr #1 a i10
print
set-attr #1 a 0 : i10
print
set-attr #1 a memref<2xi10>
print
set-attr #1 a array<i10>
set-attr #1 a (i10) -> ()
print
set-attr #1 a () -> i10
print
set-attr #1 a () -> (i1, i10)
print
set-attr #1 a (i1, i10) -> index
print
set-attr #1 a i16
print
set-attr #1 a 0 : i16
print
set-attr #1 a memref<2xi16>
print
set-attr #1 a array<i16>
print
set-attr #1 a (i16) -> ()
print
set-attr #1 a () -> i16
print
set-attr #1 a () -> (i1, i16)
print
set-attr #1 a (i1, i16) -> index
print
set-attr #1 a i31
print
set-attr #1 a 0 : i31
print
set-attr #1 a memref<2xi31>
print
set-attr #1 a array<i31>
set-attr #1 a (i31) -> ()
print
set-attr #1 a () -> i31
print
set-attr #1 a () -> (i1, i31)
print
set-attr #1 a (i1, i31) -> index
print
set-attr #1 a i32
print
set-attr #1 a 0 : i32
print
set-attr #1 a memref<2xi32>
print
set-attr #1 a array<i32>
print
set-attr #1 a (i32) -> ()
print
set-attr #1 a () -> i32
print
set-attr #1 a () -> (i1, i32)
print
set-attr #1 a (i1, i32) -> index
print
set-attr #1 a i33
print
set-attr #1 a 0 : i33
print
set-attr #1 a memref<2xi33>
print
set-attr #1 a array<i33>
set-attr #1 a (i33) -> ()
print
set-attr #1 a () -> i33
print
set-attr #1 a () -> (i1, i33)
print
set-attr #1 a (i1, i33) -> index
print
set-attr #1 a i63
print
set-attr #1 a 0 : i63
print
set-attr #1 a memref<2xi63>
print
set-attr #1 a array<i63>
set-attr #1 a (i63) -> ()
print
set-attr #1 a () -> i63
print
set-attr #1 a () -> (i1, i63)
print
set-attr #1 a (i1, i63) -> index
print
set-attr #1 a i64
print
set-attr #1 a 0 : i64
print
set-attr #1 a memref<2xi64>
print
set-attr #1 a array<i64>
print
set-attr #1 a (i64) -> ()
print
set-attr #1 a () -> i64
print
set-attr #1 a () -> (i1, i64)
print
set-attr #1 a (i1, i64) -> index
print
set-attr #1 a i65
print
set-attr #1 a 0 : i65
print
set-attr #1 a memref<2xi65>
print
set-attr #1 a array<i65>
set-attr #1 a (i65) -> ()
print
set-attr #1 a () -> i65
print
set-attr #1 a () -> (i1, i65)
print
set-attr #1 a (i1, i65) -> index
print
set-attr #1 a i66
print
set-attr #1 a 0 : i66
print
set-attr #1 a memref<2xi66>
print
set-attr #1 a array<i66>
set-attr #1 a (i66) -> ()
print
set-attr #1 a () -> i66
print
set-attr #1 a () -> (i1, i66)
print
set-attr #1 a (i1, i66) -> index
print
set-attr #1 a i99
print
set-attr #1 a 0 : i99
print
set-attr #1 a memref<2xi99>
print
set-attr #1 a array<i99>
set-attr #1 a (i99) -> ()
print
set-attr #1 a () -> i99
print
set-attr #1 a () -> (i1, i99)
print
set-attr #1 a (i1, i99) -> index
print
set-attr #1 a i100
print
set-attr #1 a 0 : i100
print
set-attr #1 a memref<2xi100>
print
set-attr #1 a array<i100>
set-attr #1 a (i100) -> ()
print
set-attr #1 a () -> i100
print
set-attr #1 a () -> (i1, i100)
print
set-attr #1 a (i1, i100) -> index
print
set-attr #1 a i127
print
set-attr #1 a 0 : i127
print
set-attr #1 a memref<2xi127>
print
set-attr #1 a array<i127>
set-attr #1 a (i127) -> ()
print
set-attr #1 a () -> i127
print
set-attr #1 a () -> (i1, i127)
print
set-attr #1 a (i1, i127) -> index
print
set-attr #1 a i128
print
set-attr #1 a 0 : i128
print
set-attr #1 a memref<2xi128>
print
set-attr #1 a array<i128>
set-attr #1 a (i128) -> ()
print
set-attr #1 a () -> i128
print
set-attr #1 a () -> (i1, i128)
print
set-attr #1 a (i1, i128) -> index
print
set-attr #1 a 0 : i129
set-attr #1 a memref<2xi129>
set-attr #1 a (i129) -> ()
set-attr #1 a () -> i129
set-attr #1 a () -> (i1, i129)
set-attr #1 a (i1, i129) -> index
set-attr #1 a i130
set-attr #1 a 0 : i130
set-attr #1 a memref<2xi130>
set-attr #1 a array<i130>
set-attr #1 a (i130) -> ()
set-attr #1 a () -> i130
set-attr #1 a () -> (i1, i130)
set-attr #1 a (i1, i130) -> index
set-attr #1 a i255
set-attr #1 a 0 : i255
set-attr #1 a memref<2xi255>
set-attr #1 a array<i255>
set-attr #1 a (i255) -> ()
set-attr #1 a () -> i255
set-attr #1 a () -> (i1, i255)
set-attr #1 a (i1, i255) -> index
set-attr #1 a i256
set-attr #1 a 0 : i256
set-attr #1 a memref<2xi256>
set-attr #1 a array<i256>
set-attr #1 a (i256) -> ()
set-attr #1 a () -> i256
set-attr #1 a () -> (i1, i256)
set-attr #1 a (i1, i256) -> index
set-attr #1 a i999
set-attr #1 a 0 : i999
set-attr #1 a memref<2xi999>
set-attr #1 a array<i999>
set-attr #1 a (i999) -> ()
set-attr #1 a () -> i999
set-attr #1 a () -> (i1, i999)
set-attr #1 a (i1, i999) -> index
set-attr #1 a i1000
set-attr #1 a 0 : i1000
set-attr #1 a memref<2xi1000>
set-attr #1 a array<i1000>
set-attr #1 a (i1000) -> ()
set-attr #1 a () -> i1000
set-attr #1 a () -> (i1, i1000)
set-attr #1 a (i1, i1000) -> index
set-attr #1 a i65536
set-attr #1 a 0 : i65536
set-attr #1 a memref<2xi65536>
set-attr #1 a array<i65536>
set-attr #1 a (i65536) -> ()
set-attr #1 a () -> i65536
set-attr #1 a () -> (i1, i65536)
set-attr #1 a (i1, i65536) -> index
set-attr #1 a i65537
set-attr #1 a 0 : i65537
set-attr #1 a memref<2xi65537>
set-attr #1 a array<i65537>
set-attr #1 a (i65537) -> ()
set-attr #1 a () -> i65537
set-attr #1 a () -> (i1, i65537)
set-attr #1 a (i1, i65537) -> index
set-attr #1 a i4294967295
set-attr #1 a 0 : i4294967295
set-attr #1 a memref<2xi4294967295>
set-attr #1 a array<i4294967295>
set-attr #1 a (i4294967295) -> ()
set-attr #1 a () -> i4294967295
set-attr #1 a () -> (i1, i4294967295)
set-attr #1 a (i1, i4294967295) -> index
set-attr #1 a i4294967296
set-attr #1 a 0 : i4294967296
set-attr #1 a memref<2xi4294967296>
set-attr #1 a array<i4294967296>
set-attr #1 a (i4294967296) -> ()
set-attr #1 a () -> i4294967296
set-attr #1 a () -> (i1, i4294967296)
set-attr #1 a (i1, i4294967296) -> index
set-attr #1 a i4294967297
set-attr #1 a 0 : i4294967297
set-attr #1 a memref<2xi4294967297>
set-attr #1 a array<i4294967297>
set-attr #1 a (i4294967297) -> ()
set-attr #1 a () -> i4294967297
set-attr #1 a () -> (i1, i4294967297)
set-attr #1 a (i1, i4294967297) -> index
set-attr #1 a i4294967304
set-attr #1 a 0 : i4294967304
set-attr #1 a memref<2xi4294967304>
set-attr #1 a array<i4294967304>
set-attr #1 a (i4294967304) -> ()
set-attr #1 a () -> i4294967304
set-attr #1 a () -> (i1, i4294967304)
set-attr #1 a (i1, i4294967304) -> index
set-attr #1 a i18446744073709551615
set-attr #1 a 0 : i18446744073709551615
set-attr #1 a memref<2xi18446744073709551615>
set-attr #1 a array<i18446744073709551615>
set-attr #1 a (i18446744073709551615) -> ()
set-attr #1 a () -> i18446744073709551615
set-attr #1 a () -> (i1, i18446744073709551615)
set-attr #1 a (i1, i18446744073709551615) -> index
set-attr #1 a i18446744073709551616
set-attr #1 a 0 : i18446744073709551616
set-attr #1 a memref<2xi18446744073709551616>
set-attr #1 a array<i18446744073709551616>
set-attr #1 a (i18446744073709551616) -> ()
set-attr #1 a () -> i18446744073709551616
set-attr #1 a () -> (i1, i18446744073709551616)
set-attr #1 a (i1, i18446744073709551616) -> index
set-attr #1 a i18446744073709551624
set-attr #1 a 0 : i18446744073709551624
set-attr #1 a memref<2xi18446744073709551624>
set-attr #1 a array<i18446744073709551624>
set-attr #1 a (i18446744073709551624) -> ()
set-attr #1 a () -> i18446744073709551624
set-attr #1 a () -> (i1, i18446744073709551624)
set-attr #1 a (i1, i18446744073709551624) -> index
set-attr #1 a i340282366920938463463374607431768211464
set-attr #1 a 0 : i340282366920938463463374607431768211464
set-attr #1 a memref<2xi340282366920938463463374607431768211464>
set-attr #1 a array<i340282366920938463463374607431768211464>
set-attr #1 a (i340282366920938463463374607431768211464) -> ()
set-attr #1 a () -> i340282366920938463463374607431768211464
set-attr #1 a () -> (i1, i340282366920938463463374607431768211464)
set-attr #1 a (i1, i340282366920938463463374607431768211464) -> index
set-attr #1 a i10000000000000000000000000000000000000000
set-attr #1 a 0 : i10000000000000000000000000000000000000000
set-attr #1 a memref<2xi10000000000000000000000000000000000000000>
set-attr #1 a array<i10000000000000000000000000000000000000000>
set-attr #1 a (i10000000000000000000000000000000000000000) -> ()
set-attr #1 a () -> i10000000000000000000000000000000000000000
set-attr #1 a () -> (i1, i10000000000000000000000000000000000000000)
set-attr #1 a (i1, i10000000000000000000000000000000000000000) -> index
set-attr #1 a i00
set-attr #1 a 0 : i00
set-attr #1 a memref<2xi00>
set-attr #1 a array<i00>
set-attr #1 a (i00) -> ()
set-attr #1 a () -> i00
set-attr #1 a () -> (i1, i00)
set-attr #1 a (i1, i00) -> index
set-attr #1 a 0 : i01
set-attr #1 a memref<2xi01>
set-attr #1 a array<i01>
set-attr #1 a (i01) -> ()
set-attr #1 a () -> i01
set-attr #1 a () -> (i1, i01)
set-attr #1 a (i1, i01) -> index
set-attr #1 a i08
set-attr #1 a 0 : i08
set-attr #1 a memref<2xi08>
set-attr #1 a (i08) -> ()
set-attr #1 a () -> i08
set-attr #1 a () -> (i1, i08)
set-attr #1 a (i1, i08) -> index
set-attr #1 a i064
set-attr #1 a 0 : i064
set-attr #1 a memref<2xi064>
set-attr #1 a array<i064>
set-attr #1 a (i064) -> ()
set-attr #1 a () -> i064
set-attr #1 a () -> (i1, i064)
set-attr #1 a (i1, i064) -> index
set-attr #1 a i0128
set-attr #1 a 0 : i0128
set-attr #1 a memref<2xi0128>
set-attr #1 a array<i0128>
set-attr #1 a (i0128) -> ()
set-attr #1 a () -> i0128
set-attr #1 a () -> (i1, i0128)
set-attr #1 a (i1, i0128) -> index
set-attr #1 a i0x8
set-attr #1 a 0 : i0x8
set-attr #1 a memref<2xi0x8>
set-attr #1 a array<i0x8>
set-attr #1 a (i0x8) -> ()
set-attr #1 a () -> i0x8
set-attr #1 a () -> (i1, i0x8)
set-attr #1 a (i1, i0x8) -> index
set-attr #1 a i008
set-attr #1 a 0 : i008
set-attr #1 a memref<2xi008>
set-attr #1 a array<i008>
set-attr #1 a (i008) -> ()
set-attr #1 a () -> i008
set-attr #1 a () -> (i1, i008)
set-attr #1 a (i1, i008) -> index
set-attr #1 a i00000000000000000000000000000000000000008
set-attr #1 a 0 : i00000000000000000000000000000000000000008
set-attr #1 a memref<2xi00000000000000000000000000000000000000008>
set-attr #1 a array<i00000000000000000000000000000000000000008>
set-attr #1 a (i00000000000000000000000000000000000000008) -> ()
set-attr #1 a () -> i00000000000000000000000000000000000000008
set-attr #1 a () -> (i1, i00000000000000000000000000000000000000008)
set-attr #1 a (i1, i00000000000000000000000000000000000000008) -> index
set-attr #1 a si0
set-attr #1 a 0 : si0
set-attr #1 a memref<2xsi0>
set-attr #1 a array<si0>
set-attr #1 a (si0) -> ()
set-attr #1 a () -> si0
set-attr #1 a () -> (i1, si0)
set-attr #1 a (i1, si0) -> index
set-attr #1 a si1
print
set-attr #1 a 0 : si1
print
set-attr #1 a memref<2xsi1>
print
set-attr #1 a array<si1>
set-attr #1 a (si1) -> ()
print
set-attr #1 a () -> si1
print
set-attr #1 a () -> (i1, si1)
print
set-attr #1 a (i1, si1) -> index
print
set-attr #1 a si2
print
set-attr #1 a 0 : si2
print
set-attr #1 a memref<2xsi2>
print
set-attr #1 a array<si2>
set-attr #1 a (si2) -> ()
print
set-attr #1 a () -> si2
print
set-attr #1 a () -> (i1, si2)
print
set-attr #1 a (i1, si2) -> index
print
set-attr #1 a si7
print
set-attr #1 a 0 : si7
print
set-attr #1 a memref<2xsi7>
print
set-attr #1 a array<si7>
set-attr #1 a (si7) -> ()
print
set-attr #1 a () -> si7
print
set-attr #1 a () -> (i1, si7)
print
set-attr #1 a (i1, si7) -> index
print
set-attr #1 a si8
print
set-attr #1 a 0 : si8
print
set-attr #1 a memref<2xsi8>
print
set-attr #1 a (si8) -> ()
print
set-attr #1 a () -> si8
print
set-attr #1 a () -> (i1, si8)
print
set-attr #1 a (i1, si8) -> index
print
set-attr #1 a si9
print
set-attr #1 a 0 : si9
print
set-attr #1 a memref<2xsi9>
print
set-attr #1 a array<si9>
set-attr #1 a (si9) -> ()
print
set-attr #1 a () -> si9
print
set-attr #1 a () -> (i1, si9)
print
set-attr #1 a (i1, si9) -> index
print
set-attr #1 a si10
print
set-attr #1 a 0 : si10
print
set-attr #1 a memref<2xsi10>
print
set-attr #1 a array<si10>
set-attr #1 a (si10) -> ()
print
set-attr #1 a () -> si10
print
set-attr #1 a () -> (i1, si10)
print
set-attr #1 a (i1, si10) -> index
print
set-attr #1 a si16
print
set-attr #1 a 0 : si16
print
set-attr #1 a memref<2xsi16>
print
set-attr #1 a array<si16>
set-attr #1 a (si16) -> ()
print
set-attr #1 a () -> si16
print
set-attr #1 a () -> (i1, si16)
print
set-attr #1 a (i1, si16) -> index
print
set-attr #1 a si31
print
set-attr #1 a 0 : si31
print
set-attr #1 a memref<2xsi31>
print
set-attr #1 a array<si31>
set-attr #1 a (si31) -> ()
print
set-attr #1 a () -> si31
print
set-attr #1 a () -> (i1, si31)
print
set-attr #1 a (i1, si31) -> index
print
set-attr #1 a si32
print
set-attr #1 a 0 : si32
print
set-attr #1 a memref<2xsi32>
print
set-attr #1 a array<si32>
set-attr #1 a (si32) -> ()
print
set-attr #1 a () -> si32
print
set-attr #1 a () -> (i1, si32)
print
set-attr #1 a (i1, si32) -> index
print
set-attr #1 a si33
print
set-attr #1 a 0 : si33
print
set-attr #1 a memref<2xsi33>
print
set-attr #1 a array<si33>
set-attr #1 a (si33) -> ()
print
set-attr #1 a () -> si33
print
set-attr #1 a () -> (i1, si33)
print
set-attr #1 a (i1, si33) -> index
print
set-attr #1 a si63
print
set-attr #1 a 0 : si63
print
set-attr #1 a memref<2xsi63>
print
set-attr #1 a array<si63>
set-attr #1 a (si63) -> ()
print
set-attr #1 a () -> si63
print
set-attr #1 a () -> (i1, si63)
print
set-attr #1 a (i1, si63) -> index
print
set-attr #1 a si64
print
set-attr #1 a 0 : si64
print
set-attr #1 a memref<2xsi64>
print
set-attr #1 a array<si64>
set-attr #1 a (si64) -> ()
print
set-attr #1 a () -> si64
print
set-attr #1 a () -> (i1, si64)
print
set-attr #1 a (i1, si64) -> index
print
set-attr #1 a si65
print
set-attr #1 a 0 : si65
print
set-attr #1 a memref<2xsi65>
print
set-attr #1 a array<si65>
set-attr #1 a (si65) -> ()
print
set-attr #1 a () -> si65
print
set-attr #1 a () -> (i1, si65)
print
set-attr #1 a (i1, si65) -> index
print
set-attr #1 a si66
print
set-attr #1 a 0 : si66
print
set-attr #1 a memref<2xsi66>
print
set-attr #1 a array<si66>
set-attr #1 a (si66) -> ()
print
set-attr #1 a () -> si66
print
set-attr #1 a () -> (i1, si66)
print
set-attr #1 a (i1, si66) -> index
print
set-attr #1 a si99
print
set-attr #1 a 0 : si99
print
set-attr #1 a memref<2xsi99>
print
set-attr #1 a array<si99>
set-attr #1 a (si99) -> ()
print
set-attr #1 a () -> si99
print
set-attr #1 a () -> (i1, si99)
print
set-attr #1 a (i1, si99) -> index
print
set-attr #1 a si100
print
set-attr #1 a 0 : si100
print
set-attr #1 a memref<2xsi100>
print
set-attr #1 a array<si100>
set-attr #1 a (si100) -> ()
print
set-attr #1 a () -> si100
print
set-attr #1 a () -> (i1, si100)
print
set-attr #1 a (i1, si100) -> index
print
set-attr #1 a si127
print
set-attr #1 a 0 : si127
print
set-attr #1 a memref<2xsi127>
print
set-attr #1 a array<si127>
set-attr #1 a (si127) -> ()
print
set-attr #1 a () -> si127
print
set-attr #1 a () -> (i1, si127)
print
set-attr #1 a (i1, si127) -> index
print
set-attr #1 a si128
print
set-attr #1 a 0 : si128
print
set-attr #1 a memref<2xsi128>
print
set-attr #1 a array<si128>
set-attr #1 a (si128) -> ()
print
set-attr #1 a () -> si128
print
set-attr #1 a () -> (i1, si128)
print
set-attr #1 a (i1, si128) -> index
print
set-attr #1 a si129
set-attr #1 a 0 : si129
set-attr #1 a memref<2xsi129>
set-attr #1 a array<si129>
set-attr #1 a (si129) -> ()
set-attr #1 a () -> si129
set-attr #1 a () -> (i1, si129)
set-attr #1 a (i1, si129) -> index
set-attr #1 a si130
set-attr #1 a 0 : si130
set-attr #1 a memref<2xsi130>
set-attr #1 a array<si130>
set-attr #1 a (si130) -> ()
set-attr #1 a () -> si130
set-attr #1 a () -> (i1, si130)
set-attr #1 a (i1, si130) -> index
set-attr #1 a si255
set-attr #1 a 0 : si255
set-attr #1 a memref<2xsi255>
set-attr #1 a array<si255>
set-attr #1 a (si255) -> ()
set-attr #1 a () -> si255
set-attr #1 a () -> (i1, si255)
set-attr #1 a (i1, si255) -> index
set-attr #1 a si256
set-attr #1 a 0 : si256
set-attr #1 a memref<2xsi256>
set-attr #1 a array<si256>
set-attr #1 a (si256) -> ()
set-attr #1 a () -> si256
set-attr #1 a () -> (i1, si256)
set-attr #1 a (i1, si256) -> index
set-attr #1 a si999
set-attr #1 a 0 : si999
set-attr #1 a memref<2xsi999>
set-attr #1 a array<si999>
set-attr #1 a (si999) -> ()
set-attr #1 a () -> si999
set-attr #1 a () -> (i1, si999)
set-attr #1 a (i1, si999) -> index
set-attr #1 a si1000
set-attr #1 a 0 : si1000
set-attr #1 a memref<2xsi1000>
set-attr #1 a array<si1000>
set-attr #1 a (si1000) -> ()
set-attr #1 a () -> si1000
set-attr #1 a () -> (i1, si1000)
set-attr #1 a (i1, si1000) -> index
set-attr #1 a si65536
set-attr #1 a 0 : si65536
set-attr #1 a memref<2xsi65536>
set-attr #1 a array<si65536>
set-attr #1 a (si65536) -> ()
set-attr #1 a () -> si65536
set-attr #1 a () -> (i1, si65536)
set-attr #1 a (i1, si65536) -> index
set-attr #1 a si65537
set-attr #1 a 0 : si65537
set-attr #1 a memref<2xsi65537>
set-attr #1 a array<si65537>
set-attr #1 a (si65537) -> ()
set-attr #1 a () -> si65537
set-attr #1 a () -> (i1, si65537)
set-attr #1 a (i1, si65537) -> index
set-attr #1 a si4294967295
set-attr #1 a 0 : si4294967295
set-attr #1 a memref<2xsi4294967295>
set-attr #1 a array<si4294967295>
set-attr #1 a (si4294967295) -> ()
set-attr #1 a () -> si4294967295
set-attr #1 a () -> (i1, si4294967295)
set-attr #1 a (i1, si4294967295) -> index
set-attr #1 a si4294967296
set-attr #1 a 0 : si4294967296
set-attr #1 a memref<2xsi4294967296>
set-attr #1 a array<si4294967296>
set-attr #1 a (si4294967296) -> ()
set-attr #1 a () -> si4294967296
set-attr #1 a () -> (i1, si4294967296)
set-attr #1 a (i1, si4294967296) -> index
set-attr #1 a si4294967297
set-attr #1 a 0 : si4294967297
set-attr #1 a memref<2xsi4294967297>
set-attr #1 a array<si4294967297>
set-attr #1 a (si4294967297) -> ()
set-attr #1 a () -> si4294967297
set-attr #1 a () -> (i1, si4294967297)
set-attr #1 a (i1, si4294967297) -> index
set-attr #1 a si4294967304
set-attr #1 a 0 : si4294967304
set-attr #1 a memref<2xsi4294967304>
set-attr #1 a array<si4294967304>
set-attr #1 a (si4294967304) -> ()
set-attr #1 a () -> si4294967304
set-attr #1 a () -> (i1, si4294967304)
set-attr #1 a (i1, si4294967304) -> index
set-attr #1 a si18446744073709551615
set-attr #1 a 0 : si18446744073709551615
set-attr #1 a memref<2xsi18446744073709551615>
set-attr #1 a array<si18446744073709551615>
set-attr #1 a (si18446744073709551615) -> ()
set-attr #1 a () -> si18446744073709551615
set-attr #1 a () -> (i1, si18446744073709551615)
set-attr #1 a (i1, si18446744073709551615) -> index
set-attr #1 a si18446744073709551616
set-attr #1 a 0 : si18446744073709551616
set-attr #1 a memref<2xsi18446744073709551616>
set-attr #1 a array<si18446744073709551616>
set-attr #1 a (si18446744073709551616) -> ()
set-attr #1 a () -> si18446744073709551616
set-attr #1 a () -> (i1, si18446744073709551616)
set-attr #1 a (i1, si18446744073709551616) -> index
set-attr #1 a si18446744073709551624
set-attr #1 a 0 : si18446744073709551624
set-attr #1 a memref<2xsi18446744073709551624>
set-attr #1 a array<si18446744073709551624>
set-attr #1 a (si18446744073709551624) -> ()
set-attr #1 a () -> si18446744073709551624
set-attr #1 a () -> (i1, si18446744073709551624)
set-attr #1 a (i1, si18446744073709551624) -> index
set-attr #1 a si340282366920938463463374607431768211464
set-attr #1 a 0 : si340282366920938463463374607431768211464
set-attr #1 a memref<2xsi340282366920938463463374607431768211464>
set-attr #1 a array<si340282366920938463463374607431768211464>
set-attr #1 a (si340282366920938463463374607431768211464) -> ()
set-attr #1 a () -> si340282366920938463463374607431768211464
set-attr #1 a () -> (i1, si340282366920938463463374607431768211464)
set-attr #1 a (i1, si340282366920938463463374607431768211464) -> index
set-attr #1 a si10000000000000000000000000000000000000000
set-attr #1 a 0 : si10000000000000000000000000000000000000000
set-attr #1 a memref<2xsi10000000000000000000000000000000000000000>
set-attr #1 a array<si10000000000000000000000000000000000000000>
set-attr #1 a (si10000000000000000000000000000000000000000) -> ()
set-attr #1 a () -> si10000000000000000000000000000000000000000
set-attr #1 a () -> (i1, si10000000000000000000000000000000000000000)
set-attr #1 a (i1, si10000000000000000000000000000000000000000) -> index
set-attr #1 a si00
set-attr #1 a 0 : si00
set-attr #1 a memref<2xsi00>
set-attr #1 a array<si00>
set-attr #1 a (si00) -> ()
set-attr #1 a () -> si00
set-attr #1 a () -> (i1, si00)
set-attr #1 a (i1, si00) -> index
set-attr #1 a si01
set-attr #1 a 0 : si01
set-attr #1 a memref<2xsi01>
set-attr #1 a array<si01>
set-attr #1 a (si01) -> ()
set-attr #1 a () -> si01
set-attr #1 a () -> (i1, si01)
set-attr #1 a (i1, si01) -> index
set-attr #1 a si08
set-attr #1 a 0 : si08
set-attr #1 a memref<2xsi08>
set-attr #1 a array<si08>
set-attr #1 a (si08) -> ()
set-attr #1 a () -> si08
set-attr #1 a () -> (i1, si08)
set-attr #1 a (i1, si08) -> index
set-attr #1 a si064
set-attr #1 a 0 : si064
set-attr #1 a memref<2xsi064>
set-attr #1 a array<si064>
set-attr #1 a (si064) -> ()
set-attr #1 a () -> si064
set-attr #1 a () -> (i1, si064)
set-attr #1 a (i1, si064) -> index
set-attr #1 a si0128
set-attr #1 a 0 : si0128
set-attr #1 a memref<2xsi0128>
set-attr #1 a array<si0128>
set-attr #1 a (si0128) -> ()
set-attr #1 a () -> si0128
set-attr #1 a () -> (i1, si0128)
set-attr #1 a (i1, si0128) -> index
set-attr #1 a si0x8
set-attr #1 a 0 : si0x8
set-attr #1 a memref<2xsi0x8>
set-attr #1 a array<si0x8>
set-attr #1 a (si0x8) -> ()
set-attr #1 a () -> si0x8
set-attr #1 a () -> (i1, si0x8)
set-attr #1 a (i1, si0x8) -> index
set-attr #1 a si008
set-attr #1 a 0 : si008
set-attr #1 a memref<2xsi008>
set-attr #1 a array<si008>
set-attr #1 a (si008) -> ()
set-attr #1 a () -> si008
set-attr #1 a () -> (i1, si008)
set-attr #1 a (i1, si008) -> index
set-attr #1 a si00000000000000000000000000000000000000008
set-attr #1 a 0 : si00000000000000000000000000000000000000008
set-attr #1 a memref<2xsi00000000000000000000000000000000000000008>
set-attr #1 a array<si00000000000000000000000000000000000000008>
set-attr #1 a (si00000000000000000000000000000000000000008) -> ()
set-attr #1 a () -> si00000000000000000000000000000000000000008
set-attr #1 a () -> (i1, si00000000000000000000000000000000000000008)
set-attr #1 a (i1, si00000000000000000000000000000000000000008) -> index
set-attr #1 a ui0
set-attr #1 a 0 : ui0
set-attr #1 a memref<2xui0>
set-attr #1 a array<ui0>
set-attr #1 a (ui0) -> ()
set-attr #1 a () -> ui0
set-attr #1 a () -> (i1, ui0)
set-attr #1 a (i1, ui0) -> index
set-attr #1 a ui1
print
set-attr #1 a 0 : ui1
print
set-attr #1 a memref<2xui1>
print
set-attr #1 a array<ui1>
set-attr #1 a (ui1) -> ()
print
set-attr #1 a () -> ui1
print
set-attr #1 a () -> (i1, ui1)
print
set-attr #1 a (i1, ui1) -> index
print
set-attr #1 a ui2
print
set-attr #1 a 0 : ui2
print
set-attr #1 a memref<2xui2>
print
set-attr #1 a array<ui2>
set-attr #1 a (ui2) -> ()
print
set-attr #1 a () -> ui2
print
set-attr #1 a () -> (i1, ui2)
print
set-attr #1 a (i1, ui2) -> index
print
set-attr #1 a ui7
print
set-attr #1 a 0 : ui7
print
set-attr #1 a memref<2xui7>
print
set-attr #1 a array<ui7>
set-attr #1 a (ui7) -> ()
print
set-attr #1 a () -> ui7
print
set-attr #1 a () -> (i1, ui7)
print
set-attr #1 a (i1, ui7) -> index
print
set-attr #1 a ui8
print
set-attr #1 a 0 : ui8
print
set-attr #1 a memref<2xui8>
print
set-attr #1 a array<ui8>
set-attr #1 a (ui8) -> ()
print
set-attr #1 a () -> ui8
print
set-attr #1 a () -> (i1, ui8)
print
set-attr #1 a (i1, ui8) -> index
print
set-attr #1 a ui9
print
set-attr #1 a 0 : ui9
print
set-attr #1 a memref<2xui9>
print
set-attr #1 a array<ui9>
set-attr #1 a (ui9) -> ()
print
set-attr #1 a () -> ui9
print
set-attr #1 a () -> (i1, ui9)
print
set-attr #1 a (i1, ui9) -> index
print
set-attr #1 a ui10
print
set-attr #1 a 0 : ui10
print
set-attr #1 a memref<2xui10>
print
set-attr #1 a array<ui10>
set-attr #1 a (ui10) -> ()
print
set-attr #1 a () -> ui10
print
set-attr #1 a () -> (i1, ui10)
print
set-attr #1 a (i1, ui10) -> index
print
set-attr #1 a ui16
print
set-attr #1 a 0 : ui16
print
set-attr #1 a memref<2xui16>
print
set-attr #1 a array<ui16>
set-attr #1 a (ui16) -> ()
print
set-attr #1 a () -> ui16
print
set-attr #1 a () -> (i1, ui16)
print
set-attr #1 a (i1, ui16) -> index
print
set-attr #1 a ui31
print
set-attr #1 a 0 : ui31
print
set-attr #1 a memref<2xui31>
print
set-attr #1 a array<ui31>
set-attr #1 a (ui31) -> ()
print
set-attr #1 a () -> ui31
print
set-attr #1 a () -> (i1, ui31)
print
set-attr #1 a (i1, ui31) -> index
print
set-attr #1 a ui32
print
set-attr #1 a 0 : ui32
print
set-attr #1 a memref<2xui32>
print
set-attr #1 a array<ui32>
set-attr #1 a (ui32) -> ()
print
set-attr #1 a () -> ui32
print
set-attr #1 a () -> (i1, ui32)
print
set-attr #1 a (i1, ui32) -> index
print
set-attr #1 a ui33
print
set-attr #1 a 0 : ui33
print
set-attr #1 a memref<2xui33>
print
set-attr #1 a array<ui33>
set-attr #1 a (ui33) -> ()
print
set-attr #1 a () -> ui33
print
set-attr #1 a () -> (i1, ui33)
print
set-attr #1 a (i1, ui33) -> index
print
set-attr #1 a ui63
print
set-attr #1 a 0 : ui63
print
set-attr #1 a memref<2xui63>
print
set-attr #1 a array<ui63>
set-attr #1 a (ui63) -> ()
print
set-attr #1 a () -> ui63
print
set-attr #1 a () -> (i1, ui63)
print
set-attr #1 a (i1, ui63) -> index
print
set-attr #1 a ui64
print
set-attr #1 a 0 : ui64
print
set-attr #1 a memref<2xui64>
print
set-attr #1 a array<ui64>
set-attr #1 a (ui64) -> ()
print
set-attr #1 a () -> ui64
print
set-attr #1 a () -> (i1, ui64)
print
set-attr #1 a (i1, ui64) -> index
print
set-attr #1 a ui65
print
set-attr #1 a 0 : ui65
print
set-attr #1 a memref<2xui65>
print
set-attr #1 a array<ui65>
set-attr #1 a (ui65) -> ()
print
set-attr #1 a () -> ui65
print
set-attr #1 a () -> (i1, ui65)
print
set-attr #1 a (i1, ui65) -> index
print
set-attr #1 a ui66
print
set-attr #1 a 0 : ui66
print
set-attr #1 a memref<2xui66>
print
set-attr #1 a array<ui66>
set-attr #1 a (ui66) -> ()
print
set-attr #1 a () -> ui66
print
set-attr #1 a () -> (i1, ui66)
print
set-attr #1 a (i1, ui66) -> index
print
set-attr #1 a ui99
print
set-attr #1 a 0 : ui99
print
set-attr #1 a memref<2xui99>
print
set-attr #1 a array<ui99>
set-attr #1 a (ui99) -> ()
print
set-attr #1 a () -> ui99
print
set-attr #1 a () -> (i1, ui99)
print
set-attr #1 a (i1, ui99) -> index
print
set-attr #1 a ui100
print
set-attr #1 a 0 : ui100
print
set-attr #1 a memref<2xui100>
print
set-attr #1 a array<ui100>
set-attr #1 a (ui100) -> ()
print
set-attr #1 a () -> ui100
print
set-attr #1 a () -> (i1, ui100)
print
set-attr #1 a (i1, ui100) -> index
print
set-attr #1 a ui127
print
set-attr #1 a 0 : ui127
print
set-attr #1 a memref<2xui127>
print
set-attr #1 a array<ui127>
set-attr #1 a (ui127) -> ()
print
set-attr #1 a () -> ui127
print
set-attr #1 a () -> (i1, ui127)
print
set-attr #1 a (i1, ui127) -> index
print
set-attr #1 a ui128
print
set-attr #1 a 0 : ui128
print
set-attr #1 a memref<2xui128>
print
set-attr #1 a array<ui128>
set-attr #1 a (ui128) -> ()
print
set-attr #1 a () -> ui128
print
set-attr #1 a () -> (i1, ui128)
print
set-attr #1 a (i1, ui128) -> index
print
set-attr #1 a ui129
set-attr #1 a 0 : ui129
set-attr #1 a memref<2xui129>
set-attr #1 a array<ui129>
set-attr #1 a (ui129) -> ()
set-attr #1 a () -> ui129
set-attr #1 a () -> (i1, ui129)
set-attr #1 a (i1, ui129) -> index
set-attr #1 a ui130
set-attr #1 a 0 : ui130
set-attr #1 a memref<2xui130>
set-attr #1 a array<ui130>
set-attr #1 a (ui130) -> ()
set-attr #1 a () -> ui130
set-attr #1 a () -> (i1, ui130)
set-attr #1 a (i1, ui130) -> index
set-attr #1 a ui255
set-attr #1 a 0 : ui255
set-attr #1 a memref<2xui255>
set-attr #1 a array<ui255>
set-attr #1 a (ui255) -> ()
set-attr #1 a () -> ui255
set-attr #1 a () -> (i1, ui255)
set-attr #1 a (i1, ui255) -> index
set-attr #1 a ui256
set-attr #1 a 0 : ui256
set-attr #1 a memref<2xui256>
set-attr #1 a array<ui256>
set-attr #1 a (ui256) -> ()
set-attr #1 a () -> ui256
set-attr #1 a () -> (i1, ui256)
set-attr #1 a (i1, ui256) -> index
set-attr #1 a ui999
set-attr #1 a 0 : ui999
set-attr #1 a memref<2xui999>
set-attr #1 a array<ui999>
set-attr #1 a (ui999) -> ()
set-attr #1 a () -> ui999
set-attr #1 a () -> (i1, ui999)
set-attr #1 a (i1, ui999) -> index
set-attr #1 a ui1000
set-attr #1 a 0 : ui1000
set-attr #1 a memref<2xui1000>
set-attr #1 a array<ui1000>
set-attr #1 a (ui1000) -> ()
set-attr #1 a () -> ui1000
set-attr #1 a () -> (i1, ui1000)
set-attr #1 a (i1, ui1000) -> index
set-attr #1 a ui65536
set-attr #1 a 0 : ui65536
set-attr #1 a memref<2xui65536>
set-attr #1 a array<ui65536>
set-attr #1 a (ui65536) -> ()
set-attr #1 a () -> ui65536
set-attr #1 a () -> (i1, ui65536)
set-attr #1 a (i1, ui65536) -> index
set-attr #1 a ui65537
set-attr #1 a 0 : ui65537
set-attr #1 a memref<2xui65537>
set-attr #1 a array<ui65537>
set-attr #1 a (ui65537) -> ()
set-attr #1 a () -> ui65537
set-attr #1 a () -> (i1, ui65537)
set-attr #1 a (i1, ui65537) -> index
set-attr #1 a ui4294967295
set-attr #1 a 0 : ui4294967295
set-attr #1 a memref<2xui4294967295>
set-attr #1 a array<ui4294967295>
set-attr #1 a (ui4294967295) -> ()
set-attr #1 a () -> ui4294967295
set-attr #1 a () -> (i1, ui4294967295)
set-attr #1 a (i1, ui4294967295) -> index
set-attr #1 a ui4294967296
set-attr #1 a 0 : ui4294967296
set-attr #1 a memref<2xui4294967296>
set-attr #1 a array<ui4294967296>
set-attr #1 a (ui4294967296) -> ()
set-attr #1 a () -> ui4294967296
set-attr #1 a () -> (i1, ui4294967296)
set-attr #1 a (i1, ui4294967296) -> index
set-attr #1 a ui4294967297
set-attr #1 a 0 : ui4294967297
set-attr #1 a memref<2xui4294967297>
set-attr #1 a array<ui4294967297>
set-attr #1 a (ui4294967297) -> ()
set-attr #1 a () -> ui4294967297
set-attr #1 a () -> (i1, ui4294967297)
set-attr #1 a (i1, ui4294967297) -> index
set-attr #1 a ui4294967304
set-attr #1 a 0 : ui4294967304
set-attr #1 a memref<2xui4294967304>
set-attr #1 a array<ui4294967304>
set-attr #1 a (ui4294967304) -> ()
set-attr #1 a () -> ui4294967304
set-attr #1 a () -> (i1, ui4294967304)
set-attr #1 a (i1, ui4294967304) -> index
set-attr #1 a ui18446744073709551615
set-attr #1 a 0 : ui18446744073709551615
set-attr #1 a memref<2xui18446744073709551615>
set-attr #1 a array<ui18446744073709551615>
set-attr #1 a (ui18446744073709551615) -> ()
set-attr #1 a () -> ui18446744073709551615
set-attr #1 a () -> (i1, ui18446744073709551615)
set-attr #1 a (i1, ui18446744073709551615) -> index
set-attr #1 a ui18446744073709551616
set-attr #1 a 0 : ui18446744073709551616
set-attr #1 a memref<2xui18446744073709551616>
set-attr #1 a array<ui18446744073709551616>
set-attr #1 a (ui18446744073709551616) -> ()
set-attr #1 a () -> ui18446744073709551616
set-attr #1 a () -> (i1, ui18446744073709551616)
set-attr #1 a (i1, ui18446744073709551616) -> index
set-attr #1 a ui18446744073709551624
set-attr #1 a 0 : ui18446744073709551624
set-attr #1 a memref<2xui18446744073709551624>
set-attr #1 a array<ui18446744073709551624>
set-attr #1 a (ui18446744073709551624) -> ()
set-attr #1 a () -> ui18446744073709551624
set-attr #1 a () -> (i1, ui18446744073709551624)
set-attr #1 a (i1, ui18446744073709551624) -> index
set-attr #1 a ui340282366920938463463374607431768211464
set-attr #1 a 0 : ui340282366920938463463374607431768211464
set-attr #1 a memref<2xui340282366920938463463374607431768211464>
set-attr #1 a array<ui340282366920938463463374607431768211464>
set-attr #1 a (ui340282366920938463463374607431768211464) -> ()
set-attr #1 a () -> ui340282366920938463463374607431768211464
set-attr #1 a () -> (i1, ui340282366920938463463374607431768211464)
set-attr #1 a (i1, ui340282366920938463463374607431768211464) -> index
set-attr #1 a ui10000000000000000000000000000000000000000
set-attr #1 a 0 : ui10000000000000000000000000000000000000000
set-attr #1 a memref<2xui10000000000000000000000000000000000000000>
set-attr #1 a array<ui10000000000000000000000000000000000000000>
set-attr #1 a (ui10000000000000000000000000000000000000000) -> ()
set-attr #1 a () -> ui10000000000000000000000000000000000000000
set-attr #1 a () -> (i1, ui10000000000000000000000000000000000000000)
set-attr #1 a (i1, ui10000000000000000000000000000000000000000) -> index
set-attr #1 a ui00
set-attr #1 a 0 : ui00
set-attr #1 a memref<2xui00>
set-attr #1 a array<ui00>
set-attr #1 a (ui00) -> ()
set-attr #1 a () -> ui00
set-attr #1 a () -> (i1, ui00)
set-attr #1 a (i1, ui00) -> index
set-attr #1 a ui01
set-attr #1 a 0 : ui01
set-attr #1 a memref<2xui01>
set-attr #1 a (ui01) -> ()
set-attr #1 a () -> ui01
set-attr #1 a () -> (i1, ui01)
set-attr #1 a (i1, ui01) -> index
set-attr #1 a ui08
set-attr #1 a 0 : ui08
set-attr #1 a memref<2xui08>
set-attr #1 a array<ui08>
set-attr #1 a (ui08) -> ()
set-attr #1 a () -> ui08
set-attr #1 a () -> (i1, ui08)
set-attr #1 a (i1, ui08) -> index
set-attr #1 a ui064
set-attr #1 a 0 : ui064
set-attr #1 a memref<2xui064>
set-attr #1 a array<ui064>
set-attr #1 a (ui064) -> ()
set-attr #1 a () -> ui064
set-attr #1 a () -> (i1, ui064)
set-attr #1 a (i1, ui064) -> index
set-attr #1 a ui0128
set-attr #1 a 0 : ui0128
set-attr #1 a memref<2xui0128>
set-attr #1 a array<ui0128>
set-attr #1 a (ui0128) -> ()
set-attr #1 a () -> ui0128
set-attr #1 a () -> (i1, ui0128)
set-attr #1 a (i1, ui0128) -> index
set-attr #1 a ui0x8
set-attr #1 a 0 : ui0x8
set-attr #1 a memref<2xui0x8>
set-attr #1 a array<ui0x8>
set-attr #1 a (ui0x8) -> ()
set-attr #1 a () -> ui0x8
set-attr #1 a () -> (i1, ui0x8)
set-attr #1 a (i1, ui0x8) -> index
set-attr #1 a ui008
set-attr #1 a 0 : ui008
set-attr #1 a memref<2xui008>
set-attr #1 a array<ui008>
set-attr #1 a (ui008) -> ()
set-attr #1 a () -> ui008
set-attr #1 a () -> (i1, ui008)
set-attr #1 a (i1, ui008) -> index
set-attr #1 a ui00000000000000000000000000000000000000008
set-attr #1 a 0 : ui00000000000000000000000000000000000000008
set-attr #1 a memref<2xui00000000000000000000000000000000000000008>
set-attr #1 a array<ui00000000000000000000000000000000000000008>
set-attr #1 a (ui00000000000000000000000000000000000000008) -> ()
set-attr #1 a () -> ui00000000000000000000000000000000000000008
set-attr #1 a () -> (i1, ui00000000000000000000000000000000000000008)
set-attr #1 a (i1, ui00000000000000000000000000000000000000008) -> index
