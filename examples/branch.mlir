"builtin.module"() ({
  "func.func"() <{function_type = (memref<16xi32>, index, i32) -> i32, sym_name = "store"}> ({
  ^bb0(%arg0: memref<16xi32>, %arg1: index, %arg2: i32):
    %0 = "arith.constant"() <{value = 32 : i32}> : () -> i32
    %1 = "arith.constant"() <{value = 16 : i32}> : () -> i32
    %2 = "arith.cmpi"(%0, %1) <{predicate = 8 : i64}> : (i32, i32) -> i1
    %3 = "scf.if"(%2) ({
      %5 = "memref.load"(%arg0, %arg1) : (memref<16xi32>, index) -> i32
      %6 = "arith.addi"(%5, %arg2) <{overflowFlags = #arith.overflow<none>}> : (i32, i32) -> i32
      "memref.store"(%6, %arg0, %arg1) : (i32, memref<16xi32>, index) -> ()
      "scf.yield"(%6) : (i32) -> ()
    }, {
      %4 = "arith.andi"(%arg2, %1) : (i32, i32) -> i32
      "scf.yield"(%4) : (i32) -> ()
    }) : (i1) -> i32
    "func.return"(%3) : (i32) -> ()
  }) : () -> ()
}) : () -> ()

