"builtin.module"() ({
  "func.func"() <{function_type = (index, i32, i32, memref<?xi32>) -> (), sym_name = "f"}> ({
  ^bb0(%arg0: index, %arg1: i32, %arg2: i32, %arg3: memref<?xi32>):
    %0 = "arith.constant"() <{value = 0 : index}> : () -> index
    %1 = "arith.constant"() <{value = 1 : index}> : () -> index
    "scf.for"(%0, %arg0, %1) ({
    ^bb0(%arg4: index):
      %2 = "arith.extsi"(%arg1) : (i32) -> i64
      %3 = "arith.trunci"(%2) <{overflowFlags = #arith.overflow<none>}> : (i64) -> i16
      %4 = "arith.extui"(%3) : (i16) -> i32
      %5 = "arith.cmpi"(%arg1, %arg2) <{predicate = 6 : i64}> : (i32, i32) -> i1
      %6 = "arith.select"(%5, %4, %arg2) : (i1, i32, i32) -> i32
      "memref.store"(%6, %arg3, %arg4) : (i32, memref<?xi32>, index) -> ()
      "scf.yield"() : () -> ()
    }) : (index, index, index) -> ()
    "func.return"() : () -> ()
  }) : () -> ()
}) : () -> ()
