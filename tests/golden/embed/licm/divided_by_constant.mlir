"builtin.module"() ({
  "func.func"() <{function_type = (index, i32, i32, memref<?xi32>) -> (), sym_name = "f"}> ({
  ^bb0(%arg0: index, %arg1: i32, %arg2: i32, %arg3: memref<?xi32>):
    %0 = "arith.constant"() <{value = 0 : index}> : () -> index
    %1 = "arith.constant"() <{value = 1 : index}> : () -> index
    "scf.for"(%0, %arg0, %1) ({
    ^bb0(%arg4: index):
      %2 = "arith.constant"() <{value = 3 : i32}> : () -> i32
      %3 = "arith.divui"(%arg1, %2) : (i32, i32) -> i32
      %4 = "arith.divsi"(%arg2, %2) : (i32, i32) -> i32
      %5 = "arith.ceildivsi"(%3, %2) : (i32, i32) -> i32
      %6 = "arith.floordivsi"(%4, %2) : (i32, i32) -> i32
      %7 = "arith.addi"(%5, %6) <{overflowFlags = #arith.overflow<none>}> : (i32, i32) -> i32
      "memref.store"(%7, %arg3, %arg4) : (i32, memref<?xi32>, index) -> ()
      "scf.yield"() : () -> ()
    }) : (index, index, index) -> ()
    "func.return"() : () -> ()
  }) : () -> ()
}) : () -> ()
