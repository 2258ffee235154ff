"builtin.module"() ({
  "func.func"() <{function_type = (index, i32, i32, memref<?xi32>, i1) -> (), sym_name = "f"}> ({
  ^bb0(%arg0: index, %arg1: i32, %arg2: i32, %arg3: memref<?xi32>, %arg4: i1):
    %0 = "arith.constant"() <{value = 0 : index}> : () -> index
    %1 = "arith.constant"() <{value = 1 : index}> : () -> index
    "scf.for"(%0, %arg0, %1) ({
    ^bb0(%arg5: index):
      %2 = "arith.index_cast"(%arg5) : (index) -> i32
      %3 = "scf.if"(%arg4) ({
        %4 = "arith.addi"(%2, %arg2) <{overflowFlags = #arith.overflow<none>}> : (i32, i32) -> i32
        "scf.yield"(%4) : (i32) -> ()
      }, {
        "scf.yield"(%arg2) : (i32) -> ()
      }) : (i1) -> i32
      %5 = "scf.if"(%arg4) ({
        %6 = "arith.divui"(%arg1, %arg2) : (i32, i32) -> i32
        "scf.yield"(%6) : (i32) -> ()
      }, {
        "scf.yield"(%arg2) : (i32) -> ()
      }) : (i1) -> i32
      %7 = "arith.addi"(%3, %5) <{overflowFlags = #arith.overflow<none>}> : (i32, i32) -> i32
      "memref.store"(%7, %arg3, %arg5) : (i32, memref<?xi32>, index) -> ()
      "scf.yield"() : () -> ()
    }) : (index, index, index) -> ()
    "func.return"() : () -> ()
  }) : () -> ()
}) : () -> ()
