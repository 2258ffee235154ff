"builtin.module"() ({
  "func.func"() <{function_type = (i1, index, i32) -> i32, sym_name = "sum"}> ({
  ^bb0(%arg0: i1, %arg1: index, %arg2: i32):
    %0 = "arith.constant"() <{value = 0 : index}> : () -> index
    %1 = "arith.constant"() <{value = 1 : index}> : () -> index
    "cf.cond_br"(%arg0)[^bb1, ^bb2] <{operandSegmentSizes = array<i32: 1, 0, 0>}> : (i1) -> ()
  ^bb1:  // pred: ^bb0
    %2 = "scf.for"(%0, %arg1, %1, %arg2) ({
    ^bb0(%arg3: index, %arg4: i32):
      %3 = "arith.addi"(%arg4, %arg2) <{overflowFlags = #arith.overflow<none>}> : (i32, i32) -> i32
      %4 = "scf.if"(%arg0) ({
        "scf.yield"(%3) : (i32) -> ()
      }, {
        "scf.yield"(%arg4) : (i32) -> ()
      }) : (i1) -> i32
      "scf.yield"(%4) : (i32) -> ()
    }) : (index, index, index, i32) -> i32
    "func.return"(%2) : (i32) -> ()
  ^bb2:  // pred: ^bb0
    "func.return"(%arg2) : (i32) -> ()
  }) : () -> ()
}) : () -> ()
