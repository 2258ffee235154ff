"builtin.module"() ({
  "func.func"() <{function_type = (i32) -> i32, sym_name = "left_behind"}> ({
  ^bb0(%arg0: i32):
    "cf.br"(%arg0)[^bb4] : (i32) -> ()
  ^bb1:  // no predecessors
    %0 = "arith.addi"(%2, %2) <{overflowFlags = #arith.overflow<none>}> : (i32, i32) -> i32
    "cf.br"(%0)[^bb4] : (i32) -> ()
  ^bb2(%1: i32):  // pred: ^bb3
    "cf.br"()[^bb3] : () -> ()
  ^bb3:  // pred: ^bb2
    "cf.br"(%1)[^bb2] : (i32) -> ()
  ^bb4(%2: i32):  // 2 preds: ^bb0, ^bb1
    %3 = "arith.muli"(%2, %2) <{overflowFlags = #arith.overflow<none>}> : (i32, i32) -> i32
    "func.return"(%3) : (i32) -> ()
  }) : () -> ()
}) : () -> ()
