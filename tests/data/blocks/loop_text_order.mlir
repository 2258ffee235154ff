"builtin.module"() ({
  "func.func"() <{function_type = (i32) -> i32, sym_name = "count"}> ({
  ^bb0(%arg0: i32):
    %0 = "arith.constant"() <{value = 0 : i32}> : () -> i32
    "cf.br"(%0)[^bb3] : (i32) -> ()
  ^bb1:  // pred: ^bb3
    "func.return"(%3) : (i32) -> ()
  ^bb2:  // pred: ^bb3
    %1 = "arith.constant"() <{value = 1 : i32}> : () -> i32
    %2 = "arith.addi"(%3, %1) <{overflowFlags = #arith.overflow<none>}> : (i32, i32) -> i32
    "cf.br"(%2)[^bb3] : (i32) -> ()
  ^bb3(%3: i32):  // 2 preds: ^bb0, ^bb2
    %4 = "arith.cmpi"(%3, %arg0) <{predicate = 2 : i64}> : (i32, i32) -> i1
    "cf.cond_br"(%4)[^bb2, ^bb1] <{operandSegmentSizes = array<i32: 1, 0, 0>}> : (i1) -> ()
  }) : () -> ()
}) : () -> ()
