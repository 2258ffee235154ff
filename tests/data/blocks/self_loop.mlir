"builtin.module"() ({
  "func.func"() <{function_type = (i1) -> (), sym_name = "spin"}> ({
  ^bb0(%arg0: i1):
    "cf.br"(%arg0)[^bb1] : (i1) -> ()
  ^bb1(%0: i1):  // 3 preds: ^bb0, ^bb1, ^bb1
    "cf.cond_br"(%0, %0, %arg0)[^bb1, ^bb1] <{operandSegmentSizes = array<i32: 1, 1, 1>}> : (i1, i1, i1) -> ()
  }) : () -> ()
}) : () -> ()
