"builtin.module"() ({
  "func.func"() <{function_type = (i32, i32) -> i32, sym_name = "choose"}> ({
  ^bb0(%arg0: i32, %arg1: i32):
    "cf.switch"(%arg0, %arg1, %arg0)[^bb2, ^bb1, ^bb1, ^bb2] <{case_operand_segments = array<i32: 1, 1, 0>, case_values = dense<[1, 7, 9]> : vector<3xi32>, operandSegmentSizes = array<i32: 1, 0, 2>}> : (i32, i32, i32) -> ()
  ^bb1(%0: i32):  // 3 preds: ^bb0, ^bb0, ^bb2
    "func.return"(%0) : (i32) -> ()
  ^bb2:  // 2 preds: ^bb0, ^bb0
    "cf.br"(%arg1)[^bb1] : (i32) -> ()
  }) : () -> ()
}) : () -> ()
