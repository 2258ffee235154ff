"builtin.module"() ({
  "func.func"() <{function_type = (i32, i32) -> i32, sym_name = "outside", sym_visibility = "private"}> ({
  }) : () -> ()
  "func.func"() <{function_type = (i1, i32) -> i32, sym_name = "first"}> ({
  ^bb0(%arg1: i1, %arg2: i32):
    "cf.cond_br"(%arg1)[^bb1, ^bb2] <{operandSegmentSizes = array<i32: 1, 0, 0>}> : (i1) -> ()
  ^bb1:  // pred: ^bb0
    %3 = "func.call"(%arg2, %arg2) <{callee = @outside}> : (i32, i32) -> i32
    "func.return"(%3) : (i32) -> ()
  ^bb2:  // pred: ^bb0
    "func.return"(%arg2) : (i32) -> ()
  }) : () -> ()
  "func.func"() <{function_type = (i32) -> i32, sym_name = "second"}> ({
  ^bb0(%arg0: i32):
    %0 = "arith.constant"() <{value = 0 : i32}> : () -> i32
    %1 = "arith.cmpi"(%arg0, %0) <{predicate = 0 : i64}> : (i32, i32) -> i1
    "cf.cond_br"(%1)[^bb1, ^bb2] <{operandSegmentSizes = array<i32: 1, 0, 0>}> : (i1) -> ()
  ^bb1:  // pred: ^bb0
    "func.return"(%0) : (i32) -> ()
  ^bb2:  // pred: ^bb0
    %2 = "func.call"(%1, %arg0) <{callee = @first}> : (i1, i32) -> i32
    "func.return"(%2) : (i32) -> ()
  }) : () -> ()
}) : () -> ()
