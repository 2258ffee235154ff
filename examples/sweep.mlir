"builtin.module"() ({
  "func.func"() <{function_type = (i32) -> i32, sym_name = "main"}> ({
  ^bb0(%arg0: i32):
    %0 = "func.call"(%arg0) <{callee = @twice}> : (i32) -> i32
    "func.return"(%0) : (i32) -> ()
  }) : () -> ()
  "func.func"() <{function_type = (i32) -> i32, sym_name = "twice", sym_visibility = "private"}> ({
  ^bb0(%arg1: i32):
    %1 = "arith.addi"(%arg1, %arg1) <{overflowFlags = #arith.overflow<none>}> : (i32, i32) -> i32
    "func.return"(%1) : (i32) -> ()
  }) : () -> ()
  "func.func"() <{function_type = (i32) -> i1, sym_name = "even", sym_visibility = "private"}> ({
  ^bb0(%arg2: i32):
    %2 = "func.call"(%arg2) <{callee = @odd}> : (i32) -> i1
    "func.return"(%2) : (i1) -> ()
  }) : () -> ()
  "func.func"() <{function_type = (i32) -> i1, sym_name = "odd", sym_visibility = "private"}> ({
  ^bb0(%arg3: i32):
    %3 = "func.call"(%arg3) <{callee = @even}> : (i32) -> i1
    "func.return"(%3) : (i1) -> ()
  }) : () -> ()
  "func.func"() <{function_type = (i32) -> (), sym_name = "log", sym_visibility = "private"}> ({}) : () -> ()
}) : () -> ()
