"builtin.module"() ({
  "func.func"() <{function_type = (i64, i64, i64) -> i64, sym_name = "both"}> ({
  ^bb0(%arg0: i64, %arg1: i64, %arg2: i64):
    %0 = "arith.muli"(%arg0, %arg0) <{overflowFlags = #arith.overflow<none>}> : (i64, i64) -> i64
    %1 = "arith.muli"(%arg1, %arg1) <{overflowFlags = #arith.overflow<none>}> : (i64, i64) -> i64
    %2 = "arith.addi"(%0, %1) <{overflowFlags = #arith.overflow<none>}> : (i64, i64) -> i64
    %3 = "arith.muli"(%arg1, %arg1) <{overflowFlags = #arith.overflow<none>}> : (i64, i64) -> i64
    %4 = "arith.muli"(%arg2, %arg2) <{overflowFlags = #arith.overflow<none>}> : (i64, i64) -> i64
    %5 = "arith.addi"(%3, %4) <{overflowFlags = #arith.overflow<none>}> : (i64, i64) -> i64
    %6 = "arith.maxsi"(%2, %5) : (i64, i64) -> i64
    "func.return"(%6) : (i64) -> ()
  }) : () -> ()
}) : () -> ()

