"builtin.module"() ({
  "func.func"() <{function_type = (i32) -> i32, sym_name = "price"}> ({
  ^bb0(%arg0: i32):
    %0 = "arith.constant"() <{value = 6 : i32}> : () -> i32
    %1 = "arith.constant"() <{value = 7 : i32}> : () -> i32
    %2 = "arith.muli"(%0, %1) <{overflowFlags = #arith.overflow<none>}> : (i32, i32) -> i32
    %3 = "arith.constant"() <{value = 40 : i32}> : () -> i32
    %4 = "arith.cmpi"(%2, %3) <{predicate = 4 : i64}> : (i32, i32) -> i1
    %5 = "arith.muli"(%arg0, %2) <{overflowFlags = #arith.overflow<none>}> : (i32, i32) -> i32
    %6 = "arith.constant"() <{value = 5 : i32}> : () -> i32
    %7 = "arith.subi"(%5, %6) <{overflowFlags = #arith.overflow<none>}> : (i32, i32) -> i32
    %8 = "arith.select"(%4, %7, %5) : (i1, i32, i32) -> i32
    "func.return"(%8) : (i32) -> ()
  }) : () -> ()
}) : () -> ()

