"builtin.module"() ({
  "func.func"() <{function_type = (i32, i1, i8) -> i32, sym_name = "narrow"}> ({
  ^bb0(%arg0: i32, %arg1: i1, %arg2: i8):
    %0 = "arith.constant"() <{value = 2 : i32}> : () -> i32
    %1 = "arith.constant"() <{value = 3 : i32}> : () -> i32
    %2 = "arith.constant"() <{value = true}> : () -> i1
    %3 = "arith.addi"(%arg0, %0) <{overflowFlags = #arith.overflow<none>}> : (i32, i32) -> i32
    %4 = "arith.addi"(%3, %1) <{overflowFlags = #arith.overflow<none>}> : (i32, i32) -> i32
    %5 = "arith.select"(%arg1, %4, %4) : (i1, i32, i32) -> i32
    %6 = "arith.cmpi"(%5, %4) <{predicate = 3 : i64}> : (i32, i32) -> i1
    %7 = "arith.andi"(%6, %2) : (i1, i1) -> i1
    %8 = "scf.if"(%7) ({
      %9 = "arith.extui"(%arg2) : (i8) -> i16
      %10 = "arith.extsi"(%9) : (i16) -> i32
      "scf.yield"(%10) : (i32) -> ()
    }, {
      "scf.yield"(%5) : (i32) -> ()
    }) : (i1) -> i32
    "func.return"(%8) : (i32) -> ()
  }) : () -> ()
}) : () -> ()
