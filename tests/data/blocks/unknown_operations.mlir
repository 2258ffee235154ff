"builtin.module"() ({
  "test.outer"() ({
    %0:2 = "test.pair"() {k = [1, 2, [3 : i32, 4]], l = "^bb1 } {"} : () -> (i32, i32)
    "test.switch"(%0#0, %0#1)[^bb1, ^bb2, ^bb1] {case_tags = [1, 2]} : (i32, i32) -> ()
  ^bb1:  // 2 preds: ^bb0, ^bb0
    %1 = "test.invoke"(%0#1)[^bb2, ^bb3] <{n = 1 : i64}> : (i32) -> i32
  ^bb2:  // 2 preds: ^bb0, ^bb1
    "test.end"() : () -> ()
  ^bb3:  // pred: ^bb1
    "test.use"(%1, %0#0) ({
      "test.end"() : () -> ()
    }, {
    ^bb0(%arg0: i32, %arg1: i1):
      "test.go"(%arg0)[^bb1] : (i32) -> ()
    ^bb1:  // pred: ^bb0
      "test.end"(%1, %arg1) : (i32, i1) -> ()
    }, {
    }) {after = {z = [5]}} : (i32, i32) -> ()
    "test.end"() : () -> ()
  }, {
    "test.go"()[^bb1] : () -> ()
  ^bb1:  // pred: ^bb0
    "test.end"() : () -> ()
  }) : () -> ()
}) : () -> ()
