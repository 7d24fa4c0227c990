module {
  func.func private @more() -> i1
  func.func @counts(%arg0: i64, %arg1: i64) {
    %c1_i64 = arith.constant 1 : i64
    %c2_i64 = arith.constant 2 : i64
    %c3_i64 = arith.constant 3 : i64
    scf.for %arg2 = %arg0 to %arg1 step %c1_i64  : i64 {
    }
    scf.for %arg2 = %arg0 to %arg1 step %c2_i64  : i64 {
    }
    %0 = scf.while (%arg2 = %arg0) : (i64) -> i64 {
      %2 = arith.cmpi ne, %arg2, %arg1 : i64
      scf.condition(%2) %arg2 : i64
    } do {
    ^bb0(%arg2: i64):
      %2 = arith.addi %arg2, %c3_i64 : i64
      scf.yield %2 : i64
    }
    %1 = scf.while (%arg2 = %c1_i64) : (i64) -> i64 {
      %2 = arith.muli %arg2, %arg2 : i64
      %3 = arith.cmpi ne, %2, %arg1 : i64
      scf.condition(%3) %arg2 : i64
    } do {
    ^bb0(%arg2: i64):
      %2 = arith.addi %arg2, %c1_i64 : i64
      scf.yield %2 : i64
    }
    scf.while : () -> () {
      %2 = func.call @more() : () -> i1
      scf.condition(%2)
    } do {
      scf.yield
    }
    return
  }
}
== session A
turns @counts #0
turns @counts #1
turns @counts #2
turns @counts #3
turns @counts #4
scev @counts %2!3
scev @counts %0
scev @counts %1
