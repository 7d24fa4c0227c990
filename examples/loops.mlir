module {
  func.func private @visit(index)
  func.func @walk(%arg0: index, %arg1: i32) -> (index, i32) {
    %c0 = arith.constant 0 : index
    %c1 = arith.constant 1 : index
    %c6 = arith.constant 6 : index
    %c10 = arith.constant 10 : index
    %c64 = arith.constant 64 : index
    %c0_i32 = arith.constant 0 : i32
    %c-1_i32 = arith.constant -1 : i32
    %0 = scf.for %arg2 = %c0 to %c10 step %c1 iter_args(%arg3 = %c0) -> (index) {
      %2 = arith.muli %arg2, %c64 overflow<nsw> : index
      scf.for %arg4 = %c0 to %arg0 step %c1 {
        %5 = arith.addi %2, %arg4 : index
        func.call @visit(%5) : (index) -> ()
      }
      %3 = arith.shli %arg2, %c6 : index
      %4 = arith.addi %arg3, %arg2 : index
      scf.yield %4 : index
    }
    %1 = scf.while (%arg2 = %arg1) : (i32) -> i32 {
      %2 = arith.cmpi ne, %arg2, %c0_i32 : i32
      scf.condition(%2) %arg2 : i32
    } do {
    ^bb0(%arg2: i32):
      %2 = arith.addi %arg2, %c-1_i32 : i32
      scf.yield %2 : i32
    }
    return %0, %1 : index, i32
  }
  func.func @bytes() {
    %c0_i8 = arith.constant 0 : i8
    %c2_i8 = arith.constant 2 : i8
    %c3_i8 = arith.constant 3 : i8
    %c127_i8 = arith.constant 127 : i8
    scf.for %arg0 = %c0_i8 to %c127_i8 step %c3_i8  : i8 {
    }
    scf.for %arg0 = %c0_i8 to %c127_i8 step %c2_i8  : i8 {
    }
    return
  }
}
== session values
scev @walk %2
scev @walk %5
scev @walk %arg3
scev @walk %0
scev @walk %1
at @walk %2 #0 9
at @walk %5 #1 5
at @walk %0 #0 9
hold row @walk %2
hold shifted @walk %3
== session loops
turns @walk #0
turns @walk #1
turns @walk #2
turns @bytes #0
turns @bytes #1
run @walk 100 1 5
run @bytes 1000
