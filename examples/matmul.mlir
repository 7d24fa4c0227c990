module {
  func.func private @load_a(index) -> i32
  func.func private @load_b(index) -> i32
  func.func private @store_c(index, i32)
  func.func @matmul(%arg0: index, %arg1: index, %arg2: index) {
    %c0 = arith.constant 0 : index
    %c1 = arith.constant 1 : index
    %c0_i32 = arith.constant 0 : i32
    scf.for %arg3 = %c0 to %arg0 step %c1 {
      %0 = arith.muli %arg3, %arg2 : index
      %1 = arith.muli %arg3, %arg1 : index
      scf.for %arg4 = %c0 to %arg1 step %c1 {
        %2 = scf.for %arg5 = %c0 to %arg2 step %c1 iter_args(%arg6 = %c0_i32) -> (i32) {
          %4 = arith.addi %0, %arg5 : index
          %5 = func.call @load_a(%4) : (index) -> i32
          %6 = arith.muli %arg5, %arg1 : index
          %7 = arith.addi %6, %arg4 : index
          %8 = func.call @load_b(%7) : (index) -> i32
          %9 = arith.muli %5, %8 : i32
          %10 = arith.addi %arg6, %9 : i32
          scf.yield %10 : i32
        }
        %3 = arith.addi %1, %arg4 : index
        func.call @store_c(%3, %2) : (index, i32) -> ()
      }
    }
    return
  }
}
