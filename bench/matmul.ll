; examples/matmul.mlir, lowered: each scf.for is a header with the test, a body and an exit; index is i64.
declare i32 @load_a(i64)
declare i32 @load_b(i64)
declare void @store_c(i64, i32)

define void @matmul(i64 %arg0, i64 %arg1, i64 %arg2) {
entry:
  br label %rows

rows:
  %arg3 = phi i64 [ 0, %entry ], [ %next3, %columns.end ]
  %t3 = icmp slt i64 %arg3, %arg0
  br i1 %t3, label %rows.body, label %end

rows.body:
  %v0 = mul i64 %arg3, %arg2
  %v1 = mul i64 %arg3, %arg1
  br label %columns

columns:
  %arg4 = phi i64 [ 0, %rows.body ], [ %next4, %sums.end ]
  %t4 = icmp slt i64 %arg4, %arg1
  br i1 %t4, label %columns.body, label %columns.end

columns.body:
  br label %sums

sums:
  %arg5 = phi i64 [ 0, %columns.body ], [ %next5, %sums.body ]
  %arg6 = phi i32 [ 0, %columns.body ], [ %v10, %sums.body ]
  %t5 = icmp slt i64 %arg5, %arg2
  br i1 %t5, label %sums.body, label %sums.end

sums.body:
  %v4 = add i64 %v0, %arg5
  %v5 = call i32 @load_a(i64 %v4)
  %v6 = mul i64 %arg5, %arg1
  %v7 = add i64 %v6, %arg4
  %v8 = call i32 @load_b(i64 %v7)
  %v9 = mul i32 %v5, %v8
  %v10 = add i32 %arg6, %v9
  %next5 = add i64 %arg5, 1
  br label %sums

sums.end:
  %v3 = add i64 %v1, %arg4
  call void @store_c(i64 %v3, i32 %arg6)
  %next4 = add i64 %arg4, 1
  br label %columns

columns.end:
  %next3 = add i64 %arg3, 1
  br label %rows

end:
  ret void
}
