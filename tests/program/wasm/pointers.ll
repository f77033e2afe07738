; How pointers lie in memory, asked of a module as the toolchain makes it for x86-64: each function answers what it answers there.
target datalayout = "e-m:e-p270:32:32-p271:32:32-p272:64:64-i64:64-i128:128-f80:128-n8:16:32:64-S128"
target triple = "x86_64-unknown-linux-gnu"

@bytes = private constant [3 x i8] c"abc", align 1
@table = private constant <{ ptr, [8 x i8], ptr }> <{ ptr getelementptr (i8, ptr @bytes, i64 1), [8 x i8] c"\02\00\00\00\00\00\00\00", ptr @bytes }>, align 8

; The bytes at a place are all ones.
define internal void @"fill with ones"(ptr %a0) #0 {
start:
  call void @llvm.memset.p0.i64(ptr %a0, i8 -1, i64 24, i1 false)
  ret void
}

; The upper half of a pointer that is stored over ones: 0.
define i64 @upper_half() #1 {
start:
  %r0 = alloca [24 x i8], align 8
  call void @"fill with ones"(ptr %r0)
  store ptr @bytes, ptr %r0, align 8
  %r1 = load i64, ptr %r0, align 8
  %r2 = lshr i64 %r1, 32
  ret i64 %r2
}

; The upper half of the pointer in a pair, which stands behind eight bytes: 0.
define i64 @upper_half_of_pair() #1 {
start:
  %r0 = alloca [24 x i8], align 8
  call void @"fill with ones"(ptr %r0)
  %r1 = insertvalue { i8, ptr } poison, i8 7, 0
  %r2 = insertvalue { i8, ptr } %r1, ptr @bytes, 1
  store { i8, ptr } %r2, ptr %r0, align 8
  %r3 = getelementptr i8, ptr %r0, i64 12
  %r4 = load i32, ptr %r3, align 4
  %r5 = zext i32 %r4 to i64
  ret i64 %r5
}

; What is behind a pointer is as it was: all ones.
define i64 @behind() #1 {
start:
  %r0 = alloca [24 x i8], align 8
  call void @"fill with ones"(ptr %r0)
  store ptr @bytes, ptr %r0, align 8
  %r1 = getelementptr i8, ptr %r0, i64 8
  %r2 = load i64, ptr %r1, align 8
  ret i64 %r2
}

; A pair comes back from memory, and so does what its pointer leads to: 7 * 256 + 'c'.
define i64 @pair() #1 {
start:
  %r0 = alloca { i8, ptr }, align 8
  %r1 = insertvalue { i8, ptr } poison, i8 7, 0
  %r2 = getelementptr i8, ptr @bytes, i64 2
  %r3 = insertvalue { i8, ptr } %r1, ptr %r2, 1
  store { i8, ptr } %r3, ptr %r0, align 8
  %r4 = load { i8, ptr }, ptr %r0, align 8
  %r5 = extractvalue { i8, ptr } %r4, 0
  %r6 = extractvalue { i8, ptr } %r4, 1
  %r7 = load i8, ptr %r6, align 1
  %r8 = zext i8 %r5 to i64
  %r9 = zext i8 %r7 to i64
  %r10 = mul i64 %r8, 256
  %r11 = add i64 %r10, %r9
  ret i64 %r11
}

; Through the pointers of a static, at 0 and at 16: 'b' * 256 + 'a'.
define i64 @through_static() #1 {
start:
  %r0 = load ptr, ptr @table, align 8
  %r1 = getelementptr i8, ptr @table, i64 16
  %r2 = load ptr, ptr %r1, align 8
  %r3 = load i8, ptr %r0, align 1
  %r4 = load i8, ptr %r2, align 1
  %r5 = zext i8 %r3 to i64
  %r6 = zext i8 %r4 to i64
  %r7 = mul i64 %r5, 256
  %r8 = add i64 %r7, %r6
  ret i64 %r8
}

; The second of two pointers is eight bytes behind the first: 8.
define i64 @apart() #1 {
start:
  %r0 = alloca { ptr, ptr }, align 8
  %r1 = getelementptr { ptr, ptr }, ptr %r0, i64 0, i32 1
  %r2 = ptrtoaddr ptr %r0 to i64
  %r3 = ptrtoaddr ptr %r1 to i64
  %r4 = sub i64 %r3, %r2
  ret i64 %r4
}

; The main of the module, which the module's own `run` calls.
define i32 @main() #1 {
start:
  ret i32 7
}

declare void @llvm.memset.p0.i64(ptr, i8, i64, i1)

attributes #0 = { noinline nounwind "target-cpu"="x86-64-v2" "probe-stack"="inline-asm" }
attributes #1 = { nounwind "target-cpu"="x86-64-v2" }
