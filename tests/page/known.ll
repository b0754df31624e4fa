; A module of the form that tools/gate/page_module.py knows: a function of the library, its export, and a function from outside.
source_filename = "rattle"
target datalayout = "e-m:e-p270:32:32-p271:32:32-p272:64:64-i64:64-i128:128-f80:128-n8:16:32:64-S128"
target triple = "x86_64-unknown-linux-gnu"

define internal noundef i32 @"library::places"(ptr noundef %a0, <16 x i8> %a1) #0 {
start:
  %r0 = alloca i32, align 4
  %r1 = load i32, ptr %a0, align 4
  %r2 = call <16 x i8> @llvm.x86.ssse3.pshuf.b.128(<16 x i8> %a1, <16 x i8> %a1)
  store i32 %r1, ptr %r0, align 4
  %r3 = icmp eq i32 %r1, 0
  br i1 %r3, label %ok.1, label %none.2

ok.1:                                             ; preds = %start
  ret i32 %r1

none.2:                                           ; preds = %start
  ret i32 7
}

define noundef i32 @places(ptr noundef %a0) #0 {
start:
  %r0 = call i32 @"library::places"(ptr %a0, <16 x i8> zeroinitializer)
  ret i32 %r0
}

; Function Attrs: nobuiltin nounwind
declare { i64, i64 } @rattle_alloc(i64 noundef, i64 noundef) #1

declare <16 x i8> @llvm.x86.ssse3.pshuf.b.128(<16 x i8>, <16 x i8>) #2

attributes #0 = { nounwind "probe-stack"="inline-asm" "stack-probe-size"="3072" "target-cpu"="x86-64-v2" }
attributes #1 = { nobuiltin nounwind }
attributes #2 = { nocallback nofree nosync nounwind willreturn memory(none) }
