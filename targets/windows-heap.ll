; The requests for memory on Windows, by the C library's malloc, whose blocks are aligned at 16. The module takes the answer of two, whether it was
; met and a pointer, in rax and rdx, which C has no word for there; so they are written in LLVM's own text. Contracts as in linux-heap.c: of
; no bytes they take `align`, no pointer is null, and `rattle_dealloc` gives back what one of the two answered.
target datalayout = "e-m:w-p270:32:32-p271:32:32-p272:64:64-i64:64-i128:128-f80:128-n8:16:32:64-S128"
target triple = "x86_64-w64-windows-gnu"

@nowhere = private global i8 0
declare ptr @malloc(i64)
declare ptr @realloc(ptr, i64)
declare void @free(ptr)

define private { i64, i64 } @answer(ptr %at) {
  %met = icmp ne ptr %at, null
  %ok = zext i1 %met to i64
  %place = select i1 %met, ptr %at, ptr @nowhere
  %number = ptrtoint ptr %place to i64
  %one = insertvalue { i64, i64 } poison, i64 %ok, 0
  %two = insertvalue { i64, i64 } %one, i64 %number, 1
  ret { i64, i64 } %two
}

define { i64, i64 } @rattle_alloc(i64 %n, i64 %align) {
  %none = icmp eq i64 %n, 0
  %size = select i1 %none, i64 %align, i64 %n
  %at = call ptr @malloc(i64 %size)
  %it = call { i64, i64 } @answer(ptr %at)
  ret { i64, i64 } %it
}

define { i64, i64 } @rattle_realloc(ptr %old, i64 %kept, i64 %n, i64 %align) {
  %none = icmp eq i64 %n, 0
  %size = select i1 %none, i64 %align, i64 %n
  %at = call ptr @realloc(ptr %old, i64 %size)
  %it = call { i64, i64 } @answer(ptr %at)
  ret { i64, i64 } %it
}

define void @rattle_dealloc(ptr %at) {
  call void @free(ptr %at)
  ret void
}
