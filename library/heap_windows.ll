; What the proved code asks of the heap, over malloc, for Windows: as heap.c, of whose C this system would answer two words in another place than the proved code
; looks for them.
target datalayout = "e-m:w-p270:32:32-p271:32:32-p272:64:64-i64:64-i128:128-f80:128-n8:16:32:64-S128"
target triple = "x86_64-w64-windows-gnu"

@any = internal constant i8 0

declare ptr @malloc(i64)
declare ptr @realloc(ptr, i64)
declare void @free(ptr)

; 1 and the block, or 0 and any address but null
define internal { i64, i64 } @block(ptr %at) {
  %is_there = icmp ne ptr %at, null
  %ok = zext i1 %is_there to i64
  %place = select i1 %is_there, ptr %at, ptr @any
  %address = ptrtoint ptr %place to i64
  %first = insertvalue { i64, i64 } poison, i64 %ok, 0
  %both = insertvalue { i64, i64 } %first, i64 %address, 1
  ret { i64, i64 } %both
}

define { i64, i64 } @rattle_alloc(i64 %size, i64 %align) {
  %is_empty = icmp eq i64 %size, 0
  %wanted = select i1 %is_empty, i64 %align, i64 %size
  %at = call ptr @malloc(i64 %wanted)
  %got = call { i64, i64 } @block(ptr %at)
  ret { i64, i64 } %got
}

define { i64, i64 } @rattle_realloc(ptr %old, i64 %had, i64 %size, i64 %align) {
  %is_empty = icmp eq i64 %size, 0
  %wanted = select i1 %is_empty, i64 %align, i64 %size
  %at = call ptr @realloc(ptr %old, i64 %wanted)
  %got = call { i64, i64 } @block(ptr %at)
  ret { i64, i64 } %got
}

define void @rattle_dealloc(ptr %at) {
  call void @free(ptr %at)
  ret void
}
