; The memory of the library on systems for which the toolchain has no calls of malloc: what the engine
; calls, over malloc, realloc and free of the C library.
;
; An answer is two numbers, whether there is memory and the address. It is written in LLVM's language,
; since C has no such answer that comes in two registers on Windows. A refusal has an address too, which
; isn't null and which nothing uses. No size is 0: then it is the alignment.

@nothing = internal constant i8 0

declare ptr @malloc(i64)
declare ptr @realloc(ptr, i64)
declare void @free(ptr)

define internal { i64, i64 } @tried(ptr %bytes) {
  %is_there = icmp ne ptr %bytes, null
  %ok = zext i1 %is_there to i64
  %given = select i1 %is_there, ptr %bytes, ptr @nothing
  %address = ptrtoint ptr %given to i64
  %first = insertvalue { i64, i64 } undef, i64 %ok, 0
  %both = insertvalue { i64, i64 } %first, i64 %address, 1
  ret { i64, i64 } %both
}

define { i64, i64 } @rattle_alloc(i64 %size, i64 %alignment) {
  %is_empty = icmp eq i64 %size, 0
  %wanted = select i1 %is_empty, i64 %alignment, i64 %size
  %bytes = call ptr @malloc(i64 %wanted)
  %answer = call { i64, i64 } @tried(ptr %bytes)
  ret { i64, i64 } %answer
}

define { i64, i64 } @rattle_realloc(ptr %held, i64 %had, i64 %size, i64 %alignment) {
  %is_empty = icmp eq i64 %size, 0
  %wanted = select i1 %is_empty, i64 %alignment, i64 %size
  %bytes = call ptr @realloc(ptr %held, i64 %wanted)
  %answer = call { i64, i64 } @tried(ptr %bytes)
  ret { i64, i64 } %answer
}

define void @rattle_dealloc(ptr %held) {
  call void @free(ptr %held)
  ret void
}
