; The three calls by which the library takes memory, as the kit's c/liblibc_c.a has them for x86-64 Linux. They are
; LLVM's text, and no C, since the pair that they give comes in two registers: a compiler of C would return it by memory
; on Windows and in WebAssembly, and the module that calls them wouldn't find it.
@nothing = internal global i8 0
declare ptr @malloc(i64)
declare ptr @realloc(ptr, i64)
declare void @free(ptr)

; 1 and where the memory is; or 0, and a place that is none's. A request for no bytes is one for as many as the alignment.
define internal { i64, i64 } @tried(ptr %p) alwaysinline nounwind {
  %none = icmp eq ptr %p, null
  %ok = select i1 %none, i64 0, i64 1
  %at = select i1 %none, ptr @nothing, ptr %p
  %n = ptrtoint ptr %at to i64
  %a = insertvalue { i64, i64 } undef, i64 %ok, 0
  %b = insertvalue { i64, i64 } %a, i64 %n, 1
  ret { i64, i64 } %b
}
define hidden { i64, i64 } @rattle_alloc(i64 %n, i64 %a) nounwind {
  %zero = icmp eq i64 %n, 0
  %size = select i1 %zero, i64 %a, i64 %n
  %p = call ptr @malloc(i64 %size)
  %r = call { i64, i64 } @tried(ptr %p)
  ret { i64, i64 } %r
}
define hidden { i64, i64 } @rattle_realloc(ptr %p, i64 %kept, i64 %n, i64 %a) nounwind {
  %zero = icmp eq i64 %n, 0
  %size = select i1 %zero, i64 %a, i64 %n
  %q = call ptr @realloc(ptr %p, i64 %size)
  %r = call { i64, i64 } @tried(ptr %q)
  ret { i64, i64 } %r
}
define hidden void @rattle_dealloc(ptr %p) nounwind {
  call void @free(ptr %p)
  ret void
}
