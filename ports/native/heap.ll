; The heap of a program, for every target: rattle_alloc, rattle_realloc and rattle_dealloc by C's malloc, realloc and free.
; It is LLVM's text and not C because C for Windows returns a pair otherwise than the program expects it.
;
; Alignments divide 16, which malloc gives. A block of no bytes is a block of as many as its alignment.

; Where an address is due and no memory is left, this one is returned, which nothing reads.
@nothing = internal global i8 0, align 16

declare ptr @malloc(i64)
declare ptr @realloc(ptr, i64)
declare void @free(ptr)

; the pair (1, p), or (0, nothing) if p is null
define internal { i64, i64 } @tried(ptr %p) {
  %is_given = icmp ne ptr %p, null
  %place = select i1 %is_given, ptr %p, ptr @nothing
  %given = zext i1 %is_given to i64
  %address = ptrtoint ptr %place to i64
  %first = insertvalue { i64, i64 } poison, i64 %given, 0
  %pair = insertvalue { i64, i64 } %first, i64 %address, 1
  ret { i64, i64 } %pair
}

; rattle_alloc(bytes, alignment)
define { i64, i64 } @rattle_alloc(i64 %bytes, i64 %align) {
  %is_empty = icmp eq i64 %bytes, 0
  %room = select i1 %is_empty, i64 %align, i64 %bytes
  %p = call ptr @malloc(i64 %room)
  %pair = call { i64, i64 } @tried(ptr %p)
  ret { i64, i64 } %pair
}

; rattle_realloc(block, bytes to keep, bytes, alignment): malloc knows what to keep
define { i64, i64 } @rattle_realloc(ptr %block, i64 %kept, i64 %bytes, i64 %align) {
  %is_empty = icmp eq i64 %bytes, 0
  %room = select i1 %is_empty, i64 %align, i64 %bytes
  %p = call ptr @realloc(ptr %block, i64 %room)
  %pair = call { i64, i64 } @tried(ptr %p)
  ret { i64, i64 } %pair
}

; rattle_dealloc(block)
define void @rattle_dealloc(ptr %block) {
  call void @free(ptr %block)
  ret void
}
