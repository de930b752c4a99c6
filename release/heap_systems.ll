; The three calls for memory that the proved code makes, over malloc, realloc and free of the C library of Windows or
; macOS. They answer whether there is memory, and where; if there is none, a place of a byte. (In C a struct of two
; numbers would be given back in another way on Windows than the module's code takes it.)
declare ptr @malloc(i64)
declare ptr @realloc(ptr, i64)
declare void @free(ptr)

@laz_no_memory = internal global i8 0

define internal { i64, i64 } @laz_answer(ptr %place) {
  %found = icmp ne ptr %place, null
  %ok = zext i1 %found to i64
  %byte = select i1 %found, ptr %place, ptr @laz_no_memory
  %number = ptrtoint ptr %byte to i64
  %first = insertvalue { i64, i64 } poison, i64 %ok, 0
  %both = insertvalue { i64, i64 } %first, i64 %number, 1
  ret { i64, i64 } %both
}

define internal { i64, i64 } @rattle_alloc(i64 %size, i64 %alignment) {
  %empty = icmp eq i64 %size, 0
  %wanted = select i1 %empty, i64 1, i64 %size
  %place = call ptr @malloc(i64 %wanted)
  %answer = call { i64, i64 } @laz_answer(ptr %place)
  ret { i64, i64 } %answer
}

define internal { i64, i64 } @rattle_realloc(ptr %block, i64 %kept, i64 %size, i64 %alignment) {
  %empty = icmp eq i64 %size, 0
  %wanted = select i1 %empty, i64 1, i64 %size
  %place = call ptr @realloc(ptr %block, i64 %wanted)
  %answer = call { i64, i64 } @laz_answer(ptr %place)
  ret { i64, i64 } %answer
}

define internal void @rattle_dealloc(ptr %block) {
  call void @free(ptr %block)
  ret void
}
