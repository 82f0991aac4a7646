; The entry points of include/laddertick.h over the functions of the crate laddertick_c as the unproved module has them, there named inner_..: these take a struct by its address, and
; give a larger one at an address of the caller's. In the module itself, so that they are compiled into one as `rt lib` does it.
%written = type { i32, i64 }
; number and file in one word
%joined = type { i64, i64 }

define void @laddertick_start(ptr noalias sret([24 x i8]) align 8 %to) {
  call void @inner_start(ptr %to)
  ret void
}

define void @laddertick_step(ptr noalias sret([176 x i8]) align 8 %to, ptr %input, i64 %len, ptr byval([24 x i8]) align 8 %walk) {
  call void @inner_step(ptr %to, ptr %input, i64 %len, ptr %walk)
  ret void
}

define %written @laddertick_data(ptr %input, i64 %len, i64 %start, i64 %count, ptr %out, i64 %out_len) {
  %answer = call %written @inner_data(ptr %input, i64 %len, i64 %start, i64 %count, ptr %out, i64 %out_len)
  ret %written %answer
}

define %written @laddertick_list(ptr %input, i64 %len, ptr %out, i64 %out_len) {
  %answer = call %written @inner_list(ptr %input, i64 %len, ptr %out, i64 %out_len)
  ret %written %answer
}

define %written @laddertick_normalise(ptr %input, i64 %len, ptr %out, i64 %out_len) {
  %answer = call %written @inner_normalise(ptr %input, i64 %len, ptr %out, i64 %out_len)
  ret %written %answer
}

define void @laddertick_check(ptr noalias sret([24 x i8]) align 8 %to, ptr %input, i64 %len) {
  call void @inner_check(ptr %to, ptr %input, i64 %len)
  ret void
}

define %written @laddertick_strict_list(ptr %input, i64 %len, ptr %out, i64 %out_len) {
  %answer = call %written @inner_strict_list(ptr %input, i64 %len, ptr %out, i64 %out_len)
  ret %written %answer
}

define %written @laddertick_index(ptr %input, i64 %len, ptr %entries, i64 %entries_len) {
  %answer = call %written @inner_index(ptr %input, i64 %len, ptr %entries, i64 %entries_len)
  ret %written %answer
}

define %written @laddertick_open(ptr %input, i64 %len, ptr %entries, i64 %entries_len, i64 %number, ptr %out, i64 %out_len) {
  %answer = call %written @inner_open(ptr %input, i64 %len, ptr %entries, i64 %entries_len, i64 %number, ptr %out, i64 %out_len)
  ret %written %answer
}

define %joined @laddertick_join(ptr %first, i64 %first_len, ptr %second, i64 %second_len, ptr %out, i64 %out_len) {
  %to = alloca %joined, align 8
  call void @inner_join(ptr %to, ptr %first, i64 %first_len, ptr %second, i64 %second_len, ptr %out, i64 %out_len)
  %answer = load %joined, ptr %to, align 8
  ret %joined %answer
}

define %written @laddertick_inside(ptr %input, i64 %len, ptr %entries, i64 %entries_len, i64 %number, ptr byval([16 x i8]) align 8 %r, ptr %list, i64 %list_len) {
  %answer = call %written @inner_inside(ptr %input, i64 %len, ptr %entries, i64 %entries_len, i64 %number, ptr %r, ptr %list, i64 %list_len)
  ret %written %answer
}

define %written @laddertick_touching(ptr %input, i64 %len, ptr %entries, i64 %entries_len, i64 %number, ptr byval([16 x i8]) align 8 %r, ptr %list, i64 %list_len) {
  %answer = call %written @inner_touching(ptr %input, i64 %len, ptr %entries, i64 %entries_len, i64 %number, ptr %r, ptr %list, i64 %list_len)
  ret %written %answer
}

define %written @laddertick_nearest(ptr %input, i64 %len, ptr %entries, i64 %entries_len, i64 %number, i32 %x, i32 %y) {
  %answer = call %written @inner_nearest(ptr %input, i64 %len, ptr %entries, i64 %entries_len, i64 %number, i32 %x, i32 %y)
  ret %written %answer
}

define void @laddertick_to_300(ptr noalias sret([24 x i8]) align 8 %to, ptr %input, i64 %len, ptr %entries, i64 %entries_len, i64 %number, ptr %list, i64 %list_len) {
  call void @inner_to_300(ptr %to, ptr %input, i64 %len, ptr %entries, i64 %entries_len, i64 %number, ptr %list, i64 %list_len)
  ret void
}

define %written @laddertick_write(ptr %input, i64 %len, ptr byval([120 x i8]) align 8 %element, ptr %out, i64 %out_len) {
  %answer = call %written @inner_write(ptr %input, i64 %len, ptr %element, ptr %out, i64 %out_len)
  ret %written %answer
}

define %written @laddertick_write_label(ptr %input, i64 %len, ptr %elements, i64 %elements_len, i32 %sets, i32 %copies, ptr %out, i64 %out_len) {
  %answer = call %written @inner_write_label(ptr %input, i64 %len, ptr %elements, i64 %elements_len, i32 %sets, i32 %copies, ptr %out, i64 %out_len)
  ret %written %answer
}

define %written @laddertick_write_label_300(ptr %input, i64 %len, ptr %elements, i64 %elements_len, i32 %sets, i32 %copies, ptr %out, i64 %out_len) {
  %answer = call %written @inner_write_label_300(ptr %input, i64 %len, ptr %elements, i64 %elements_len, i32 %sets, i32 %copies, ptr %out, i64 %out_len)
  ret %written %answer
}
