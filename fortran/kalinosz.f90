! Kalinosz for Fortran: which marks on a plate meet a window.
! Arrays go in as they are, sections too, and no table is copied. docs/CALLING.md has a five-line start; kalinosz.h says
! the limits and the answers.
module kalinosz
  use, intrinsic :: iso_c_binding, only: c_int32_t, c_int64_t, c_size_t, c_ptr, c_char
  implicit none
  ! These kinds come along with `use kalinosz`: cells, words and numbers are c_int32_t, edges and bounds c_int64_t (3_c_int64_t).

  ! What every call returns: the answer number, and the count, visits and position that go with it.
  type, bind(C) :: kalinosz_reply
    integer(c_int64_t) :: number, count, visits, position
  end type

  ! What an array says of itself, in cells: kind 1 pointer, 2 allocatable, 3 other.
  type, bind(C) :: kalinosz_table
    type(c_ptr) :: cells
    integer(c_size_t) :: length
    integer(c_int64_t) :: kind, base, lower, n, segment_stride, coordinate_stride
  end type

  ! A table is table(4, n): x1 y1 x2 y2 of each segment. A name ends in how the array is declared, which decides what its
  ! descriptor carries:
  !   _pointer      the pointer's own lower bound of dimension 2 numbers the segments
  !   _allocatable  the allocated lower bound does
  !   _shape        any array or section, numbered as kind 3, from 1: a lower bound does not travel with it
  ! numbers, counts and index are arrays of one dimension; a section of one with a step is packed and unpacked by the compiler.

  interface
    function kalinosz_scan_pointer(table, a, b, c, d, numbers) bind(C, name="kalinosz_scan_array") result(reply)
      import
      integer(c_int32_t), pointer, intent(in) :: table(:, :)
      integer(c_int64_t), value :: a, b, c, d
      integer(c_int32_t), contiguous, intent(inout) :: numbers(:)
      type(kalinosz_reply) :: reply
    end function

    function kalinosz_scan_allocatable(table, a, b, c, d, numbers) bind(C, name="kalinosz_scan_array") result(reply)
      import
      integer(c_int32_t), allocatable, intent(in) :: table(:, :)
      integer(c_int64_t), value :: a, b, c, d
      integer(c_int32_t), contiguous, intent(inout) :: numbers(:)
      type(kalinosz_reply) :: reply
    end function

    function kalinosz_scan_shape(table, a, b, c, d, numbers) bind(C, name="kalinosz_scan_array") result(reply)
      import
      integer(c_int32_t), intent(in) :: table(:, :)
      integer(c_int64_t), value :: a, b, c, d
      integer(c_int32_t), contiguous, intent(inout) :: numbers(:)
      type(kalinosz_reply) :: reply
    end function

    function kalinosz_build_pointer(table, index) bind(C, name="kalinosz_build_array") result(reply)
      import
      integer(c_int32_t), pointer, intent(in) :: table(:, :)
      integer(c_int32_t), contiguous, intent(inout) :: index(:)
      type(kalinosz_reply) :: reply
    end function

    function kalinosz_build_allocatable(table, index) bind(C, name="kalinosz_build_array") result(reply)
      import
      integer(c_int32_t), allocatable, intent(in) :: table(:, :)
      integer(c_int32_t), contiguous, intent(inout) :: index(:)
      type(kalinosz_reply) :: reply
    end function

    function kalinosz_build_shape(table, index) bind(C, name="kalinosz_build_array") result(reply)
      import
      integer(c_int32_t), intent(in) :: table(:, :)
      integer(c_int32_t), contiguous, intent(inout) :: index(:)
      type(kalinosz_reply) :: reply
    end function

    function kalinosz_query_array(index, a, b, c, d, numbers) bind(C) result(reply)
      import
      integer(c_int32_t), contiguous, intent(in) :: index(:)
      integer(c_int64_t), value :: a, b, c, d
      integer(c_int32_t), contiguous, intent(inout) :: numbers(:)
      type(kalinosz_reply) :: reply
    end function

    ! Many windows in one call: windows(:, i) is a b c d, at most 64 of them. counts(i) becomes how many numbers window i has; in
    ! numbers those of windows(:, 1) come first, then those of windows(:, 2), and so on. A window at fault (8, 10) is
    ! windows(:, reply%position + 1).
    function kalinosz_query_many_array(index, windows, counts, numbers) bind(C) result(reply)
      import
      integer(c_int32_t), contiguous, intent(in) :: index(:)
      integer(c_int64_t), contiguous, intent(in) :: windows(:, :)
      integer(c_int32_t), contiguous, intent(inout) :: counts(:), numbers(:)
      type(kalinosz_reply) :: reply
    end function

    ! A table as well-known text: text is lent as so many bytes, as in kalinosz_write_wkt_shape(marks, line, len(line, c_size_t)).
    function kalinosz_write_wkt_pointer(table, text, bytes) bind(C, name="kalinosz_write_wkt_array") result(reply)
      import
      integer(c_int32_t), pointer, intent(in) :: table(:, :)
      character(kind=c_char), intent(inout) :: text(*)
      integer(c_size_t), value :: bytes
      type(kalinosz_reply) :: reply
    end function

    function kalinosz_write_wkt_allocatable(table, text, bytes) bind(C, name="kalinosz_write_wkt_array") result(reply)
      import
      integer(c_int32_t), allocatable, intent(in) :: table(:, :)
      character(kind=c_char), intent(inout) :: text(*)
      integer(c_size_t), value :: bytes
      type(kalinosz_reply) :: reply
    end function

    function kalinosz_write_wkt_shape(table, text, bytes) bind(C, name="kalinosz_write_wkt_array") result(reply)
      import
      integer(c_int32_t), intent(in) :: table(:, :)
      character(kind=c_char), intent(inout) :: text(*)
      integer(c_size_t), value :: bytes
      type(kalinosz_reply) :: reply
    end function

    ! To look at a descriptor: what the calls above hand on.
    function kalinosz_describe_pointer(table) bind(C, name="kalinosz_describe_array") result(described)
      import
      integer(c_int32_t), pointer, intent(in) :: table(:, :)
      type(kalinosz_table) :: described
    end function

    function kalinosz_describe_allocatable(table) bind(C, name="kalinosz_describe_array") result(described)
      import
      integer(c_int32_t), allocatable, intent(in) :: table(:, :)
      type(kalinosz_table) :: described
    end function

    function kalinosz_describe_shape(table) bind(C, name="kalinosz_describe_array") result(described)
      import
      integer(c_int32_t), intent(in) :: table(:, :)
      type(kalinosz_table) :: described
    end function
  end interface

  ! The same calls as in C, for a table whose place in its cells you give yourself. Pass whole arrays: of a section the
  ! compiler would pass a packed copy.
  interface
    function kalinosz_scan(table, length, kind, base, lower, n, segment_stride, coordinate_stride, a, b, c, d, numbers, cells) &
        bind(C) result(reply)
      import
      integer(c_int32_t), intent(in) :: table(*)
      integer(c_size_t), value :: length, cells
      integer(c_int64_t), value :: kind, base, lower, n, segment_stride, coordinate_stride, a, b, c, d
      integer(c_int32_t), intent(inout) :: numbers(*)
      type(kalinosz_reply) :: reply
    end function

    function kalinosz_build(table, length, kind, base, lower, n, segment_stride, coordinate_stride, index, words) &
        bind(C) result(reply)
      import
      integer(c_int32_t), intent(in) :: table(*)
      integer(c_size_t), value :: length, words
      integer(c_int64_t), value :: kind, base, lower, n, segment_stride, coordinate_stride
      integer(c_int32_t), intent(inout) :: index(*)
      type(kalinosz_reply) :: reply
    end function

    function kalinosz_query(index, words, a, b, c, d, numbers, cells) bind(C) result(reply)
      import
      integer(c_int32_t), intent(in) :: index(*)
      integer(c_size_t), value :: words, cells
      integer(c_int64_t), value :: a, b, c, d
      integer(c_int32_t), intent(inout) :: numbers(*)
      type(kalinosz_reply) :: reply
    end function

    ! windows(4, m) lies as the call wants it; edges is size(windows, kind=c_size_t).
    function kalinosz_query_many(index, words, windows, edges, counts, count_cells, numbers, cells) bind(C) result(reply)
      import
      integer(c_int32_t), intent(in) :: index(*)
      integer(c_size_t), value :: words, edges, count_cells, cells
      integer(c_int64_t), intent(in) :: windows(*)
      integer(c_int32_t), intent(inout) :: counts(*), numbers(*)
      type(kalinosz_reply) :: reply
    end function

    ! Trailing spaces do no harm, so a whole character variable may be given. cells(4, n) is filled column by column.
    function kalinosz_read_wkt(text, bytes, cells, length) bind(C) result(reply)
      import
      character(kind=c_char), intent(in) :: text(*)
      integer(c_size_t), value :: bytes, length
      integer(c_int32_t), intent(inout) :: cells(*)
      type(kalinosz_reply) :: reply
    end function

    function kalinosz_write_wkt(table, length, kind, base, lower, n, segment_stride, coordinate_stride, text, bytes) &
        bind(C) result(reply)
      import
      integer(c_int32_t), intent(in) :: table(*)
      integer(c_size_t), value :: length, bytes
      integer(c_int64_t), value :: kind, base, lower, n, segment_stride, coordinate_stride
      character(kind=c_char), intent(inout) :: text(*)
      type(kalinosz_reply) :: reply
    end function

    ! A refusal comes as its negative.
    pure function kalinosz_cell(length, base, n, segment_stride, coordinate_stride, position, coordinate) bind(C) result(found)
      import
      integer(c_int64_t), value :: length, base, n, segment_stride, coordinate_stride, position, coordinate
      integer(c_int64_t) :: found
    end function

    pure function kalinosz_words(n) bind(C) result(words)
      import
      integer(c_int64_t), value :: n
      integer(c_int64_t) :: words
    end function

    pure function kalinosz_meets(x1, y1, x2, y2, a, b, c, d) bind(C) result(meets)
      import
      integer(c_int64_t), value :: x1, y1, x2, y2, a, b, c, d
      integer(c_int64_t) :: meets
    end function
  end interface
end module
