! A survey's windows in one call: the numbers of all of them come back one after another, with a count for each window. The first
! call lends too few number cells and is told how many are due. Then a window whose edges stand in reverse, and which one it is.
! gfortran many.f90 $(pkg-config --cflags --libs kalinosz)
program many
  use kalinosz
  implicit none
  integer, parameter :: k = c_int64_t
  integer(c_int32_t) :: plate(4, 3) = reshape([0, 2, 6, 2, 4, 0, 4, 5, 9, 9, 9, 9], [4, 3])
  integer(c_int64_t) :: windows(4, 3) = reshape([3_k, 5_k, 1_k, 3_k, 7_k, 8_k, 0_k, 9_k, 4_k, 9_k, 4_k, 9_k], [4, 3]) ! a b c d of each
  integer(c_int32_t) :: index(58), counts(3), few(2)
  integer(c_int32_t), allocatable :: numbers(:)
  type(kalinosz_reply) :: reply

  reply = kalinosz_build_shape(plate, index)
  reply = kalinosz_query_many_array(index, windows, counts, few)
  print '(i0, a, i0, a, i0, a)', size(few), ' number cells: answer ', reply%number, ', ', reply%count, ' numbers due'
  allocate (numbers(reply%count))
  reply = kalinosz_query_many_array(index, windows, counts, numbers)
  print '(i0, a, i0, a, i0, a, i0, a)', size(numbers), ' number cells: answer ', reply%number, ', ', reply%count, ' numbers, ', &
    reply%visits, ' visits'
  call show(windows)

  ! Any section of windows will do: the compiler packs one with a step.
  reply = kalinosz_query_many_array(index, windows(:, 3:1:-2), counts, numbers)
  print '(a, i0)', 'the last and the first: answer ', reply%number
  call show(windows(:, 3:1:-2))

  ! The same without descriptors, as in C.
  reply = kalinosz_query_many(index, size(index, kind=c_size_t), windows, size(windows, kind=c_size_t), &
    counts, size(counts, kind=c_size_t), numbers, size(numbers, kind=c_size_t))
  print '(a, i0, a, i0, a)', 'by lengths: answer ', reply%number, ', ', reply%count, ' numbers'

  windows(1, 2) = 9 ! above its other edge, 8
  reply = kalinosz_query_many_array(index, windows, counts, few)
  print '(a, i0, a, *(1x, i0))', 'edges in reverse: answer ', reply%number, ', window', windows(:, reply%position + 1)

  ! Windows as rows and not as columns, a window too many for the count cells, and no window at all.
  reply = kalinosz_query_many_array(index, transpose(windows), counts, numbers)
  print '(a, i0)', 'turned on its side: answer ', reply%number
  reply = kalinosz_query_many_array(index, windows, counts(:2), numbers)
  print '(a, i0)', 'two count cells: answer ', reply%number
  reply = kalinosz_query_many_array(index, windows(:, 1:0), counts, numbers)
  print '(a, i0, a, i0, a)', 'no window: answer ', reply%number, ', ', reply%count, ' numbers'

contains

  ! Window by window, from the counts.
  subroutine show(asked)
    integer(c_int64_t), intent(in) :: asked(:, :)
    integer :: i, used
    used = 0
    do i = 1, size(asked, 2)
      print '(a, 2(i0, a, i0, a), *(1x, i0))', 'window ', asked(1, i), '..', asked(2, i), ' by ', asked(3, i), '..', asked(4, i), &
        ': numbers', numbers(used + 1:used + counts(i))
      used = used + counts(i)
    end do
  end subroutine
end program
