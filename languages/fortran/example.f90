! Kalinosz from Fortran: builds the index of three marks and asks which of them meet a window; then the three mistakes that
! are easily made here.
! gfortran example.f90 $(pkg-config --cflags --libs kalinosz)
program example
  use kalinosz
  implicit none
  integer, parameter :: k = c_int64_t

  ! The plate was read from its far end: mark 1 stands last. The pointer runs downwards without a copy, and numbers from 1.
  integer(c_int32_t), target :: plate(4, 3) = reshape([9, 9, 9, 9, 4, 0, 4, 5, 0, 2, 6, 2], [4, 3])
  integer(c_int32_t), pointer :: marks(:, :), as_it_lies(:, :)
  integer(c_int32_t), allocatable :: index(:)
  type(kalinosz_reply) :: built
  integer :: i

  marks(1:, 1:) => plate(:, 3:1:-1)
  allocate (index(kalinosz_words(3_k)))

  built = kalinosz_build_pointer(marks, index)
  print '(a, i0, a, i0, a)', 'build: answer ', built%number, ', ', built%count, ' words'
  call ask('right                ')

  ! Mistake 1: the place of the marks is given by hand, and the lower bound is left at 0. Each number is one too small.
  built = kalinosz_build(plate, size(plate, kind=c_size_t), 1_k, 8_k, 0_k, 3_k, -4_k, 1_k, index, size(index, kind=c_size_t))
  call ask('lower bound dropped  ')

  ! Mistake 2: the array as it lies in memory instead of the section that runs downwards. Each number is another mark's.
  as_it_lies(1:, 1:) => plate
  built = kalinosz_build_pointer(as_it_lies, index)
  call ask('table turned round   ')

  ! Mistake 3: asking whether an end lies in the window. A fibre that crosses from side to side has none there.
  print '(a, *(1x, i0))', 'ends only             numbers', pack([(i, i = 1, 3)], [(end_inside(marks(:, i)), i = 1, 3)])

contains

  ! Which marks meet the window 3..5 by 1..3: mark 1, (0,2)-(6,2), crosses it from side to side, mark 2, (4,0)-(4,5), upwards.
  subroutine ask(label)
    character(*), intent(in) :: label
    integer(c_int32_t) :: numbers(3)
    type(kalinosz_reply) :: asked
    asked = kalinosz_query_array(index, 3_k, 5_k, 1_k, 3_k, numbers)
    print '(a, a, *(1x, i0))', label, ' numbers', numbers(:asked%count)
  end subroutine

  pure logical function end_inside(mark)
    integer(c_int32_t), intent(in) :: mark(4)
    end_inside = inside(mark(1), mark(2)) .or. inside(mark(3), mark(4))
  end function

  pure logical function inside(x, y)
    integer(c_int32_t), intent(in) :: x, y
    inside = 3 <= x .and. x <= 5 .and. 1 <= y .and. y <= 3
  end function
end program
