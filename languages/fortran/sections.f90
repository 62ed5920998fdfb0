! What a Fortran array says of itself, and what the scan answers on it: pointers, allocatables, sections that run downwards,
! arrays of components, and arrays that are no table. Compiled with -fpack-derived, so that one of them has a stride that is
! no whole number of cells.
program sections
  use kalinosz
  use, intrinsic :: iso_c_binding, only: c_int16_t
  implicit none
  integer, parameter :: k = c_int64_t

  type :: tagged
    integer(c_int32_t) :: value, tag
  end type
  type :: odd ! 6 bytes
    integer(c_int32_t) :: value
    integer(c_int16_t) :: tag
  end type

  ! Mark i goes from (10 i, i) to (10 i + 5, i); on_side holds the same marks, a row for each.
  integer(c_int32_t), target :: plate(4, 6), on_side(6, 4), five_rows(5, 6)
  integer(c_int32_t), allocatable :: held(:, :), too_many(:, :)
  integer(c_int32_t), pointer :: seen(:, :)
  type(tagged), target :: with_tags(4, 6)
  type(odd), target :: with_odd_tags(4, 6)
  integer(c_int32_t) :: numbers(6), spaced(12)
  type(kalinosz_reply) :: reply
  integer :: i

  do i = 1, 6
    plate(:, i) = [10 * i, i, 10 * i + 5, i]
    on_side(i, :) = plate(:, i)
  end do
  five_rows = 0
  with_tags%value = plate
  with_odd_tags%value = plate

  print '(a)', 'the answer and the marks that meet 25..45 by 0..9, after what the array says of itself'
  print '(a)', 'array                 kind base   lower    n   segment coordinate length'
  call scan_shape('plate', plate)
  call scan_shape('plate(:, 6:1:-1)', plate(:, 6:1:-1))
  call scan_shape('plate(:, 5:1:-2)', plate(:, 5:1:-2))
  ! x and y change places and each mark runs the other way: the window is turned over too
  call show('plate(4:1:-1, :)', kalinosz_describe_shape(plate(4:1:-1, :)), &
    kalinosz_scan_shape(plate(4:1:-1, :), 0_k, 9_k, 25_k, 45_k, numbers))
  call scan_shape('plate(:, 1:0)', plate(:, 1:0))

  allocate (held(4, -3:2), source=plate)
  call scan_allocatable('allocatable -3:2', held)
  seen(1:, 7:) => plate(:, 6:1:-1)
  call scan_pointer('pointer from 7, down', seen)
  seen => plate
  call scan_pointer('pointer', seen)
  seen => with_tags%value
  call scan_pointer('=> with_tags%value', seen)

  ! A table on its side is read where it lies by strides given by hand.
  reply = kalinosz_scan(on_side, size(on_side, kind=c_size_t), 1_k, 0_k, 1_k, 6_k, 1_k, 6_k, 25_k, 45_k, 0_k, 9_k, &
    numbers, size(numbers, kind=c_size_t))
  print '(a, i0, *(1x, i0))', 'on_side, strides 1 and 6: ', reply%number, numbers(:reply%count)

  ! Kind 3 numbers as the dummy's own loop does, from 1, whatever the bounds of the array are.
  call by_own_loop(held)

  print '(a)', 'refused'
  seen => with_odd_tags%value
  call scan_pointer('=> with_odd_tags%..', seen)
  call scan_shape('on_side', on_side)
  call scan_shape('five rows', five_rows)
  call scan_shape('three rows', plate(:3, :))
  deallocate (held)
  call scan_allocatable('not allocated', held)
  nullify (seen)
  call scan_pointer('not associated', seen)
  seen(1:, 1000001:) => plate
  call scan_pointer('lower bound', seen)
  allocate (too_many(4, 4097), source=0)
  call scan_allocatable('4,097 segments', too_many)
  reply = kalinosz_scan_shape(plate, 25_k, 45_k, 0_k, 9_k, numbers(:2))
  print '(a, i0, a, i0)', 'two number cells: ', reply%number, ', due: ', reply%count
  reply = kalinosz_scan_shape(plate, 25_k, 45_k, 0_k, 9_k, numbers(:int(reply%count)))
  print '(a, i0)', 'as many as were due: ', reply%number

  ! A buffer with a step is packed and unpacked by the compiler: the cells between stay.
  spaced = -1
  reply = kalinosz_scan_shape(plate, 25_k, 45_k, 0_k, 9_k, spaced(::2))
  print '(a, i0, a, *(1x, i0))', 'every other cell: ', reply%number, ',', spaced

contains

  subroutine scan_shape(label, table)
    character(*), intent(in) :: label
    integer(c_int32_t), intent(in) :: table(:, :)
    call show(label, kalinosz_describe_shape(table), kalinosz_scan_shape(table, 25_k, 45_k, 0_k, 9_k, numbers))
  end subroutine

  subroutine by_own_loop(table)
    integer(c_int32_t), intent(in) :: table(:, :)
    type(kalinosz_reply) :: r
    integer :: j
    write (*, '(a)', advance='no') 'own loop of a dummy:'
    do j = 1, size(table, 2)
      if (kalinosz_meets(int(table(1, j), k), int(table(2, j), k), int(table(3, j), k), int(table(4, j), k), &
        25_k, 45_k, 0_k, 9_k) == 1) write (*, '(1x, i0)', advance='no') j
    end do
    r = kalinosz_scan_shape(table, 25_k, 45_k, 0_k, 9_k, numbers)
    print '(a, *(1x, i0))', '; the scan:', numbers(:r%count)
  end subroutine

  subroutine scan_allocatable(label, table)
    character(*), intent(in) :: label
    integer(c_int32_t), allocatable, intent(in) :: table(:, :)
    call show(label, kalinosz_describe_allocatable(table), kalinosz_scan_allocatable(table, 25_k, 45_k, 0_k, 9_k, numbers))
  end subroutine

  subroutine scan_pointer(label, table)
    character(*), intent(in) :: label
    integer(c_int32_t), pointer, intent(in) :: table(:, :)
    call show(label, kalinosz_describe_pointer(table), kalinosz_scan_pointer(table, 25_k, 45_k, 0_k, 9_k, numbers))
  end subroutine

  subroutine show(label, t, r)
    character(*), intent(in) :: label
    type(kalinosz_table), intent(in) :: t
    type(kalinosz_reply), intent(in) :: r
    character(20) :: name
    name = label
    print '(a, 2x, i4, i5, i8, i5, 2a, i7, a, i0, *(1x, i0))', name, t%kind, t%base, t%lower, t%n, &
      stride(t%segment_stride), stride(t%coordinate_stride), t%length, ' | ', r%number, numbers(:merge(r%count, 0_k, r%number == 0))
  end subroutine

  ! A stride, or 'none' where it is no whole number of cells: the library is then told one that it refuses.
  function stride(cells) result(text)
    integer(c_int64_t), intent(in) :: cells
    character(10) :: text
    text = '      none'
    if (cells /= huge(cells)) write (text, '(i10)') cells
  end function
end program
