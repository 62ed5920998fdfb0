! 64 windows in one call against 64 calls, from Fortran (request E5): bench/many builds and runs it.
! Before anything is timed the counts, numbers and visits of every window are held against each other. Times are processor time;
! in each round every way passes over the same windows in turn, so that a busy moment falls on all of them. The table has the
! median of the rounds.
module survey
  use kalinosz
  implicit none
  private
  public :: asking, batch, batches, begin, hits_of, in_one_call, in_one_call_array, one_by_one, one_by_one_array, same

  integer, parameter :: batch = 64, batches = 16, side = 2**20 ! windows of a call; calls of a pass; the plate is 0..side by 0..side
  integer(c_int32_t) :: counts(batch)
  integer(c_int32_t), allocatable :: table(:, :), index(:), numbers(:)
  integer(c_int64_t) :: windows(4, batch, batches), random, total, visits

  abstract interface
    subroutine asking(b)
      integer, intent(in) :: b
    end subroutine
  end interface

contains

  ! 64 calls; what one call gives is put together by hand.
  subroutine one_by_one(b)
    integer, intent(in) :: b
    integer :: i
    call nothing_yet()
    do i = 1, batch
      call join(i, kalinosz_query(index, size(index, kind=c_size_t), windows(1, i, b), windows(2, i, b), windows(3, i, b), &
        windows(4, i, b), numbers(total + 1), size(numbers, kind=c_size_t) - total))
    end do
  end subroutine

  subroutine one_by_one_array(b)
    integer, intent(in) :: b
    integer :: i
    call nothing_yet()
    do i = 1, batch
      call join(i, kalinosz_query_array(index, windows(1, i, b), windows(2, i, b), windows(3, i, b), windows(4, i, b), &
        numbers(total + 1:)))
    end do
  end subroutine

  subroutine in_one_call(b)
    integer, intent(in) :: b
    call whole(kalinosz_query_many(index, size(index, kind=c_size_t), windows(:, :, b), size(windows(:, :, b), kind=c_size_t), &
      counts, size(counts, kind=c_size_t), numbers, size(numbers, kind=c_size_t)))
  end subroutine

  subroutine in_one_call_array(b)
    integer, intent(in) :: b
    call whole(kalinosz_query_many_array(index, windows(:, :, b), counts, numbers))
  end subroutine

  subroutine nothing_yet()
    total = 0
    visits = 0
  end subroutine

  subroutine join(i, reply)
    integer, intent(in) :: i
    type(kalinosz_reply), intent(in) :: reply
    counts(i) = int(reply%count, c_int32_t)
    total = total + reply%count
    visits = visits + reply%visits
    if (reply%number /= 0) error stop 'a window is refused'
  end subroutine

  subroutine whole(reply)
    type(kalinosz_reply), intent(in) :: reply
    total = reply%count
    visits = reply%visits
    if (reply%number /= 0) error stop 'the windows are refused'
  end subroutine

  ! Whether two ways give the same on every batch.
  logical function same(one, other)
    procedure(asking) :: one, other
    integer(c_int32_t) :: counts_of_one(batch)
    integer(c_int32_t), allocatable :: numbers_of_one(:)
    integer(c_int64_t) :: sums(2)
    integer :: b
    same = .true.
    do b = 1, batches
      numbers = -1
      call one(b)
      counts_of_one = counts
      numbers_of_one = numbers
      sums = [total, visits]
      numbers = -1
      counts = -1
      call other(b)
      same = same .and. all(counts == counts_of_one) .and. all(numbers == numbers_of_one) .and. all(sums == [total, visits])
    end do
  end function

  ! A plate of n marks, up to 1/64 of it long, half of them along x, with its index, and windows that meet about as many of them as
  ! wanted; single spots for none.
  subroutine begin(n, wanted)
    integer, intent(in) :: n, wanted
    type(kalinosz_reply) :: reply
    integer :: i, wide, low, high
    random = 12345 + n
    if (allocated(table)) deallocate (table, index, numbers)
    allocate (table(4, n), index(kalinosz_words(int(n, c_int64_t))), numbers(n * batch + 1))
    do i = 1, n
      table(:2, i) = [below(side), below(side)]
      table(3:, i) = table(:2, i)
      associate (far => table(merge(3, 4, below(2) == 0), i))
        far = min(side, far + below(side / 64))
      end associate
    end do
    reply = kalinosz_build_shape(table, index)
    if (reply%number /= 0) error stop 'the table is refused'
    low = 0
    high = merge(0, side, wanted == 0)
    do while (low < high)
      wide = (low + high) / 2
      call squares(wide)
      if (hits_of() >= wanted) then
        high = wide
      else
        low = wide + 1
      end if
    end do
    call squares(low)
  end subroutine

  subroutine squares(wide)
    integer, intent(in) :: wide
    integer :: i, b, x, y
    random = 4242
    do b = 1, batches
      do i = 1, batch
        x = below(side - wide + 1)
        y = below(side - wide + 1)
        windows(:, i, b) = [x, x + wide, y, y + wide]
      end do
    end do
  end subroutine

  ! How many marks a window meets, on average: for marks along x or y it is boxes that overlap.
  real function hits_of()
    integer :: i, b, hits
    hits = 0
    do b = 1, batches
      do i = 1, batch
        associate (w => windows(:, i, b))
          hits = hits + count(table(1, :) <= w(2) .and. table(3, :) >= w(1) .and. table(2, :) <= w(4) .and. table(4, :) >= w(3))
        end associate
      end do
    end do
    hits_of = real(hits) / (batch * batches)
  end function

  ! The next of a fixed row of numbers from 0 to most - 1: the same on every machine.
  integer function below(most)
    integer, intent(in) :: most
    random = mod(48271 * random, 2147483647_c_int64_t)
    below = int(random * most / 2147483647_c_int64_t)
  end function
end module

program many
  use survey
  use, intrinsic :: iso_fortran_env, only: real64
  implicit none
  integer, parameter :: sizes(3) = [256, 1024, 4096], wanted(3) = [0, 10, 100], rounds = 41, ways = 4
  real(real64), parameter :: round_seconds = 2e-3
  real(real64) :: seconds(ways, rounds)
  integer :: i, j, r, passes

  print '(a)', '| n | numbers a window | 64 calls: ns a window | one call: ns a window | ratio | ratio of the array forms |'
  print '(a)', '|---:|---:|---:|---:|---:|---:|'
  do i = 1, size(sizes)
    do j = 1, size(wanted)
      call begin(sizes(i), wanted(j))
      if (.not. same(one_by_one, in_one_call)) error stop 'one call and 64 calls differ'
      if (.not. same(one_by_one_array, in_one_call_array)) error stop 'one call and 64 calls differ in the array forms'
      passes = 1 + int(round_seconds / max(took(one_by_one, 1), 1e-6_real64))
      do r = 1, rounds
        seconds(:, r) = [took(one_by_one, passes), took(in_one_call, passes), took(one_by_one_array, passes), &
          took(in_one_call_array, passes)]
      end do
      print '(4(a, i0), 2(a, f4.2), a)', '| ', sizes(i), ' | ', nint(hits_of()), ' | ', nanoseconds(seconds(1, :)), ' | ', &
        nanoseconds(seconds(2, :)), ' | ', median(seconds(2, :) / seconds(1, :)), ' | ', &
        median(seconds(4, :) / seconds(3, :)), ' |'
    end do
  end do

contains

  real(real64) function took(way, passes)
    procedure(asking) :: way
    integer, intent(in) :: passes
    real(real64) :: start, end
    integer :: p, b
    call cpu_time(start)
    do p = 1, passes
      do b = 1, batches
        call way(b)
      end do
    end do
    call cpu_time(end)
    took = end - start
  end function

  integer function nanoseconds(rounds_of_a_way)
    real(real64), intent(in) :: rounds_of_a_way(:)
    nanoseconds = nint(1e9 * median(rounds_of_a_way) / (batch * batches * passes))
  end function

  real(real64) function median(values)
    real(real64), intent(in) :: values(:)
    real(real64) :: rest(size(values))
    integer :: k
    rest = values
    do k = 1, size(rest) / 2
      rest(minloc(rest, 1)) = huge(rest)
    end do
    median = minval(rest)
  end function
end program
