! Marks of a mapping tool, read from text into an array and spelled again from sections of it, without a copy.
program wkt
  use kalinosz
  implicit none
  character(*), parameter :: line = 'MULTILINESTRING ((0 2, 6 2), (4 0, 4 5), (9 9, 9 9))'
  integer(c_int32_t) :: marks(4, 3)
  character(165) :: text
  type(kalinosz_reply) :: reply

  reply = kalinosz_read_wkt(line, len(line, c_size_t), marks, size(marks, kind=c_size_t))
  print '(a, i0, a, i0, a)', 'read: answer ', reply%number, ', ', reply%count, ' marks'
  reply = kalinosz_write_wkt_shape(marks(:, 3:1:-1), text, len(text, c_size_t))
  print '(a)', text(:reply%count)
  reply = kalinosz_write_wkt_shape(marks(:, 1:0), text, len(text, c_size_t))
  print '(a)', text(:reply%count)
  reply = kalinosz_write_wkt_shape(marks, text, 20_c_size_t)
  print '(a, i0)', 'twenty bytes: answer ', reply%number
end program
