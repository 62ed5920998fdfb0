"""Kalinosz from Python: builds the index of three marks and asks which of them meet a window.

KALINOSZ=PREFIX/lib/libkalinosz.so python3 example.py
"""

from array import array

from kalinosz import Descriptor, build, cells, query, words

# The plate was read from its far end: mark 1 stands in cells 8 to 11, mark 2 four cells below it, mark 3 first.
# So mark 1 is the base, and the step from mark to mark is -4.
plate = array("i", [9, 9, 9, 9, 4, 0, 4, 5, 0, 2, 6, 2])
marks = Descriptor(kind=1, base=8, lower=1, n=3, segment_stride=-4, coordinate_stride=1)

index = cells(words(marks.n))
built = build(plate, marks, index)
print(f"build: answer {built.number}, {built.count} words")

# Mark 1, (0,2)-(6,2), crosses this window from side to side: neither of its ends lies inside. Mark 2 crosses it upwards.
numbers = cells(marks.n)
asked = query(index, (3, 5, 1, 3), numbers)
print(f"query: answer {asked.number}, {asked.count} met, {asked.visits} visits, numbers", *numbers[: asked.count])
