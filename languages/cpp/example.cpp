// Kalinosz from C++: builds the index of three marks and asks which of them meet a window.
// g++ -std=c++17 example.cpp $(pkg-config --cflags --libs kalinosz)
#include <kalinosz.h>

#include <array>
#include <iostream>
#include <vector>

int main() {
    // The plate was read from its far end: mark 1 stands in cells 8 to 11, mark 2 four cells below it, mark 3 first.
    // So mark 1 is the base, and the step from mark to mark is -4.
    const std::array<int32_t, 12> plate{9, 9, 9, 9, 4, 0, 4, 5, 0, 2, 6, 2};
    const int64_t kind = 1, base = 8, lower = 1, marks = 3, segment_stride = -4, coordinate_stride = 1;

    std::vector<int32_t> index(kalinosz_words(marks));
    const auto built = kalinosz_build(
        plate.data(), plate.size(), kind, base, lower, marks, segment_stride, coordinate_stride, index.data(), index.size());
    std::cout << "build: answer " << built.number << ", " << built.count << " words\n";

    // Mark 1, (0,2)-(6,2), crosses this window from side to side: neither of its ends lies inside. Mark 2 crosses it upwards.
    std::vector<int32_t> numbers(marks);
    const auto asked = kalinosz_query(index.data(), index.size(), 3, 5, 1, 3, numbers.data(), numbers.size());
    numbers.resize(asked.count);
    std::cout << "query: answer " << asked.number << ", " << asked.count << " met, " << asked.visits << " visits, numbers";
    for (int32_t number : numbers) std::cout << ' ' << number;
    std::cout << '\n';
}
