// Much of the standard library, instantiated, for a line table of a useful size.
// PART is another type for each compilation, so that the linker keeps them all.
#include <algorithm>
#include <complex>
#include <deque>
#include <filesystem>
#include <forward_list>
#include <functional>
#include <future>
#include <iostream>
#include <list>
#include <map>
#include <optional>
#include <random>
#include <regex>
#include <set>
#include <sstream>
#include <string>
#include <thread>
#include <unordered_map>
#include <unordered_set>
#include <valarray>
#include <variant>
#include <vector>

namespace {
struct Part {
    int key = PART;
    std::string text;
    bool operator<(const Part &other) const { return key < other.key; }
    bool operator==(const Part &other) const { return key == other.key; }
};
struct Hash {
    std::size_t operator()(const Part &part) const { return std::hash<int>()(part.key); }
};
}

template class std::vector<Part>;
template class std::deque<Part>;
template class std::list<Part>;
template class std::forward_list<Part>;
template class std::map<Part, std::string>;
template class std::multimap<std::string, Part>;
template class std::set<Part>;
template class std::multiset<Part>;
template class std::unordered_map<std::string, Part>;
template class std::unordered_multimap<Part, std::string, Hash>;
template class std::unordered_set<Part, Hash>;
template class std::variant<Part, std::string, std::vector<Part>>;
template class std::optional<Part>;
template class std::function<Part(const Part &)>;
template class std::shared_ptr<Part>;
template class std::basic_regex<char>;
template class std::basic_regex<wchar_t>;
template class std::vector<std::vector<Part>>;
template class std::map<int, std::map<Part, std::list<Part>>>;
template class std::mersenne_twister_engine<std::uint_fast32_t, 32, 624, 397, 31, 0x9908b0df, 11,
    0xffffffff, 7, 0x9d2c5680, 15, 0xefc60000, 18, 1812433253>;

int entry_of(int count);
template <int> int work(int count)
{
    std::vector<Part> parts(count);
    std::mt19937 random(PART);
    std::shuffle(parts.begin(), parts.end(), random);
    std::sort(parts.begin(), parts.end());
    std::stable_sort(parts.begin(), parts.end());
    std::make_heap(parts.begin(), parts.end());
    std::nth_element(parts.begin(), parts.begin() + count / 2, parts.end());
    std::inplace_merge(parts.begin(), parts.begin() + count / 2, parts.end());
    std::stringstream stream;
    for (const Part &part : parts)
        stream << part.key << ' ' << part.text;
    auto later = std::async([&] { return std::count(parts.begin(), parts.end(), Part()); });
    std::smatch match;
    std::string text = stream.str();
    bool found = std::regex_search(text, match, std::regex("([a-z]+)|[[:digit:]]{2,}(x*)"));
    std::cout << std::regex_replace(text, std::regex("a+"), "b") << found;
    std::valarray<double> numbers(count);
    numbers = std::sin(numbers) * 2.0 + std::exp(numbers);
    return later.get() + numbers.sum();
}
template int work<PART>(int);

#if PART == 0
int main(int count, char **)
{
    return work<0>(count);
}
#endif
