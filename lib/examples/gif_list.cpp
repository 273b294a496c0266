// The pictures of a GIF file: left, top, width and height of each, as `giftext` has them.
//
//   c++ -I../include gif_list.cpp -L../out -lipg -o gif_list && ./gif_list picture.gif
#include "ipg.h"
#include <fstream>
#include <iostream>
#include <iterator>
#include <sstream>
#include <stdexcept>
#include <string>
#include <vector>

namespace {

ipg_bytes bytes_of(const std::string &text) {
  return {reinterpret_cast<const unsigned char *>(text.data()), text.size()};
}

// Runs ipg over one file under the name `input`.
std::string run(const std::vector<std::string> &words, const std::string &input) {
  std::vector<ipg_bytes> told;
  for (const auto &word : words) told.push_back(bytes_of(word));
  const ipg_file file{IPG_TEXT("input"), bytes_of(input)};
  std::string text(1 << 16, '\0');
  for (;;) {
    uint64_t size = 0;
    const auto status = ipg_run(told.data(), told.size(), &file, 1, reinterpret_cast<unsigned char *>(&text[0]), text.size(), &size);
    const bool is_whole = size <= text.size();
    text.resize(size);
    if (!is_whole) continue;
    if (status != IPG_DONE) throw std::runtime_error(text.empty() ? "want of memory" : text);
    return text;
  }
}

std::vector<long> picked(const std::string &input, const std::string &path) {
  std::istringstream lines(run({"query", "@gif", "input", path}, input));
  return {std::istream_iterator<long>(lines), {}};
}

} // namespace

int main(int count, char **names) try {
  std::ifstream file(count == 2 ? names[1] : "", std::ios::binary);
  if (!file) throw std::runtime_error("gif_list FILE");
  const std::string input{std::istreambuf_iterator<char>(file), {}};
  const auto left = picked(input, "**/Image.left"), top = picked(input, "**/Image.top");
  const auto width = picked(input, "**/Image.width"), height = picked(input, "**/Image.height");
  for (std::size_t k = 0; k < left.size(); k++) std::cout << left[k] << ' ' << top[k] << ' ' << width[k] << ' ' << height[k] << '\n';
} catch (const std::exception &error) {
  std::cerr << error.what() << '\n';
  return 1;
}
