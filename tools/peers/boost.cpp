// boost FILE: whether Boost.JSON's parser accepts a text, with the handler of its example of a validator. For tools/measure.
#include <boost/json/basic_parser_impl.hpp>
#include <fstream>
#include <sstream>
#include <string>

using Error = boost::json::error_code;
using Text = boost::json::string_view;

struct Nothing {
    static constexpr std::size_t max_object_size = -1, max_array_size = -1, max_key_size = -1, max_string_size = -1;
    bool on_document_begin(Error &) { return true; }
    bool on_document_end(Error &) { return true; }
    bool on_object_begin(Error &) { return true; }
    bool on_object_end(std::size_t, Error &) { return true; }
    bool on_array_begin(Error &) { return true; }
    bool on_array_end(std::size_t, Error &) { return true; }
    bool on_key_part(Text, std::size_t, Error &) { return true; }
    bool on_key(Text, std::size_t, Error &) { return true; }
    bool on_string_part(Text, std::size_t, Error &) { return true; }
    bool on_string(Text, std::size_t, Error &) { return true; }
    bool on_number_part(Text, Error &) { return true; }
    bool on_int64(std::int64_t, Text, Error &) { return true; }
    bool on_uint64(std::uint64_t, Text, Error &) { return true; }
    bool on_double(double, Text, Error &) { return true; }
    bool on_bool(bool, Error &) { return true; }
    bool on_null(Error &) { return true; }
    bool on_comment_part(Text, Error &) { return true; }
    bool on_comment(Text, Error &) { return true; }
};

int main(int count, char **words) {
    if (count != 2) return 2;
    std::ifstream file(words[1], std::ios::binary | std::ios::ate);
    std::string text(file.tellg(), '\0');
    file.seekg(0);
    if (!file.read(&text[0], text.size())) return 2;
    boost::json::parse_options options;
    options.max_depth = 1024;
    boost::json::basic_parser<Nothing> parser(options);
    Error error;
    std::size_t read = parser.write_some(false, text.data(), text.size(), error);
    return !error && read == text.size() ? 0 : 1;
}
