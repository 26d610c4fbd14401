// simdjson tape FILE | simdjson ondemand FILE: reads a JSON text and keeps nothing of it. For tools/measure.
#include <simdjson.h>
#include <string>

using namespace simdjson;

static bool walk(ondemand::value value) {
    ondemand::json_type type;
    if (value.type().get(type)) return false;
    switch (type) {
    case ondemand::json_type::array: {
        ondemand::array elements;
        if (value.get_array().get(elements)) return false;
        for (auto each : elements) {
            ondemand::value element;
            if (each.get(element) || !walk(element)) return false;
        }
        return true;
    }
    case ondemand::json_type::object: {
        ondemand::object members;
        if (value.get_object().get(members)) return false;
        for (auto each : members) {
            std::string_view name;
            ondemand::value member;
            if (each.unescaped_key().get(name) || each.value().get(member) || !walk(member)) return false;
        }
        return true;
    }
    case ondemand::json_type::string: {
        std::string_view text;
        return !value.get_string().get(text);
    }
    case ondemand::json_type::number: {
        ondemand::number number;
        return !value.get_number().get(number);
    }
    case ondemand::json_type::boolean: {
        bool which;
        return !value.get_bool().get(which);
    }
    default:
        return value.is_null();
    }
}

static bool on_demand(const padded_string &text) {
    ondemand::parser parser;
    ondemand::document document;
    ondemand::value root;
    std::string_view only;
    bool is_scalar;
    if (parser.iterate(text).get(document) || document.is_scalar().get(is_scalar)) return false;
    // Of the inputs only strings are scalars.
    return is_scalar ? !document.get_string().get(only) : !document.get_value().get(root) && walk(root);
}

int main(int count, char **words) {
    padded_string text;
    if (count != 3 || padded_string::load(words[2]).get(text)) return 2;
    if (std::string(words[1]) == "ondemand") return on_demand(text) ? 0 : 1;
    dom::parser parser;
    return parser.parse(text).error() == SUCCESS ? 0 : 1;
}
