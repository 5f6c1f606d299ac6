// An NPY reader and writer of its own, written from docs/RULES.md alone and sharing no line with the library: what the
// fuzzer compares kan_npy_read and kan_npy_write with. The header is first cut into tokens, then the list of tokens is
// held against what it may be; sizes are compared as digits, so that none can wrap.
#ifndef NPY_READER_HPP
#define NPY_READER_HPP

#include <algorithm>
#include <cstddef>
#include <cstdint>
#include <map>
#include <optional>
#include <string>
#include <vector>

#include "reader.hpp"

namespace npy_reader {

// A string without its quotes ('s'), the digits of a number ('n'), a word of letters ('w'), or one of { } ( ) : ,
struct Token {
    char kind;
    std::string text;

    bool is(char other, const std::string &content) const { return kind == other && text == content; }
};
using Tokens = std::vector<Token>;

inline bool is_digit(char c) { return c >= '0' && c <= '9'; }
inline bool is_letter(char c) { return (c >= 'A' && c <= 'Z') || (c >= 'a' && c <= 'z'); }

// Takes the string that begins at a place, which moves behind it.
inline std::optional<Token> take_string(const std::string &text, size_t &at) {
    const size_t from = at + 1, end = text.find(text[at], from);
    if (end == std::string::npos)
        return std::nullopt;
    at = end + 1;
    const std::string content = text.substr(from, end - from);
    const auto allowed = [](char c) { return c >= 0x20 && c <= 0x7e && c != '\\'; };
    if (!std::all_of(content.begin(), content.end(), allowed))
        return std::nullopt;
    return Token{'s', content};
}

// As many characters of a class as follow one another.
inline Token take_run(const std::string &text, size_t &at, char kind, bool (*belongs)(char)) {
    const size_t from = at;
    while (at < text.size() && belongs(text[at]))
        ++at;
    return {kind, text.substr(from, at - from)};
}

// None where something is no token.
inline std::optional<Tokens> tokens(const std::string &text) {
    Tokens all;
    for (size_t at = 0; at < text.size();) {
        const char c = text[at];
        if (c == ' ') {
            ++at;
        } else if (c == '\'' || c == '"') {
            const std::optional<Token> taken = take_string(text, at);
            if (!taken)
                return std::nullopt;
            all.push_back(*taken);
        } else if (is_digit(c)) {
            all.push_back(take_run(text, at, 'n', is_digit));
        } else if (is_letter(c)) {
            all.push_back(take_run(text, at, 'w', is_letter));
        } else if (std::string("{}():,").find(c) != std::string::npos) {
            all.push_back({c, std::string(1, c)});
            ++at;
        } else {
            return std::nullopt;
        }
    }
    return all;
}

// The dictionary between the braces: which tokens each key has for its value. None where it is no list of keys, each of
// them once, with values.
using Dictionary = std::map<std::string, Tokens>;

inline std::optional<Dictionary> dictionary(Tokens inside) {
    if (!inside.empty() && inside.back().kind != ',')
        inside.push_back({',', ","}); // now every entry ends with a comma
    Dictionary entries;
    Tokens entry;
    bool in_parentheses = false;
    for (const Token &token : inside) {
        in_parentheses = token.kind == '(' || (in_parentheses && token.kind != ')');
        if (token.kind != ',' || in_parentheses) {
            entry.push_back(token);
            continue;
        }
        if (entry.size() < 3 || entry[0].kind != 's' || entry[1].kind != ':')
            return std::nullopt;
        if (!entries.emplace(entry[0].text, Tokens(entry.begin() + 2, entry.end())).second)
            return std::nullopt;
        entry.clear();
    }
    return entry.empty() ? std::optional(entries) : std::nullopt;
}

// The digits of a shape's sizes. None where the tokens are no shape.
inline std::optional<std::vector<std::string>> sizes(const Tokens &value) {
    if (value.size() < 2 || value.front().kind != '(' || value.back().kind != ')')
        return std::nullopt;
    std::vector<std::string> digits;
    for (size_t i = 1; i + 1 < value.size(); ++i) { // a size, a comma, a size, a comma ..
        if (value[i].kind != (i % 2 == 1 ? 'n' : ','))
            return std::nullopt;
        if (value[i].kind != 'n')
            continue;
        if (value[i].text.size() > 1 && value[i].text[0] == '0')
            return std::nullopt;
        digits.push_back(value[i].text);
    }
    return digits;
}

struct Header {
    std::string type;
    bool is_fortran;
    std::vector<std::string> shape;
};

// Of all bytes of the header's text. None where it is malformed.
inline std::optional<Header> parse(std::string text) {
    if (text.empty() || text.front() != '{' || text.back() != '\n')
        return std::nullopt;
    text.pop_back();
    const std::optional<Tokens> all = tokens(text);
    if (!all || all->size() < 2 || all->back().kind != '}')
        return std::nullopt;
    const std::optional<Dictionary> entries = dictionary(Tokens(all->begin() + 1, all->end() - 1));
    if (!entries || entries->size() != 3 || !entries->count("descr") || !entries->count("fortran_order") ||
        !entries->count("shape"))
        return std::nullopt;
    const Tokens &type = entries->at("descr"), &order = entries->at("fortran_order");
    const auto shape = sizes(entries->at("shape"));
    if (type.size() != 1 || type[0].kind != 's' || order.size() != 1 || !shape)
        return std::nullopt;
    if (!order[0].is('w', "True") && !order[0].is('w', "False"))
        return std::nullopt;
    return Header{type[0].text, order[0].text == "True", *shape};
}

// A network, and one of its layers.
struct Place {
    std::vector<size_t> widths;
    size_t g;
    float lo, hi;
    size_t layer;

    bool is_there() const { return layer < widths.size() - 1; }
    size_t inputs() const { return widths[layer]; }
    size_t outputs() const { return widths[layer + 1]; }
    size_t coefficients() const { return inputs() * outputs() * (g + 3); }
    std::vector<std::string> shape() const {
        return {std::to_string(outputs()), std::to_string(inputs()), std::to_string(g + 3)};
    }

    // Where in the model each coefficient stands, in the order of the file.
    std::vector<size_t> places() const {
        size_t edge = 0;
        for (size_t i = 0; i < layer; ++i)
            edge += widths[i] * widths[i + 1] * (g + 5);
        std::vector<size_t> all;
        for (size_t i = 0; i < inputs() * outputs(); ++i, edge += g + 5)
            for (size_t k = 0; k < g + 3; ++k)
                all.push_back(edge + 2 + k);
        return all;
    }
};

struct Answer {
    uint32_t number = 0; // the refusal, 0 where there is none
    size_t carried = 0;
    std::vector<uint32_t> coefficients; // their bits
};

inline bool is_finite(uint32_t bits) { return (bits & 0x7f800000) != 0x7f800000; }

// What both calls check first: the configuration, 8 and 37.
inline Answer admit(const Place &place, size_t model) {
    const reader::Configured configured = reader::configure(place.widths, place.g, place.lo, place.hi);
    if (configured.number != 0)
        return {configured.number, configured.carried, {}};
    if (model != configured.parameters)
        return {8, 0, {}};
    return {place.is_there() ? 0u : 37u, 0, {}};
}

// The header's checks: 29 or 30, or 0 and the place where the body begins.
inline uint32_t check_header(const Place &place, const std::string &file, size_t &body) {
    const std::string magic("\x93NUMPY\x01\0", 8);
    if (file.size() < 10 || file.compare(0, 8, magic) != 0)
        return 29;
    body = 10 + static_cast<uint8_t>(file[8]) + 256 * static_cast<size_t>(static_cast<uint8_t>(file[9]));
    if (body > file.size())
        return 29;
    const std::optional<Header> header = parse(file.substr(10, body - 10));
    if (!header)
        return 29;
    return header->type == "<f4" && !header->is_fortran && header->shape == place.shape() ? 0 : 30;
}

// The reader's checks in their order, for a model of these bits.
inline Answer read(const Place &place, const std::vector<uint32_t> &model, const std::string &file) {
    Answer answer = admit(place, model.size());
    if (answer.number != 0)
        return answer;
    if (!std::all_of(model.begin(), model.end(), is_finite))
        return {11, 0, {}};
    size_t body = 0;
    if (const uint32_t number = check_header(place, file, body))
        return {number, 0, {}};
    if (file.size() - body != 4 * place.coefficients())
        return {29, 0, {}};
    const auto *bytes = reinterpret_cast<const uint8_t *>(file.data());
    for (; body < file.size(); body += 4)
        answer.coefficients.push_back(reader::word(bytes, body));
    if (!std::all_of(answer.coefficients.begin(), answer.coefficients.end(), is_finite))
        return {11, 0, {}};
    return answer;
}

// The file of a layer that is there.
inline std::string written(const Place &place, const std::vector<uint32_t> &model) {
    const std::vector<std::string> shape = place.shape();
    std::string file("\x93NUMPY\x01\0v\0", 10);
    file +=
        "{'descr': '<f4', 'fortran_order': False, 'shape': (" + shape[0] + ", " + shape[1] + ", " + shape[2] + "), }";
    file.resize(127, ' ');
    file += '\n';
    for (const size_t coefficient : place.places())
        for (size_t byte = 0; byte < 4; ++byte)
            file += static_cast<char>(model[coefficient] >> 8 * byte);
    return file;
}

} // namespace npy_reader

#endif
