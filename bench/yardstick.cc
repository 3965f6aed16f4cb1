// A yardstick, and no part of the program: what one thread of plain C++ takes to write the files that `show` writes, for
// views of three forms over one relation. Nothing is proved of it, it checks nothing, and it knows no other view.
// `measure.py` builds it, and `show.py` and `shapes.py` compare its files with those of `show`, byte by byte.
//
// usage: yardstick columns|tables|values SOURCE TARGET
//
// columns: values to columns. The last two columns of the source are a label and a value, and those before them the key.
//          TARGET is the file, with the key and a column for each label.
// tables:  values to tables, over the same source. TARGET is a folder, which gets a file for each label.
// values:  columns to values. The first column of the source is the key. TARGET is the file, with a key, a column's name
//          and a value in each row, and the header k,d,v.
//
// Of a source it wants fields without quotes, lines that end with LF, and no two values for one cell. Where a key has
// several columns, their bytes are greater than a comma: such keys are in order as their texts are.

#include <fcntl.h>
#include <sys/mman.h>
#include <sys/stat.h>
#include <unistd.h>

#include <algorithm>
#include <cstdint>
#include <cstdio>
#include <cstdlib>
#include <cstring>
#include <string>
#include <string_view>
#include <unordered_map>
#include <vector>

namespace {

using std::string;
using std::string_view;
using std::vector;

[[noreturn]] void fail(const string &what) {
    std::perror(what.c_str());
    std::exit(1);
}

// The fields of a file, one after another.
class Fields {
public:
    explicit Fields(const char *path) {
        int file = open(path, O_RDONLY);
        struct stat status;
        if (file < 0 || fstat(file, &status) != 0) fail(path);
        void *bytes = mmap(nullptr, status.st_size, PROT_READ, MAP_PRIVATE | MAP_POPULATE, file, 0);
        if (bytes == MAP_FAILED) fail(path);
        size = status.st_size;
        next = static_cast<const char *>(bytes);
        end = next + size;
    }

    bool more() const { return next < end; }

    // The next field. `last` tells whether its line ends behind it.
    string_view take(bool &last) {
        const char *begun = next;
        while (next < end && *next != ',' && *next != '\n') next++;
        string_view field(begun, next - begun);
        last = next >= end || *next == '\n';
        next++;
        return field;
    }

    // The next fields, so many of them, with the commas between them.
    string_view take_key(size_t count) {
        const char *begun = next;
        bool last;
        while (count-- > 0) take(last);
        return string_view(begun, next - 1 - begun);
    }

    size_t size;

private:
    const char *next, *end;
};

// The labels, by numbers: first in the order in which they come, and at last in their own.
class Labels {
public:
    uint32_t number_of(string_view label) {
        if (!texts.empty() && label == before) return before_number;
        auto [found, is_new] = numbers.try_emplace(label, texts.size());
        if (is_new) texts.push_back(label);
        before = label;
        return before_number = found->second;
    }

    // Puts the labels in order, and answers the place of each among them.
    vector<uint32_t> put_in_order() {
        vector<uint32_t> by_place(texts.size()), places(texts.size());
        for (uint32_t number = 0; number < texts.size(); number++) by_place[number] = number;
        std::sort(by_place.begin(), by_place.end(), [&](uint32_t a, uint32_t b) { return texts[a] < texts[b]; });
        vector<string_view> ordered;
        for (uint32_t place = 0; place < by_place.size(); place++) {
            places[by_place[place]] = place;
            ordered.push_back(texts[by_place[place]]);
        }
        texts = std::move(ordered);
        return places;
    }

    vector<string_view> texts;

private:
    std::unordered_map<string_view, uint32_t> numbers;
    string_view before;
    uint32_t before_number = 0;
};

// A key with its first eight bytes as a number, a label and a value.
struct Fact {
    uint64_t front;
    string_view key;
    uint32_t label;
    string_view value;

    bool operator<(const Fact &other) const {
        if (front != other.front) return front < other.front;
        int order = key.compare(other.key);
        if (order != 0) return order < 0;
        return label != other.label ? label < other.label : value < other.value;
    }

    bool operator==(const Fact &other) const { return key == other.key && label == other.label && value == other.value; }
};

uint64_t front_of(string_view text) {
    uint64_t bytes = 0;
    std::memcpy(&bytes, text.data(), std::min<size_t>(text.size(), sizeof bytes));
    return __builtin_bswap64(bytes);
}

// Sorts facts and leaves each once.
void put_in_order(vector<Fact> &facts) {
    std::sort(facts.begin(), facts.end());
    facts.erase(std::unique(facts.begin(), facts.end()), facts.end());
}

// Writes a file beside its place, and moves it there.
void write_file(const string &path, const string &bytes) {
    string beside = path + ".new";
    int file = open(beside.c_str(), O_WRONLY | O_CREAT | O_TRUNC, 0644);
    if (file < 0) fail(beside);
    for (size_t done = 0; done < bytes.size();) {
        ssize_t more = write(file, bytes.data() + done, bytes.size() - done);
        if (more <= 0) fail(beside);
        done += more;
    }
    if (close(file) != 0 || rename(beside.c_str(), path.c_str()) != 0) fail(path);
}

vector<string_view> header(Fields &fields) {
    vector<string_view> names;
    for (bool last = false; !last;) names.push_back(fields.take(last));
    return names;
}

string joined(const vector<string_view> &names, size_t count) {
    string line(names[0]);
    for (size_t place = 1; place < count; place++) line.append(1, ',').append(names[place]);
    return line;
}

// The facts of a source whose last two columns are a label and a value.
vector<Fact> tall_facts(Fields &fields, size_t keys, Labels &labels) {
    vector<Fact> facts;
    facts.reserve(fields.size / 16);
    while (fields.more()) {
        bool last;
        string_view key = fields.take_key(keys), label = fields.take(last), value = fields.take(last);
        facts.push_back({front_of(key), key, labels.number_of(label), value});
    }
    return facts;
}

// The facts of a source with a key and columns of these names.
vector<Fact> wide_facts(Fields &fields, const vector<string_view> &names, Labels &labels) {
    vector<Fact> facts;
    facts.reserve(fields.size / 8);
    for (size_t place = 1; place < names.size(); place++) labels.number_of(names[place]);
    while (fields.more()) {
        bool last;
        string_view key = fields.take(last);
        for (size_t place = 1; place < names.size(); place++) {
            facts.push_back({front_of(key), key, uint32_t(place - 1), fields.take(last)});
        }
    }
    return facts;
}

void number_by_order(vector<Fact> &facts, Labels &labels) {
    vector<uint32_t> places = labels.put_in_order();
    for (Fact &fact : facts) fact.label = places[fact.label];
}

// A row for each key, with a cell for each label.
void write_columns(const string &target, const string &keys, vector<Fact> &facts, const Labels &labels, size_t size) {
    put_in_order(facts);
    string out = keys;
    out.reserve(size * 2);
    for (string_view label : labels.texts) out.append(1, ',').append(label);
    out.append(1, '\n');
    for (auto fact = facts.begin(); fact != facts.end();) {
        string_view key = fact->key;
        out.append(key);
        for (uint32_t label = 0; label < labels.texts.size(); label++) {
            string_view value;
            while (fact != facts.end() && fact->label == label && fact->key == key) value = (fact++)->value;
            out.append(1, ',').append(value);
        }
        out.append(1, '\n');
    }
    write_file(target, out);
}

// A file for each label, with a row for each key and value.
void write_tables(const string &folder, const string &keys_and_value, const vector<Fact> &facts, const Labels &labels) {
    vector<vector<Fact>> parts(labels.texts.size());
    for (const Fact &fact : facts) parts[fact.label].push_back(fact);
    string out;
    for (size_t label = 0; label < parts.size(); label++) {
        put_in_order(parts[label]);
        out.assign(keys_and_value).append(1, '\n');
        for (const Fact &fact : parts[label]) out.append(fact.key).append(1, ',').append(fact.value).append(1, '\n');
        write_file(folder + "/" + string(labels.texts[label]) + ".csv", out);
    }
}

// A row for each key, label and value.
void write_values(const string &target, vector<Fact> &facts, const Labels &labels, size_t size) {
    put_in_order(facts);
    string out = "k,d,v\n";
    out.reserve(size * 2);
    for (const Fact &fact : facts) {
        out.append(fact.key).append(1, ',').append(labels.texts[fact.label]).append(1, ',').append(fact.value).append(1, '\n');
    }
    write_file(target, out);
}

}  // namespace

int main(int count, char **words) {
    if (count != 4) {
        std::fputs("usage: yardstick columns|tables|values SOURCE TARGET\n", stderr);
        return 2;
    }
    string form = words[1], target = words[3];
    Fields fields(words[2]);
    vector<string_view> names = header(fields);
    Labels labels;
    if (form == "values") {
        vector<Fact> facts = wide_facts(fields, names, labels);
        number_by_order(facts, labels);
        write_values(target, facts, labels, fields.size);
        return 0;
    }
    size_t keys = names.size() - 2;
    string line = joined(names, keys);
    vector<Fact> facts = tall_facts(fields, keys, labels);
    number_by_order(facts, labels);
    if (form == "columns") {
        write_columns(target, line, facts, labels, fields.size);
    } else {
        write_tables(target, line.append(1, ',').append(names.back()), facts, labels);
    }
    return 0;
}
