// Reads a descriptor set from the standard input and adds its files to a pool one by one, by the C++ library. Prints the
// microseconds for both, the kilobytes of memory that the process had at most more than before, the microseconds to add one more
// file, and the nanoseconds of each look-up: of a message type by its full name, of a field by its number, and of a field by its name.
#include <google/protobuf/descriptor.h>
#include <google/protobuf/descriptor.pb.h>

#include <chrono>
#include <cstdio>
#include <cstring>
#include <iostream>
#include <iterator>
#include <string>
#include <vector>

using google::protobuf::Descriptor;
using google::protobuf::DescriptorPool;
using google::protobuf::FileDescriptorSet;
using Clock = std::chrono::steady_clock;

// How often each look-up is made, and from one message type to the next that is looked at.
constexpr int kCalls = 200000;
constexpr size_t kStride = 7919;

// The name `b.proto`, and the message type `Z` in the package `z`.
const std::string kOne = "\x0a\x07" "b.proto" "\x12\x01z\x22\x03\x0a\x01Z";

const std::string kFields[] = {"id", "previous", "others", "kind", "text", "bytes"};

// The most kilobytes of memory that the process had so far, as Linux counts them.
long peak() {
    char line[256];
    long kilobytes = 0;
    std::FILE* status = std::fopen("/proc/self/status", "r");
    while (status != nullptr && std::fgets(line, sizeof line, status)) {
        if (std::strncmp(line, "VmHWM:", 6) == 0) std::sscanf(line + 6, "%ld", &kilobytes);
    }
    if (status != nullptr) std::fclose(status);
    return kilobytes;
}

// The nanoseconds of each of so many calls, or 0 where too few found what they looked for.
template <typename Find>
double each(size_t count, Find find) {
    if (count == 0) return 0;
    size_t place = 0;
    int found = 0;
    const auto start = Clock::now();
    for (int call = 0; call < kCalls; ++call) {
        place = (place + kStride) % count;
        found += find(place, call % 6) != nullptr;
    }
    const std::chrono::duration<double, std::nano> passed = Clock::now() - start;
    return found >= kCalls / 10 * 9 ? passed.count() / kCalls : 0;
}

int main() {
    const long before = peak();
    std::string bytes((std::istreambuf_iterator<char>(std::cin)), {});
    const auto start = Clock::now();
    FileDescriptorSet set;
    DescriptorPool pool;
    bool is_made = set.ParseFromString(bytes);
    for (const auto& file : set.file()) is_made = pool.BuildFile(file) != nullptr && is_made;
    const std::chrono::duration<double, std::micro> passed = Clock::now() - start;
    if (!is_made) return 0;
    const long most = peak() - before;
    google::protobuf::FileDescriptorProto one;
    one.ParseFromString(kOne);
    const auto start_of_one = Clock::now();
    const bool is_added = pool.BuildFile(one) != nullptr;
    const std::chrono::duration<double, std::micro> passed_of_one = Clock::now() - start_of_one;
    if (!is_added) return 0;
    std::vector<const Descriptor*> messages;
    std::vector<std::string> names;
    const auto* file = pool.FindFileByName(set.file(0).name());
    for (int at = 0; at < file->message_type_count(); ++at) {
        messages.push_back(file->message_type(at));
        names.push_back(file->message_type(at)->full_name());
    }
    const size_t count = messages.size();
    std::printf("%.0f %ld %.0f %.0f %.0f %.0f\n", passed.count(), most, passed_of_one.count(),
                each(count, [&](size_t at, int) { return pool.FindMessageTypeByName(names[at]); }),
                each(count, [&](size_t at, int field) { return messages[at]->FindFieldByNumber(field + 1); }),
                each(count, [&](size_t at, int field) { return messages[at]->FindFieldByName(kFields[field]); }));
}
