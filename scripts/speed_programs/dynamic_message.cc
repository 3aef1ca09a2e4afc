// Reads, changes and writes a message as often as standard input says, by C++'s DynamicMessage, and prints how long that took.
#include <google/protobuf/descriptor.h>
#include <google/protobuf/descriptor.pb.h>
#include <google/protobuf/dynamic_message.h>
#include <google/protobuf/io/coded_stream.h>

#include <chrono>
#include <cstdint>
#include <cstdio>
#include <cstdlib>
#include <cstring>
#include <initializer_list>
#include <iostream>
#include <iterator>
#include <memory>
#include <string>
#include <vector>

using google::protobuf::Descriptor;
using google::protobuf::DescriptorPool;
using google::protobuf::DynamicMessageFactory;
using google::protobuf::FieldDescriptor;
using google::protobuf::FileDescriptorSet;
using google::protobuf::Message;
using google::protobuf::Reflection;
using google::protobuf::io::CodedInputStream;

// What is read and written, and how often.
struct Input {
    size_t runs;
    std::string steps;
    const Message* prototype;
    std::string message;
    std::string part;
};

// How long all turns took, for each sort of them, what was written last, and a sum over what was seen.
struct Outcome {
    std::vector<long long> times;
    std::string written;
    uint64_t sum;
};

static void Must(bool is_so) {
    if (!is_so) std::exit(1);
}

// The number in the first four bytes, least first, which are taken off.
static size_t TakeNumber(std::string& input) {
    size_t number = 0;
    for (int i = 3; i >= 0; i--) number = number << 8 | static_cast<unsigned char>(input.at(i));
    input.erase(0, 4);
    return number;
}

// The bytes that a number in front of them counts, which are taken off.
static std::string TakePart(std::string& input) {
    const size_t size = TakeNumber(input);
    std::string part = input.substr(0, size);
    input.erase(0, size);
    return part;
}

static long long Nanoseconds(std::chrono::steady_clock::time_point start) {
    return std::chrono::duration_cast<std::chrono::nanoseconds>(std::chrono::steady_clock::now() - start).count();
}

// The message, whose required fields are not asked for.
static std::unique_ptr<Message> Read(const Input& input) {
    std::unique_ptr<Message> message(input.prototype->New());
    Must(message->ParsePartialFromString(input.message));
    return message;
}

static std::string Written(const Message& message) {
    std::string out;
    Must(message.SerializePartialToString(&out));
    return out;
}

static Outcome ReadAndWrite(const Input& input) {
    const std::unique_ptr<Message> message = Read(input);

    auto start = std::chrono::steady_clock::now();
    for (size_t run = 0; run < input.runs; run++) {
        std::unique_ptr<Message> again(input.prototype->New());
        Must(again->ParseFromString(input.message));
    }
    const long long to_read = Nanoseconds(start);

    start = std::chrono::steady_clock::now();
    for (size_t run = 0; run < input.runs; run++) {
        std::string out;
        Must(message->SerializeToString(&out));
    }
    const long long to_write = Nanoseconds(start);
    return {{to_read, to_write}, Written(*message), 0};
}

template <typename Bits, typename Float>
static uint64_t BitsOf(Float value) {
    Bits bits;
    static_assert(sizeof bits == sizeof value, "of one size");
    std::memcpy(&bits, &value, sizeof bits);
    return bits;
}

static uint64_t OfMessage(const Message& message);

static uint64_t OfValue(const Message& message, const FieldDescriptor* field) {
    const Reflection* reflection = message.GetReflection();
    std::string scratch;
    switch (field->cpp_type()) {
        case FieldDescriptor::CPPTYPE_INT32: return static_cast<int64_t>(reflection->GetInt32(message, field));
        case FieldDescriptor::CPPTYPE_INT64: return reflection->GetInt64(message, field);
        case FieldDescriptor::CPPTYPE_UINT32: return reflection->GetUInt32(message, field);
        case FieldDescriptor::CPPTYPE_UINT64: return reflection->GetUInt64(message, field);
        case FieldDescriptor::CPPTYPE_FLOAT: return BitsOf<uint32_t>(reflection->GetFloat(message, field));
        case FieldDescriptor::CPPTYPE_DOUBLE: return BitsOf<uint64_t>(reflection->GetDouble(message, field));
        case FieldDescriptor::CPPTYPE_BOOL: return reflection->GetBool(message, field);
        case FieldDescriptor::CPPTYPE_ENUM: return static_cast<int64_t>(reflection->GetEnumValue(message, field));
        case FieldDescriptor::CPPTYPE_STRING: return reflection->GetStringReference(message, field, &scratch).size();
        case FieldDescriptor::CPPTYPE_MESSAGE: return OfMessage(reflection->GetMessage(message, field));
    }
    return 0;
}

static uint64_t OfElement(const Message& message, const FieldDescriptor* field, int i) {
    const Reflection* reflection = message.GetReflection();
    std::string scratch;
    switch (field->cpp_type()) {
        case FieldDescriptor::CPPTYPE_INT32: return static_cast<int64_t>(reflection->GetRepeatedInt32(message, field, i));
        case FieldDescriptor::CPPTYPE_INT64: return reflection->GetRepeatedInt64(message, field, i);
        case FieldDescriptor::CPPTYPE_UINT32: return reflection->GetRepeatedUInt32(message, field, i);
        case FieldDescriptor::CPPTYPE_UINT64: return reflection->GetRepeatedUInt64(message, field, i);
        case FieldDescriptor::CPPTYPE_FLOAT: return BitsOf<uint32_t>(reflection->GetRepeatedFloat(message, field, i));
        case FieldDescriptor::CPPTYPE_DOUBLE: return BitsOf<uint64_t>(reflection->GetRepeatedDouble(message, field, i));
        case FieldDescriptor::CPPTYPE_BOOL: return reflection->GetRepeatedBool(message, field, i);
        case FieldDescriptor::CPPTYPE_ENUM: return static_cast<int64_t>(reflection->GetRepeatedEnumValue(message, field, i));
        case FieldDescriptor::CPPTYPE_STRING: return reflection->GetRepeatedStringReference(message, field, i, &scratch).size();
        case FieldDescriptor::CPPTYPE_MESSAGE: return OfMessage(reflection->GetRepeatedMessage(message, field, i));
    }
    return 0;
}

static uint64_t OfEntries(const Message& message, const FieldDescriptor* field) {
    const Reflection* reflection = message.GetReflection();
    const FieldDescriptor* key = field->message_type()->map_key();
    const FieldDescriptor* value = field->message_type()->map_value();
    const int size = reflection->FieldSize(message, field);
    uint64_t sum = 0;
    for (int i = 0; i < size; i++) {
        const Message& entry = reflection->GetRepeatedMessage(message, field, i);
        sum += OfValue(entry, key) + OfValue(entry, value);
    }
    return sum;
}

static uint64_t OfField(const Message& message, const FieldDescriptor* field) {
    if (!field->is_repeated()) return OfValue(message, field);
    if (field->is_map()) return OfEntries(message, field);
    uint64_t sum = 0;
    const int size = message.GetReflection()->FieldSize(message, field);
    for (int i = 0; i < size; i++) sum += OfElement(message, field, i);
    return sum;
}

// A sum over the numbers of all fields that the message has, and their values, at every depth.
static uint64_t OfMessage(const Message& message) {
    std::vector<const FieldDescriptor*> fields;
    message.GetReflection()->ListFields(message, &fields);
    uint64_t sum = 0;
    for (const FieldDescriptor* field : fields) sum += field->number() + OfField(message, field);
    return sum;
}

static Outcome Walk(const Input& input) {
    const std::unique_ptr<Message> message = Read(input);
    uint64_t sum = 0;
    const auto start = std::chrono::steady_clock::now();
    for (size_t run = 0; run < input.runs; run++) sum += OfMessage(*message);
    return {{Nanoseconds(start)}, "", sum};
}

static Outcome Serve(const Input& input) {
    const Descriptor* type = input.prototype->GetDescriptor();
    const Reflection* reflection = input.prototype->GetReflection();
    std::vector<const FieldDescriptor*> got;
    for (const int number : {1, 2, 6, 7, 10}) got.push_back(type->FindFieldByNumber(number));
    const FieldDescriptor* status = type->FindFieldByNumber(6);
    const FieldDescriptor* note = type->FindFieldByNumber(19);
    const std::unique_ptr<Message> message(input.prototype->New());
    std::string out;
    uint64_t sum = 0;
    const auto start = std::chrono::steady_clock::now();
    for (size_t run = 0; run < input.runs; run++) {
        Must(message->ParsePartialFromString(input.message));
        for (const FieldDescriptor* field : got) {
            sum += field->is_repeated() ? reflection->FieldSize(*message, field) : OfValue(*message, field);
        }
        reflection->SetInt32(message.get(), status, static_cast<int>(run % 1000) + 1);
        reflection->SetString(message.get(), note, "seen, and sent on from here");
        out.clear();
        Must(message->AppendPartialToString(&out));
        sum += out.size();
    }
    return {{Nanoseconds(start)}, out, sum};
}

static Outcome Edit(const Input& input) {
    std::string out;
    uint64_t sum = 0;
    const auto start = std::chrono::steady_clock::now();
    for (size_t run = 0; run < input.runs; run++) {
        const std::unique_ptr<Message> message = Read(input);
        Message* inside = message.get();
        for (const int number : {2, 2}) {
            inside = inside->GetReflection()->MutableMessage(inside, inside->GetDescriptor()->FindFieldByNumber(number));
        }
        const FieldDescriptor* field = inside->GetDescriptor()->FindFieldByNumber(2);
        inside->GetReflection()->SetInt32(inside, field, static_cast<int>(run % 1000) + 1);
        out = Written(*message);
        sum += out.size();
    }
    return {{Nanoseconds(start)}, out, sum};
}

static Outcome Pass(const Input& input) {
    std::string out;
    uint64_t sum = 0;
    const auto start = std::chrono::steady_clock::now();
    for (size_t run = 0; run < input.runs; run++) {
        out = Written(*Read(input));
        sum += out.size();
    }
    return {{Nanoseconds(start)}, out, sum};
}

static Outcome Merge(const Input& input) {
    const std::unique_ptr<Message> message = Read(input);
    const auto start = std::chrono::steady_clock::now();
    for (size_t run = 0; run < input.runs; run++) {
        CodedInputStream stream(reinterpret_cast<const uint8_t*>(input.part.data()), static_cast<int>(input.part.size()));
        Must(message->MergePartialFromCodedStream(&stream));
    }
    return {{Nanoseconds(start)}, Written(*message), 0};
}

static const int kItems = 834;

static Outcome Build(const Input& input) {
    const Reflection* reflection = input.prototype->GetReflection();
    const FieldDescriptor* items = input.prototype->GetDescriptor()->FindFieldByNumber(1);
    const Descriptor* item_type = items->message_type();
    const FieldDescriptor* id = item_type->FindFieldByNumber(1);
    const FieldDescriptor* name = item_type->FindFieldByNumber(2);
    const FieldDescriptor* value = item_type->FindFieldByNumber(3);
    const FieldDescriptor* tags = item_type->FindFieldByNumber(4);
    const FieldDescriptor* label = item_type->FindFieldByNumber(5);
    const FieldDescriptor* flag = item_type->FindFieldByNumber(6);
    const FieldDescriptor* text = label->message_type()->FindFieldByNumber(1);
    const FieldDescriptor* delta = label->message_type()->FindFieldByNumber(2);
    std::string out;
    uint64_t sum = 0;
    const auto start = std::chrono::steady_clock::now();
    for (size_t run = 0; run < input.runs; run++) {
        const std::unique_ptr<Message> message(input.prototype->New());
        for (int i = 0; i < kItems; i++) {
            Message* item = reflection->AddMessage(message.get(), items);
            const Reflection* of_item = item->GetReflection();
            of_item->SetInt32(item, id, i + 1);
            of_item->SetString(item, name, "item number");
            const uint64_t bits = 0x3ff0000000000000 + i;
            double number;
            std::memcpy(&number, &bits, sizeof number);
            of_item->SetDouble(item, value, number);
            for (int tag = i; tag < i + 3; tag++) of_item->AddUInt32(item, tags, tag);
            Message* inside = of_item->MutableMessage(item, label);
            const Reflection* of_label = inside->GetReflection();
            of_label->SetString(inside, text, "label");
            of_label->SetInt64(inside, delta, i + 1);
            of_item->SetBool(item, flag, true);
        }
        out = Written(*message);
        sum += out.size();
    }
    return {{Nanoseconds(start)}, out, sum};
}

// Reads the message once, when all that is made once was made, and keeps it until the clock was read again.
static Outcome Memory(const Input& input) {
    Written(*Read(input));
    const auto start = std::chrono::steady_clock::now();
    const std::unique_ptr<Message> message = Read(input);
    const long long to_read = Nanoseconds(start);
    return {{to_read}, Written(*message), 0};
}

static Outcome Taken(const Input& input) {
    if (input.steps == "read_write") return ReadAndWrite(input);
    if (input.steps == "serve") return Serve(input);
    if (input.steps == "edit") return Edit(input);
    if (input.steps == "pass") return Pass(input);
    if (input.steps == "merge") return Merge(input);
    if (input.steps == "walk") return Walk(input);
    if (input.steps == "build") return Build(input);
    Must(input.steps == "memory");
    return Memory(input);
}

int main() {
    std::string bytes((std::istreambuf_iterator<char>(std::cin)), {});
    Input input;
    input.runs = TakeNumber(bytes);
    FileDescriptorSet set;
    Must(set.ParseFromString(TakePart(bytes)));
    DescriptorPool pool;
    for (const auto& file : set.file()) pool.BuildFile(file);
    DynamicMessageFactory factory(&pool);
    input.steps = TakePart(bytes);
    input.prototype = factory.GetPrototype(pool.FindMessageTypeByName(TakePart(bytes)));
    input.message = TakePart(bytes);
    input.part = bytes;

    Outcome outcome = Taken(input);
    for (const char byte : outcome.written) outcome.sum += static_cast<unsigned char>(byte);
    for (const long long time : outcome.times) std::printf("%lld ", time);
    std::printf("%zu %llu\n", outcome.written.size(), static_cast<unsigned long long>(outcome.sum));
}
