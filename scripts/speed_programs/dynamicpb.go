// Reads, changes and writes a message as often as standard input says, by Go's dynamicpb, and prints how long that took.
package main

import (
	"encoding/binary"
	"fmt"
	"io"
	"math"
	"os"
	"runtime"
	"runtime/debug"
	"time"

	"google.golang.org/protobuf/proto"
	"google.golang.org/protobuf/reflect/protodesc"
	"google.golang.org/protobuf/reflect/protoreflect"
	"google.golang.org/protobuf/types/descriptorpb"
	"google.golang.org/protobuf/types/dynamicpb"
)

func must(err error) {
	if err != nil {
		panic(err)
	}
}

// What is read and written, and how often.
type input struct {
	runs       int
	steps      string
	descriptor protoreflect.MessageDescriptor
	message    []byte
	part       []byte
}

// How long all turns took, for each sort of them, what was written last, and a sum over what was seen.
type outcome struct {
	times   []int64
	written []byte
	sum     uint64
}

// The number in the first four bytes, and the bytes behind them.
func number(bytes []byte) (int, []byte) {
	return int(binary.LittleEndian.Uint32(bytes)), bytes[4:]
}

// The bytes that a number in front of them counts, and those behind them.
func part(bytes []byte) ([]byte, []byte) {
	size, rest := number(bytes)
	return rest[:size], rest[size:]
}

func messageType(set, name []byte) protoreflect.MessageDescriptor {
	records := &descriptorpb.FileDescriptorSet{}
	must(proto.Unmarshal(set, records))
	files, err := protodesc.NewFiles(records)
	must(err)
	found, err := files.FindDescriptorByName(protoreflect.FullName(name))
	must(err)
	return found.(protoreflect.MessageDescriptor)
}

func given(bytes []byte) *input {
	runs, rest := number(bytes)
	set, rest := part(rest)
	steps, rest := part(rest)
	name, rest := part(rest)
	message, rest := part(rest)
	return &input{runs, string(steps), messageType(set, name), message, rest}
}

// Required fields are not asked for.
var (
	merging = proto.UnmarshalOptions{Merge: true, AllowPartial: true}
	writing = proto.MarshalOptions{AllowPartial: true}
)

func read(in *input) *dynamicpb.Message {
	message := dynamicpb.NewMessage(in.descriptor)
	must(merging.Unmarshal(in.message, message))
	return message
}

func write(message *dynamicpb.Message) []byte {
	written, err := writing.Marshal(message)
	must(err)
	return written
}

func readAndWrite(in *input) outcome {
	message := read(in)

	start := time.Now()
	for run := 0; run < in.runs; run++ {
		must(proto.Unmarshal(in.message, dynamicpb.NewMessage(in.descriptor)))
	}
	toRead := time.Since(start).Nanoseconds()

	start = time.Now()
	for run := 0; run < in.runs; run++ {
		_, err := proto.Marshal(message)
		must(err)
	}
	toWrite := time.Since(start).Nanoseconds()
	return outcome{[]int64{toRead, toWrite}, write(message), 0}
}

func scalar(kind protoreflect.Kind, value protoreflect.Value) uint64 {
	switch kind {
	case protoreflect.BoolKind:
		if value.Bool() {
			return 1
		}
		return 0
	case protoreflect.Int32Kind, protoreflect.Sint32Kind, protoreflect.Sfixed32Kind,
		protoreflect.Int64Kind, protoreflect.Sint64Kind, protoreflect.Sfixed64Kind:
		return uint64(value.Int())
	case protoreflect.Uint32Kind, protoreflect.Fixed32Kind, protoreflect.Uint64Kind, protoreflect.Fixed64Kind:
		return value.Uint()
	case protoreflect.FloatKind:
		return uint64(math.Float32bits(float32(value.Float())))
	case protoreflect.DoubleKind:
		return math.Float64bits(value.Float())
	case protoreflect.StringKind:
		return uint64(len(value.String()))
	case protoreflect.BytesKind:
		return uint64(len(value.Bytes()))
	case protoreflect.EnumKind:
		return uint64(value.Enum())
	}
	return 0
}

func ofElement(field protoreflect.FieldDescriptor, value protoreflect.Value) uint64 {
	if field.Message() != nil {
		return ofMessage(value.Message())
	}
	return scalar(field.Kind(), value)
}

func ofField(field protoreflect.FieldDescriptor, value protoreflect.Value) uint64 {
	sum := uint64(0)
	switch {
	case field.IsList():
		list := value.List()
		for i := 0; i < list.Len(); i++ {
			sum += ofElement(field, list.Get(i))
		}
	case field.IsMap():
		value.Map().Range(func(key protoreflect.MapKey, value protoreflect.Value) bool {
			sum += scalar(field.MapKey().Kind(), key.Value()) + ofElement(field.MapValue(), value)
			return true
		})
	default:
		sum = ofElement(field, value)
	}
	return sum
}

// A sum over the numbers of all fields that the message has, and their values, at every depth.
func ofMessage(message protoreflect.Message) uint64 {
	sum := uint64(0)
	message.Range(func(field protoreflect.FieldDescriptor, value protoreflect.Value) bool {
		sum += uint64(field.Number()) + ofField(field, value)
		return true
	})
	return sum
}

func walk(in *input) outcome {
	message := read(in)
	sum := uint64(0)
	start := time.Now()
	for run := 0; run < in.runs; run++ {
		sum += ofMessage(message)
	}
	return outcome{[]int64{time.Since(start).Nanoseconds()}, nil, sum}
}

func serve(in *input) outcome {
	fields := in.descriptor.Fields()
	var got []protoreflect.FieldDescriptor
	for _, number := range []protoreflect.FieldNumber{1, 2, 6, 7, 10} {
		got = append(got, fields.ByNumber(number))
	}
	status, note := fields.ByNumber(6), fields.ByNumber(19)
	message := dynamicpb.NewMessage(in.descriptor)
	var out []byte
	sum := uint64(0)
	start := time.Now()
	for run := 0; run < in.runs; run++ {
		proto.Reset(message)
		must(merging.Unmarshal(in.message, message))
		for _, field := range got {
			value := message.Get(field)
			if field.IsList() {
				sum += uint64(value.List().Len())
			} else {
				sum += scalar(field.Kind(), value)
			}
		}
		message.Set(status, protoreflect.ValueOfInt32(int32(run%1000)+1))
		message.Set(note, protoreflect.ValueOfString("seen, and sent on from here"))
		var err error
		out, err = writing.MarshalAppend(out[:0], message)
		must(err)
		sum += uint64(len(out))
	}
	return outcome{[]int64{time.Since(start).Nanoseconds()}, out, sum}
}

func edit(in *input) outcome {
	var out []byte
	sum := uint64(0)
	start := time.Now()
	for run := 0; run < in.runs; run++ {
		message := read(in)
		inside := message.ProtoReflect()
		for _, number := range []protoreflect.FieldNumber{2, 2} {
			inside = inside.Mutable(inside.Descriptor().Fields().ByNumber(number)).Message()
		}
		inside.Set(inside.Descriptor().Fields().ByNumber(2), protoreflect.ValueOfInt32(int32(run%1000)+1))
		out = write(message)
		sum += uint64(len(out))
	}
	return outcome{[]int64{time.Since(start).Nanoseconds()}, out, sum}
}

func pass(in *input) outcome {
	var out []byte
	sum := uint64(0)
	start := time.Now()
	for run := 0; run < in.runs; run++ {
		out = write(read(in))
		sum += uint64(len(out))
	}
	return outcome{[]int64{time.Since(start).Nanoseconds()}, out, sum}
}

func mergePart(in *input) outcome {
	message := read(in)
	start := time.Now()
	for run := 0; run < in.runs; run++ {
		must(merging.Unmarshal(in.part, message))
	}
	return outcome{[]int64{time.Since(start).Nanoseconds()}, write(message), 0}
}

const items = 834

func build(in *input) outcome {
	itemsField := in.descriptor.Fields().ByNumber(1)
	fields := itemsField.Message().Fields()
	id, name, value := fields.ByNumber(1), fields.ByNumber(2), fields.ByNumber(3)
	tags, label, flag := fields.ByNumber(4), fields.ByNumber(5), fields.ByNumber(6)
	text, delta := label.Message().Fields().ByNumber(1), label.Message().Fields().ByNumber(2)
	var out []byte
	sum := uint64(0)
	start := time.Now()
	for run := 0; run < in.runs; run++ {
		message := dynamicpb.NewMessage(in.descriptor)
		list := message.Mutable(itemsField).List()
		for i := 0; i < items; i++ {
			item := list.AppendMutable().Message()
			item.Set(id, protoreflect.ValueOfInt32(int32(i)+1))
			item.Set(name, protoreflect.ValueOfString("item number"))
			item.Set(value, protoreflect.ValueOfFloat64(math.Float64frombits(0x3ff0_0000_0000_0000+uint64(i))))
			numbers := item.Mutable(tags).List()
			for tag := i; tag < i+3; tag++ {
				numbers.Append(protoreflect.ValueOfUint32(uint32(tag)))
			}
			inside := item.Mutable(label).Message()
			inside.Set(text, protoreflect.ValueOfString("label"))
			inside.Set(delta, protoreflect.ValueOfInt64(int64(i)+1))
			item.Set(flag, protoreflect.ValueOfBool(true))
		}
		out = write(message)
		sum += uint64(len(out))
	}
	return outcome{[]int64{time.Since(start).Nanoseconds()}, out, sum}
}

// What is set aside once all that is out of reach was collected.
func collected() runtime.MemStats {
	var stats runtime.MemStats
	runtime.GC()
	runtime.GC()
	runtime.ReadMemStats(&stats)
	return stats
}

// Reads the message as often as is asked, keeps all, and collects nothing meanwhile. Writes to the file that COUNTED names how
// many bytes are set aside before, twice; and then how many stay, and how many there are before those out of reach are collected.
func memory(in *input) outcome {
	written := write(read(in))
	kept := make([]*dynamicpb.Message, in.runs)
	debug.SetGCPercent(-1)
	before := collected()
	start := time.Now()
	for run := range kept {
		kept[run] = read(in)
	}
	toRead := time.Since(start).Nanoseconds()
	var most runtime.MemStats
	runtime.ReadMemStats(&most)
	behind := collected()
	runtime.KeepAlive(kept)
	runtime.KeepAlive(in)
	counts := fmt.Sprintln(before.HeapAlloc, before.HeapAlloc) + fmt.Sprintln(behind.HeapAlloc, most.HeapAlloc)
	must(os.WriteFile(os.Getenv("COUNTED"), []byte(counts), 0o600))
	return outcome{[]int64{toRead}, written, 0}
}

func main() {
	bytes, err := io.ReadAll(os.Stdin)
	must(err)
	in := given(bytes)
	steps := map[string]func(*input) outcome{
		"read_write": readAndWrite, "serve": serve, "edit": edit, "pass": pass, "merge": mergePart, "walk": walk, "build": build,
		"memory": memory,
	}
	done := steps[in.steps](in)
	for _, b := range done.written {
		done.sum += uint64(b)
	}
	for _, taken := range done.times {
		fmt.Print(taken, " ")
	}
	fmt.Println(len(done.written), done.sum)
}
