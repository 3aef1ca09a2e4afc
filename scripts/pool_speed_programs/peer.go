// Reads a descriptor set from the standard input and adds its files to a registry one by one, by Go's library. Prints the
// microseconds for both, the microseconds to add one more file, which has the message type `Z` in the package `z`, and the
// nanoseconds of each look-up: of a message type by its full name, of a field by its number, and of a field by its name.
package main

import (
	"fmt"
	"io"
	"os"
	"time"

	"google.golang.org/protobuf/proto"
	"google.golang.org/protobuf/reflect/protodesc"
	"google.golang.org/protobuf/reflect/protoreflect"
	"google.golang.org/protobuf/reflect/protoregistry"
	"google.golang.org/protobuf/types/descriptorpb"
)

// How often each look-up is made, and from one message type to the next that is looked at.
const (
	calls  = 200000
	stride = 7919
)

var fields = []protoreflect.Name{"id", "previous", "others", "kind", "text", "bytes"}

func must(err error) {
	if err != nil {
		panic(err)
	}
}

// The nanoseconds of each of so many calls, or 0 where too few found what they looked for.
func each(count int, find func(place, field int) bool) int64 {
	if count == 0 {
		return 0
	}
	place, found := 0, 0
	start := time.Now()
	for call := 0; call < calls; call++ {
		place = (place + stride) % count
		if find(place, call%6) {
			found++
		}
	}
	passed := time.Since(start).Nanoseconds()
	if found < calls/10*9 {
		return 0
	}
	return passed / calls
}

func main() {
	bytes, err := io.ReadAll(os.Stdin)
	must(err)
	start := time.Now()
	set := &descriptorpb.FileDescriptorSet{}
	must(proto.Unmarshal(bytes, set))
	files := &protoregistry.Files{}
	for _, record := range set.File {
		file, err := protodesc.NewFile(record, files)
		must(err)
		must(files.RegisterFile(file))
	}
	passed := time.Since(start).Microseconds()
	one := &descriptorpb.FileDescriptorProto{}
	must(proto.Unmarshal([]byte("\x0a\x07b.proto\x12\x01z\x22\x03\x0a\x01Z"), one))
	start = time.Now()
	file, err := protodesc.NewFile(one, files)
	must(err)
	must(files.RegisterFile(file))
	added := time.Since(start).Microseconds()
	found, err := files.FindFileByPath(set.File[0].GetName())
	must(err)
	messages := found.Messages()
	names := []protoreflect.FullName{}
	for at := 0; at < messages.Len(); at++ {
		names = append(names, messages.Get(at).FullName())
	}
	byFullName := each(len(names), func(place, _ int) bool {
		found, err := files.FindDescriptorByName(names[place])
		return err == nil && found != nil
	})
	byNumber := each(len(names), func(place, field int) bool {
		return messages.Get(place).Fields().ByNumber(protoreflect.FieldNumber(field+1)) != nil
	})
	byName := each(len(names), func(place, field int) bool {
		return messages.Get(place).Fields().ByName(fields[field]) != nil
	})
	fmt.Println(passed, added, byFullName, byNumber, byName)
}
