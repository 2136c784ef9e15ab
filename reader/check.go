// The checks from Go, by cgo. It prints what check.c prints for the same words, and ends with its status:
// PKG_CONFIG_PATH=PREFIX/lib/pkgconfig go build -o check check.go
package main

// #cgo pkg-config: ats_reader
// #include <ats_reader.h>
import "C"
import (
	"encoding/hex"
	"fmt"
	"os"
	"strconv"
	"strings"
	"unsafe"
)

// In C no pointer may be null, also if there is no byte. A byte after the others makes sure of that.
func bytes(of []byte) (*C.uint8_t, C.size_t) {
	return (*C.uint8_t)(unsafe.Pointer(&append(of, 0)[0])), C.size_t(len(of))
}

func must[T any](value T, fault error) T {
	if fault != nil {
		panic(fault)
	}
	return value
}

func root(digits string) *C.uint8_t {
	at := must(hex.DecodeString(digits))
	if len(at) != 32 {
		panic("a root has 64 digits")
	}
	return (*C.uint8_t)(unsafe.Pointer(&at[0]))
}

func number(word string) C.uint32_t { return C.uint32_t(must(strconv.ParseUint(word, 10, 32))) }

// The roots that the lines of a list spell, one after another; or the number of its first bad line.
func roots(list string) (all []byte, bad int) {
	lines := strings.Split(strings.TrimSuffix(list, "\n"), "\n")
	if len(lines) > 4096 {
		return nil, 4097
	}
	for i, line := range lines {
		at, fault := hex.DecodeString(line)
		if fault != nil || hex.EncodeToString(at) != line || len(at) != 32 {
			return nil, i + 1
		}
		all = append(all, at...)
	}
	return all, 0
}

func main() {
	words, verdict := os.Args[1:], new(C.struct_ats_verdict)
	rows, docs, terms := make([]C.struct_ats_row, 1000), make([]C.uint32_t, 65536), make([]C.struct_ats_term, 32)
	merged, computed := make([]C.struct_ats_catalog_row, 1000), make([]byte, 32)
	query, file := words[len(words)-1], []byte{}
	if words[0] != "query" {
		query, file = words[len(words)-2], must(os.ReadFile(words[len(words)-1]))
	}
	at, size := bytes(file)
	text, length := bytes([]byte(query))
	switch words[0] {
	case "query":
		C.ats_query(text, length, &terms[0], 32, verdict)
		for _, term := range terms[:verdict.count] {
			fmt.Println(string(C.GoBytes(unsafe.Pointer(&term.word), C.int(term.size))), term.weight)
		}
	case "verify":
		C.ats_check(at, size, root(words[1]), text, length, number(words[2]), &rows[0], 1000, verdict)
		for i, row := range rows[:verdict.count] {
			fmt.Println(i+1, row.doc, row.lower, row.upper)
		}
	case "both":
		C.ats_both(at, size, root(words[1]), text, length, &docs[0], 65536, verdict)
		for _, doc := range docs[:verdict.count] {
			fmt.Println(doc)
		}
	case "catalog":
		C.ats_catalog(at, size, root(words[1]), text, length, number(words[2]), &merged[0], 1000, verdict)
		for i := 0; verdict.status == 0 && i < int(verdict.count); i++ {
			fmt.Println(i+1, merged[i].shard, merged[i].doc, merged[i].lower, merged[i].upper)
		}
	case "catalog-root":
		all, bad := roots(string(file))
		if bad != 0 {
			fmt.Println("input: list line", bad)
			os.Exit(4)
		}
		at, size = bytes(all)
		C.ats_catalog_root(at, size, (*C.uint8_t)(unsafe.Pointer(&computed[0])), verdict)
		if verdict.status == 0 {
			fmt.Println(hex.EncodeToString(computed))
		}
	case "fetch":
		C.ats_text(at, size, root(words[1]), number(words[2]), verdict)
		if verdict.status == 0 {
			fmt.Println(string(file[verdict.first : verdict.first+verdict.second]))
		}
	case "growth":
		C.ats_growth(at, size, root(words[1]), root(words[2]), verdict)
		if verdict.status == 0 {
			fmt.Println("grown", verdict.first, verdict.second)
		}
	}
	var line [128]C.uint8_t
	if verdict.status != 0 && C.ats_line(verdict, &line[0], 128, &size) == 0 {
		fmt.Println(C.GoStringN((*C.char)(unsafe.Pointer(&line[0])), C.int(size)))
	}
	os.Exit(int(verdict.status))
}
