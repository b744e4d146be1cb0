// The work of fragments.h on Go's collector. It has no most at which it refuses, so an object counts as refused where its spans in use have 2 MiB more than at the start, also once all that was dropped is freed.
package main

import (
	"fmt"
	"os"
	"runtime"
	"strconv"
	"unsafe"
)

const space = 2 << 20

var (
	first, last unsafe.Pointer
	begun       = make([]*unsafe.Pointer, 0, 4096)
	base        uint64
	passed      int
	state       uint32 = 1
)

func next(object unsafe.Pointer) *unsafe.Pointer { return (*unsafe.Pointer)(object) }

func inUse() uint64 {
	var stats runtime.MemStats
	runtime.ReadMemStats(&stats)
	return stats.HeapInuse
}

// An object behind the last of the chain, and whether there was room for it.
func append1(cells int) bool {
	made := unsafe.Pointer(&make([]unsafe.Pointer, cells)[0])
	if inUse() > base+space {
		runtime.GC()
		if inUse() > base+space {
			return false
		}
	}
	if first == nil {
		first = made
	} else {
		*next(last) = made
	}
	last = made
	return true
}

func appendAll(cells int) int {
	count := 0
	for append1(cells) {
		count++
	}
	return count
}

// Whether the next object of the chain goes, as fragments.h has it.
func goes(random bool) bool {
	place := passed
	passed++
	if place == 0 || !random {
		return place%2 == 1
	}
	state ^= state << 13
	state ^= state >> 17
	state ^= state << 5
	return state%2 == 1
}

func thin(random bool) int {
	dropped := 0
	for place := &first; *place != nil; {
		if goes(random) {
			*place = *next(*place)
			dropped++
		} else {
			last = *place
			place = next(*place)
		}
	}
	return dropped
}

// Fills the spans of this size that are begun, so that what is counted from here on has spans of its own.
func fillBegun(cells int) {
	for base = inUse(); inUse() == base; {
		begun = append(begun, &make([]unsafe.Pointer, cells)[0])
	}
}

func main() {
	cells, _ := strconv.Atoi(os.Args[1])
	larger, _ := strconv.Atoi(os.Args[2])
	runtime.GC()
	fillBegun(cells)
	made, dropped, given := appendAll(cells), 0, 0
	if larger > 0 {
		dropped = thin(os.Args[3] == "half")
		runtime.GC()
		runtime.GC()
		given = appendAll(larger)
	}
	fmt.Println(made, dropped, given)
}
