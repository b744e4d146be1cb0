// The work of seat.c on Go's collector, as boehm.c has it. Fields are read and written by atomic operations, as other threads may use them. Prints for each kind what is
// timed, how many of it there are, and the least time of ten in nanoseconds; how long single records took; and what 1, 2 and 4 threads take.
package main

import (
	"fmt"
	"sync"
	"sync/atomic"
	"time"
)

const (
	manyRecords = 1000000
	manyFields  = 8192
	manyArrays  = 10000
	cells       = 64
	depth       = 12
	manyTrees   = 20
	shelfCount  = 6
	shelf       = 4096
	replaced    = 500000
	singles     = 10000000
)

type record struct{ field [2]atomic.Pointer[record] }

var (
	held    *record
	other   = &record{}
	root    *record
	array   *[cells]atomic.Pointer[record]
	shelves [shelfCount]*[shelf]atomic.Pointer[record]
	sink    *record
	limits  = [...]int64{50, 100, 200, 500, 1000, 2000, 5000, 10000, 20000, 50000, 100000, 200000, 500000, 1000000}
)

func records() {
	for i := 0; i < manyRecords; i++ {
		held = &record{}
	}
}

func gets() {
	for i := 0; i < manyFields; i++ {
		sink = other.field[0].Load()
	}
}

func sets() {
	for i := 0; i < manyFields; i++ {
		sink = other.field[0].Swap(held)
	}
}

func arrays() {
	for i := 0; i < manyArrays; i++ {
		array = new([cells]atomic.Pointer[record])
		for cell := range array {
			sink = array[cell].Swap(held)
		}
		for cell := range array {
			sink = array[cell].Load()
		}
	}
}

func tree(height int) *record {
	node := &record{}
	if height > 0 {
		for side := range node.field {
			node.field[side].Swap(tree(height - 1))
		}
	}
	return node
}

func trees() {
	for i := 0; i < manyTrees; i++ {
		root = tree(depth)
	}
}

func fillShelves() {
	for k := range shelves {
		shelves[k] = new([shelf]atomic.Pointer[record])
		for cell := range shelves[k] {
			shelves[k][cell].Swap(&record{})
		}
	}
}

func replaceSome() {
	state := uint32(1)
	for i := 0; i < replaced; i++ {
		state ^= state << 13
		state ^= state >> 17
		state ^= state << 5
		number := state % (shelfCount * shelf)
		shelves[number/shelf][number%shelf].Swap(&record{})
	}
}

func told(name string, many int, work func()) {
	least := time.Duration(1 << 62)
	for i := 0; i < 10; i++ {
		start := time.Now()
		work()
		if spent := time.Since(start); spent < least {
			least = spent
		}
	}
	fmt.Println(name, many, least.Nanoseconds())
}

func single() {
	var rows [len(limits) + 1]int64
	longest := int64(0)
	for i := 0; i < singles; i++ {
		start := time.Now()
		held = &record{}
		spent := time.Since(start).Nanoseconds()
		row := 0
		for row < len(limits) && spent > limits[row] {
			row++
		}
		rows[row]++
		if spent > longest {
			longest = spent
		}
	}
	fmt.Println("longest-record", singles, longest)
	for row := range rows {
		limit := int64(0)
		if row < len(limits) {
			limit = limits[row]
		}
		fmt.Println("spread-record", limit, rows[row])
	}
}

func toldThreads(threads int) {
	least := time.Duration(1 << 62)
	for i := 0; i < 3; i++ {
		var all sync.WaitGroup
		start := time.Now()
		for k := 0; k < threads; k++ {
			all.Add(1)
			go func() {
				defer all.Done()
				var got *record
				one := &record{}
				for i := 0; i < manyRecords; i++ {
					one.field[0].Swap(&record{})
					got = one.field[0].Load()
				}
				_ = got
			}()
		}
		all.Wait()
		if spent := time.Since(start); spent < least {
			least = spent
		}
	}
	fmt.Printf("threads-%d %d %d\n", threads, manyRecords, least.Nanoseconds())
}

func main() {
	told("record", manyRecords, records)
	told("get", manyFields, gets)
	told("set", manyFields, sets)
	told("array", manyArrays, arrays)
	single()
	told("tree", manyTrees*8191, trees)
	fillShelves()
	told("live", replaced, replaceSome)
	for threads := 1; threads <= 4; threads *= 2 {
		toldThreads(threads)
	}
}
