// SPDX-License-Identifier: MIT
// Counts the hits of ristretto over a trace: lines `get KEY` or `set KEY`. A get that misses puts its key.
package main

import (
	"bufio"
	"fmt"
	"os"
	"runtime"
	"strconv"
	"sync/atomic"

	"github.com/dgraph-io/ristretto"
)

var value = []byte("0123456789abcdef")

// cache is a ristretto whose sets are done once they return. By itself it does them later, on a goroutine of its own, and
// drops some where there are many.
type cache struct {
	*ristretto.Cache
	evicted uint64
}

func newCache(items int64) (*cache, error) {
	made := &cache{}
	inner, err := ristretto.NewCache(&ristretto.Config{
		NumCounters: 10 * items, // as its documentation advises, like the next
		BufferItems: 64,
		MaxCost:     items,
		Metrics:     true,
		OnEvict: func(_, _ uint64, _ interface{}, _ int64) {
			atomic.AddUint64(&made.evicted, 1)
		},
	})
	made.Cache = inner
	return made, err
}

// decided is how many keys were let in, turned away or updated.
func (c *cache) decided() uint64 {
	return c.Metrics.KeysAdded() + c.Metrics.SetsRejected() + c.Metrics.KeysUpdated()
}

func (c *cache) put(key string) {
	before := c.decided()
	c.Set(key, value, 1)
	for c.decided() == before || atomic.LoadUint64(&c.evicted) != c.Metrics.KeysEvicted() {
		runtime.Gosched()
	}
}

func run(words []string) error {
	if len(words) != 3 {
		return fmt.Errorf("usage: replay TRACE WARM ITEMS")
	}
	warm, err := strconv.Atoi(words[1])
	if err != nil {
		return err
	}
	items, err := strconv.ParseInt(words[2], 10, 64)
	if err != nil {
		return err
	}
	trace, err := os.Open(words[0])
	if err != nil {
		return err
	}
	defer trace.Close()
	c, err := newCache(items)
	if err != nil {
		return err
	}
	place, gets, hits := 0, 0, 0
	for lines := bufio.NewScanner(trace); lines.Scan(); place++ {
		line := lines.Text()
		key, isGet, isHit := line[4:], line[:3] == "get", false
		if isGet {
			_, isHit = c.Get(key)
		}
		if !isHit {
			c.put(key)
		}
		if place >= warm && isGet {
			gets++
			if isHit {
				hits++
			}
		}
	}
	held := c.Metrics.KeysAdded() - c.Metrics.KeysEvicted()
	fmt.Printf("{\"items\": %d, \"gets\": %d, \"hits\": %d}\n", held, gets, hits)
	return nil
}

func main() {
	// Its sets are waited for, so that more processors gain nothing.
	runtime.GOMAXPROCS(1)
	if err := run(os.Args[1:]); err != nil {
		fmt.Fprintln(os.Stderr, err)
		os.Exit(1)
	}
}
