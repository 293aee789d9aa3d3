// What the shop counts by itself, without the SDK: that is the truth.
package main

import (
	"encoding/json"
	"os"
)

// What a series comes to. Total is the sum of all values, Count how many a histogram has.
type total struct {
	Name       string            `json:"name"`
	Attributes map[string]string `json:"attributes"`
	Total      int64             `json:"total"`
	Count      int64             `json:"count"`
	Buckets    []int64           `json:"buckets"`
}

// The shop's own counts. One goroutine has them.
type counts map[string]*total

// The series of a name, with an attribute unless its key is empty.
func (c counts) of(name, key, value string) *total {
	id := name + " " + value
	if c[id] == nil {
		c[id] = &total{Name: name, Attributes: map[string]string{}}
		if key != "" {
			c[id].Attributes[key] = value
		}
	}
	return c[id]
}

func (c counts) add(name, key, value string, n int64) {
	c.of(name, key, value).Total += n
}

// A value, in whole units of which there are n. This release of the SDK has buckets from a bound, up to the next without it.
func (c counts) record(name, key, value string, measured float64, n int64, bounds []float64) {
	t := c.of(name, key, value)
	if t.Buckets == nil {
		t.Buckets = make([]int64, len(bounds)+1)
	}
	place := 0
	for place < len(bounds) && measured >= bounds[place] {
		place++
	}
	t.Total += n
	t.Count++
	t.Buckets[place]++
}

// How many orders were counted.
func (c counts) orders() (sum int64) {
	for _, t := range c {
		if t.Name == "shop.orders" {
			sum += t.Total
		}
	}
	return
}

// All counts, and the last value of the gauge.
func (c counts) write(path string, gauge int64) error {
	all := []*total{}
	for _, t := range c {
		all = append(all, t)
	}
	text, err := json.Marshal(object{"totals": all, "gauge": gauge})
	if err != nil {
		return err
	}
	return os.WriteFile(path, text, 0o644)
}
