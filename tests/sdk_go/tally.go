// What a program has sent, for who finds it killed: its own counts are gone then, and what was answered is not.
package main

import (
	"encoding/json"
	"math"
	"os"
)

// tally is what the answered batches come to, and what they come to with the one that is under way.
type tally struct {
	path              string
	Answered, Sending sent
}

// sent is as truth has it: by metric and route, doubles in whole millionths.
type sent struct {
	Totals  map[string]int64   `json:"totals"`
	Buckets map[string][]int64 `json:"buckets"`
}

func newTally(path string) *tally {
	none := sent{Totals: map[string]int64{}, Buckets: map[string][]int64{}}
	return &tally{path: path, Answered: none, Sending: none}
}

// begins notes that a batch is sent: of a cumulative one the last counts, of deltas their sum.
func (t *tally) begins(scopes list, temporality int) error {
	after := sent{Totals: map[string]int64{}, Buckets: map[string][]int64{}}
	for key, total := range t.Answered.Totals {
		after.Totals[key] = total
	}
	for key, counts := range t.Answered.Buckets {
		after.Buckets[key] = append([]int64{}, counts...)
	}
	for _, scope := range scopes {
		for _, metric := range scope.(object)["metrics"].(list) {
			after.add(metric.(object), temporality)
		}
	}
	t.Sending = after
	return t.write()
}

func (t *tally) isAnswered() error {
	t.Answered = t.Sending
	return t.write()
}

func (s *sent) add(metric object, temporality int) {
	for _, kind := range []string{"sum", "histogram"} {
		data, _ := metric[kind].(object)
		points, _ := data["dataPoints"].(list)
		for _, one := range points {
			point := one.(object)
			total, isTaken := totalOf(point, metric["unit"])
			if !isTaken {
				continue
			}
			key := metric["name"].(string) + " " + routeOf(point)
			if temporality == cumulative {
				delete(s.Totals, key)
				delete(s.Buckets, key)
			}
			s.Totals[key] += total
			s.addBuckets(key, point)
		}
	}
}

func (s *sent) addBuckets(key string, point object) {
	counts, isHistogram := point["bucketCounts"].([]uint64)
	if !isHistogram {
		return
	}
	if s.Buckets[key] == nil {
		s.Buckets[key] = make([]int64, len(counts))
	}
	for place, count := range counts {
		s.Buckets[key][place] += int64(count)
	}
}

// totalOf is what a point adds; of a double of another unit than seconds nothing, since it is not taken.
func totalOf(point object, unit interface{}) (int64, bool) {
	if whole, is := point["asInt"].(int64); is {
		return whole, true
	}
	double, is := point["asDouble"].(float64)
	if sum, isHistogram := point["sum"].(float64); isHistogram {
		double, is = sum, true
		if unit != "s" {
			return int64(sum), true
		}
	}
	return int64(math.Round(double * 1e6)), is && unit == "s"
}

func routeOf(point object) string {
	for _, pair := range point["attributes"].(list) {
		if pair.(object)["key"] == "http.route" {
			return pair.(object)["value"].(object)["stringValue"].(string)
		}
	}
	return ""
}

func (t *tally) write() error {
	if t.path == "" {
		return nil
	}
	text, err := json.Marshal(t)
	if err != nil {
		return err
	}
	if err := os.WriteFile(t.path+".new", text, 0o644); err != nil {
		return err
	}
	return os.Rename(t.path+".new", t.path)
}
