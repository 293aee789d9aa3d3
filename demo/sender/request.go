// A request of OTLP: its parts as the SDK's records have them, and its two encodings.
package main

import (
	"encoding/json"
	"math"
	"strconv"
	"time"

	"go.opentelemetry.io/otel/attribute"
	"go.opentelemetry.io/otel/metric/sdkapi"
	export "go.opentelemetry.io/otel/sdk/export/metric"
	"go.opentelemetry.io/otel/sdk/export/metric/aggregation"
	"google.golang.org/protobuf/encoding/protowire"
)

const cumulative = 2

type request struct {
	resource       []attribute.KeyValue
	scope, version string
	metrics        []metricOf
}

// A metric with one point: a sum, a gauge, or a histogram where it has buckets.
type metricOf struct {
	name, unit           string
	isGauge, isMonotonic bool
	attributes           []attribute.KeyValue
	start, end           time.Time
	value                int64
	sum                  float64
	count                uint64
	buckets              []uint64
	bounds               []float64
}

func (r *request) add(record export.Record) error {
	of := record.Descriptor()
	m := metricOf{name: of.Name(), unit: string(of.Unit()), attributes: record.Labels().ToSlice(),
		start: record.StartTime(), end: record.EndTime(), isMonotonic: of.InstrumentKind().Monotonic()}
	if err := m.read(record.Aggregation(), of); err != nil {
		return err
	}
	r.metrics = append(r.metrics, m)
	return nil
}

func (m *metricOf) read(from aggregation.Aggregation, of *sdkapi.Descriptor) (err error) {
	switch a := from.(type) {
	case aggregation.Histogram:
		buckets, err := a.Histogram()
		if err != nil {
			return err
		}
		sum, _ := a.Sum() // where there are buckets there are both
		m.count, _ = a.Count()
		m.sum, m.buckets, m.bounds = sum.CoerceToFloat64(of.NumberKind()), buckets.Counts, buckets.Boundaries
	case aggregation.LastValue:
		value, _, err := a.LastValue()
		m.isGauge, m.value = true, value.AsInt64()
		return err
	case aggregation.Sum:
		value, err := a.Sum()
		m.value = value.AsInt64()
		return err
	}
	return nil
}

type object = map[string]interface{}

func inJSON(r *request) ([]byte, error) {
	metrics := []object{}
	for _, m := range r.metrics {
		point := object{"attributes": listInJSON(m.attributes), "startTimeUnixNano": strconv.FormatInt(m.start.UnixNano(), 10),
			"timeUnixNano": strconv.FormatInt(m.end.UnixNano(), 10)}
		kind, data := m.dataInJSON(point)
		metrics = append(metrics, object{"name": m.name, "unit": m.unit, kind: data})
	}
	scope := object{"scope": object{"name": r.scope, "version": r.version}, "metrics": metrics}
	resource := object{"resource": object{"attributes": listInJSON(r.resource)}, "scopeMetrics": []object{scope}}
	return json.Marshal(object{"resourceMetrics": []object{resource}})
}

func (m *metricOf) dataInJSON(point object) (string, object) {
	data := object{"dataPoints": []object{point}}
	if m.buckets == nil {
		point["asInt"] = strconv.FormatInt(m.value, 10)
		if m.isGauge {
			return "gauge", data
		}
		data["aggregationTemporality"], data["isMonotonic"] = cumulative, m.isMonotonic
		return "sum", data
	}
	counts := []string{}
	for _, count := range m.buckets {
		counts = append(counts, strconv.FormatUint(count, 10))
	}
	point["count"], point["sum"] = strconv.FormatUint(m.count, 10), m.sum
	point["bucketCounts"], point["explicitBounds"] = counts, m.bounds
	data["aggregationTemporality"] = cumulative
	return "histogram", data
}

func listInJSON(list []attribute.KeyValue) []object {
	objects := []object{}
	for _, pair := range list {
		objects = append(objects, object{"key": string(pair.Key), "value": object{"stringValue": pair.Value.AsString()}})
	}
	return objects
}

// The numbers of fields are those of opentelemetry/proto/metrics/v1/metrics.proto.
func inProtobuf(r *request) ([]byte, error) {
	scope := part(nil, 1, part(text(nil, 1, r.scope), 2, []byte(r.version)))
	for _, m := range r.metrics {
		metric := text(text(nil, 1, m.name), 3, m.unit)
		scope = part(scope, 2, m.dataInProtobuf(metric))
	}
	resource := part(nil, 1, list(nil, 1, r.resource))
	return part(nil, 1, part(resource, 2, scope)), nil
}

func (m *metricOf) dataInProtobuf(metric []byte) []byte {
	if m.buckets != nil {
		return part(metric, 9, number(part(nil, 1, m.histogram()), 2, cumulative))
	}
	point := part(nil, 1, fixed(m.span(list(nil, 7, m.attributes)), 6, uint64(m.value)))
	if m.isGauge {
		return part(metric, 5, point)
	}
	sum := number(point, 2, cumulative)
	if m.isMonotonic {
		sum = number(sum, 3, 1)
	}
	return part(metric, 7, sum)
}

func (m *metricOf) span(to []byte) []byte {
	return fixed(fixed(to, 2, uint64(m.start.UnixNano())), 3, uint64(m.end.UnixNano()))
}

func (m *metricOf) histogram() []byte {
	point := fixed(m.span(list(nil, 9, m.attributes)), 4, m.count)
	point = fixed(point, 5, math.Float64bits(m.sum))
	var counts, limits []byte
	for _, count := range m.buckets {
		counts = protowire.AppendFixed64(counts, count)
	}
	for _, limit := range m.bounds {
		limits = protowire.AppendFixed64(limits, math.Float64bits(limit))
	}
	return part(part(point, 6, counts), 7, limits)
}

func list(to []byte, field protowire.Number, attributes []attribute.KeyValue) []byte {
	for _, pair := range attributes {
		value := text(nil, 1, pair.Value.AsString())
		to = part(to, field, part(text(nil, 1, string(pair.Key)), 2, value))
	}
	return to
}

func part(to []byte, field protowire.Number, bytes []byte) []byte {
	return protowire.AppendBytes(protowire.AppendTag(to, field, protowire.BytesType), bytes)
}

func text(to []byte, field protowire.Number, text string) []byte {
	return part(to, field, []byte(text))
}

func number(to []byte, field protowire.Number, value uint64) []byte {
	return protowire.AppendVarint(protowire.AppendTag(to, field, protowire.VarintType), value)
}

func fixed(to []byte, field protowire.Number, value uint64) []byte {
	return protowire.AppendFixed64(protowire.AppendTag(to, field, protowire.Fixed64Type), value)
}
