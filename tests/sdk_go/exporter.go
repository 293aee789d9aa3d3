// An exporter of OTLP behind the SDK's own interface: Debian's package of the SDK has none. What it sends, and when it
// sends it again, is by OTLP's specification.
package main

import (
	"context"
	"encoding/json"
	"fmt"
	"os"
	"sync"
	"time"

	"go.opentelemetry.io/otel/attribute"
	"go.opentelemetry.io/otel/metric/number"
	"go.opentelemetry.io/otel/metric/sdkapi"
	export "go.opentelemetry.io/otel/sdk/export/metric"
	"go.opentelemetry.io/otel/sdk/export/metric/aggregation"
	"go.opentelemetry.io/otel/sdk/instrumentation"
	"go.opentelemetry.io/otel/sdk/resource"
	"google.golang.org/protobuf/encoding/protojson"
	"google.golang.org/protobuf/proto"
	"google.golang.org/protobuf/reflect/protodesc"
	"google.golang.org/protobuf/reflect/protoreflect"
	"google.golang.org/protobuf/types/descriptorpb"
	"google.golang.org/protobuf/types/dynamicpb"
)

type object = map[string]interface{}
type list = []interface{}

// As OTLP numbers them.
const delta, cumulative = 1, 2

type exporter struct {
	url, grpc, encoding, sender string
	// Files of TLS, and a token.
	ca, cert, key, token string
	gzip                 bool
	temporality          int
	request, response    protoreflect.MessageDescriptor
	client               client
	mutex                sync.Mutex
	count                int
	answers              map[string]int
	rejected             int64
	gaveUp               int
	tally                *tally
}

// open reads OTLP's messages, by which the library writes and reads both encodings.
func (e *exporter) open(path string) error {
	bytes, err := os.ReadFile(path)
	if err != nil {
		return err
	}
	set := &descriptorpb.FileDescriptorSet{}
	if err := proto.Unmarshal(bytes, set); err != nil {
		return err
	}
	files, err := protodesc.NewFiles(set)
	if err != nil {
		return err
	}
	files.RangeFiles(func(file protoreflect.FileDescriptor) bool {
		e.request = file.Messages().ByName("ExportMetricsServiceRequest")
		e.response = file.Messages().ByName("ExportMetricsServiceResponse")
		return e.request == nil
	})
	if e.request == nil || e.response == nil {
		return fmt.Errorf("%s lacks the service's messages", path)
	}
	e.answers = map[string]int{}
	e.client, err = e.dial()
	return err
}

func (e *exporter) sent() int {
	e.mutex.Lock()
	defer e.mutex.Unlock()
	return e.count
}

func (e *exporter) TemporalityFor(*sdkapi.Descriptor, aggregation.Kind) aggregation.Temporality {
	if e.temporality == cumulative {
		return aggregation.CumulativeTemporality
	}
	return aggregation.DeltaTemporality
}

func (e *exporter) Export(_ context.Context, res *resource.Resource, reader export.InstrumentationLibraryReader) error {
	scopes := list{}
	err := reader.ForEach(func(scope instrumentation.Library, records export.Reader) error {
		names, byName := []string{}, map[string]object{}
		err := records.ForEach(e, func(record export.Record) error {
			kind, data, point, err := e.point(record)
			if err == aggregation.ErrNoData {
				return nil
			} else if err != nil {
				return err
			}
			d := record.Descriptor()
			metric := byName[d.Name()]
			if metric == nil {
				metric = object{"name": d.Name(), "unit": string(d.Unit()), "description": d.Description(), kind: data}
				data["dataPoints"] = list{}
				byName[d.Name()] = metric
				names = append(names, d.Name())
			}
			all := metric[kind].(object)
			all["dataPoints"] = append(all["dataPoints"].(list), point)
			return nil
		})
		metrics := list{}
		for _, name := range names {
			metrics = append(metrics, byName[name])
		}
		if len(metrics) > 0 {
			scopes = append(scopes, object{"scope": object{"name": scope.Name, "version": scope.Version}, "metrics": metrics})
		}
		return err
	})
	e.mutex.Lock()
	defer e.mutex.Unlock()
	defer func() { e.count++ }()
	if err != nil || len(scopes) == 0 {
		return err
	}
	if err := e.tally.begins(scopes, e.temporality); err != nil {
		return err
	}
	if err := e.send(object{"resourceMetrics": list{object{
		"resource": object{"attributes": attributes(res.Attributes())}, "scopeMetrics": scopes}}}); err != nil {
		return err
	}
	return e.tally.isAnswered()
}

// point is one record: the field of its metric's data, what its points share, and the point.
func (e *exporter) point(record export.Record) (string, object, object, error) {
	d := record.Descriptor()
	point := object{"attributes": attributes(record.Labels().ToSlice()),
		"startTimeUnixNano": record.StartTime().UnixNano(), "timeUnixNano": record.EndTime().UnixNano()}
	value := func(n number.Number) {
		if d.NumberKind() == number.Int64Kind {
			point["asInt"] = n.AsInt64()
		} else {
			point["asDouble"] = n.AsFloat64()
		}
	}
	switch a := record.Aggregation().(type) {
	case aggregation.Histogram:
		buckets, err := a.Histogram()
		if err != nil {
			return "", nil, nil, err
		}
		sum, _ := a.Sum()
		count, _ := a.Count()
		point["sum"], point["count"] = sum.CoerceToFloat64(d.NumberKind()), count
		point["bucketCounts"], point["explicitBounds"] = buckets.Counts, buckets.Boundaries
		return "histogram", object{"aggregationTemporality": e.temporality}, point, nil
	case aggregation.Sum:
		sum, err := a.Sum()
		value(sum)
		return "sum", object{"aggregationTemporality": e.temporality, "isMonotonic": d.InstrumentKind().Monotonic()}, point, err
	case aggregation.LastValue:
		last, _, err := a.LastValue()
		value(last)
		return "gauge", object{}, point, err
	}
	return "", nil, nil, fmt.Errorf("no such aggregation: %v", record.Aggregation().Kind())
}

func attributes(of []attribute.KeyValue) list {
	all := list{}
	for _, pair := range of {
		all = append(all, object{"key": string(pair.Key), "value": anyValue(pair.Value)})
	}
	return all
}

func anyValue(value attribute.Value) object {
	switch value.Type() {
	case attribute.BOOL:
		return object{"boolValue": value.AsBool()}
	case attribute.INT64:
		return object{"intValue": value.AsInt64()}
	case attribute.FLOAT64:
		return object{"doubleValue": value.AsFloat64()}
	case attribute.STRINGSLICE:
		values := list{}
		for _, one := range value.AsStringSlice() {
			values = append(values, object{"stringValue": one})
		}
		return object{"arrayValue": object{"values": values}}
	}
	return object{"stringValue": value.Emit()}
}

// send sends a batch again, as it was and before any later one, until it is answered for good.
func (e *exporter) send(request object) error {
	text, err := json.Marshal(request)
	if err != nil {
		return err
	}
	message := dynamicpb.NewMessage(e.request)
	if err := protojson.Unmarshal(text, message); err != nil {
		return err
	}
	body, err := proto.Marshal(message)
	if e.encoding == "json" {
		body, err = protojson.MarshalOptions{UseEnumNumbers: true}.Marshal(message)
	}
	if err != nil {
		return err
	}
	for try := 0; try < 15000; try++ {
		said := e.client.try(body)
		e.answers[said.what]++
		if !said.isAgain {
			return e.read(said.body)
		}
		time.Sleep(20 * time.Millisecond)
	}
	e.gaveUp++
	return fmt.Errorf("gave up")
}

// read reads the answer to a batch that was taken.
func (e *exporter) read(body []byte) error {
	if body == nil {
		return nil
	}
	answer := dynamicpb.NewMessage(e.response)
	var err error
	if e.encoding == "json" {
		err = protojson.Unmarshal(body, answer)
	} else {
		err = proto.Unmarshal(body, answer)
	}
	if err != nil {
		e.answers["an answer that can't be read"]++
		return err
	}
	partial := answer.Get(e.response.Fields().ByName("partial_success")).Message()
	e.rejected += partial.Get(partial.Descriptor().Fields().ByName("rejected_data_points")).Int()
	return nil
}
