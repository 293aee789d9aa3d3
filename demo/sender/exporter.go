// The exporter: what the SDK has collected, as one request of OTLP/HTTP. Debian has the SDK without one, so this is written by
// OpenTelemetry's specification: the temporality is its default, cumulative, and a request is sent again where it says so. After
// some attempts it is dropped: the next one has what it said.
package main

import (
	"bytes"
	"fmt"
	"io"
	"math"
	"net/http"
	"strings"
	"time"

	"go.opentelemetry.io/otel/metric/sdkapi"
	export "go.opentelemetry.io/otel/sdk/export/metric"
	"go.opentelemetry.io/otel/sdk/export/metric/aggregation"
	"go.opentelemetry.io/otel/sdk/instrumentation"
	"go.opentelemetry.io/otel/sdk/resource"
)

const (
	firstWait    = 50 * time.Millisecond
	lastWait     = 800 * time.Millisecond
	mostAttempts = 4
	forEver      = math.MaxInt
)

type exporter struct {
	url, kind string
	encode    func(*request) ([]byte, error)
	client    http.Client
	// Answered posts, attempts that were not, and posts that were given up.
	posts, repeats, dropped int
}

func newExporter(url, encoding string) *exporter {
	e := &exporter{url: url, kind: "application/json", encode: inJSON}
	if encoding == "protobuf" {
		e.kind, e.encode = "application/x-protobuf", inProtobuf
	}
	e.client.Timeout = 10 * time.Second
	return e
}

func (e *exporter) TemporalityFor(*sdkapi.Descriptor, aggregation.Kind) aggregation.Temporality {
	return aggregation.CumulativeTemporality
}

func (e *exporter) post(of *resource.Resource, reader export.InstrumentationLibraryReader, most int) error {
	r := &request{resource: of.Attributes()}
	err := reader.ForEach(func(library instrumentation.Library, records export.Reader) error {
		r.scope, r.version = library.Name, library.Version
		return records.ForEach(e, r.add)
	})
	if err != nil || len(r.metrics) == 0 {
		return err
	}
	body, err := e.encode(r)
	if err != nil {
		return err
	}
	return e.deliver(body, most)
}

// Returns once the batch is answered for good, or given up. The SDK goes on adding up meanwhile.
func (e *exporter) deliver(body []byte, most int) error {
	wait := firstWait
	for attempt := 0; attempt < most; attempt++ {
		status, text, err := e.attempt(body)
		switch {
		case err != nil || status == 429 || (status >= 502 && status <= 504):
			e.repeats++
			time.Sleep(wait)
			if wait *= 2; wait > lastWait {
				wait = lastWait
			}
		case status == 200 && !strings.Contains(text, "rejectedDataPoints") && (e.kind == "application/json" || text == ""):
			e.posts++
			return nil
		default:
			return fmt.Errorf("a post was answered %d %q", status, text)
		}
	}
	e.dropped++
	return nil
}

func (e *exporter) attempt(body []byte) (int, string, error) {
	answer, err := e.client.Post(e.url, e.kind, bytes.NewReader(body))
	if err != nil {
		return 0, "", err
	}
	defer answer.Body.Close()
	text, err := io.ReadAll(answer.Body)
	return answer.StatusCode, string(text), err
}
