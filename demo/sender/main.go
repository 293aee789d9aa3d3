// A small shop that is measured by OpenTelemetry's SDK for Go, and counts the same beside it by its own means.
//
// Where it posts is OTEL_EXPORTER_OTLP_ENDPOINT's, and nothing else is set: its points are cumulative, as the SDK's are by
// default. It works for so many seconds, or until SIGTERM. Its own counts are in a file at the end; a line on standard output
// behind each post says how many posts were answered, how many attempts were not, how many posts were given up, and what it
// has counted.
package main

import (
	"context"
	"flag"
	"fmt"
	"log"
	"os"
	"os/signal"
	"syscall"
	"time"

	"go.opentelemetry.io/otel/attribute"
	"go.opentelemetry.io/otel/metric"
	controller "go.opentelemetry.io/otel/sdk/metric/controller/basic"
	processor "go.opentelemetry.io/otel/sdk/metric/processor/basic"
	"go.opentelemetry.io/otel/sdk/resource"
)

func main() {
	instance := flag.String("instance", "shop-1", "service.instance.id")
	encoding := flag.String("encoding", "protobuf", "protobuf or json")
	working := flag.Float64("seconds", 60, "how long to work")
	period := flag.Duration("period", 100*time.Millisecond, "between posts")
	seed := flag.Int64("seed", 1, "of the customers")
	out := flag.String("out", "", "the file of the own counts")
	flag.Parse()
	endpoint := os.Getenv("OTEL_EXPORTER_OTLP_ENDPOINT")
	if endpoint == "" {
		log.Fatal("OTEL_EXPORTER_OTLP_ENDPOINT is not set")
	}
	exporter := newExporter(endpoint+"/v1/metrics", *encoding)
	if err := work(exporter, *instance, *working, *period, *seed, *out); err != nil {
		log.Fatal(*instance, ": ", err)
	}
}

func work(exporter *exporter, instance string, working float64, period time.Duration, seed int64, out string) error {
	ctx, stop := signal.NotifyContext(context.Background(), syscall.SIGTERM)
	defer stop()
	// It is asked to collect each period, as the SDK's own reader does; so the last post can be waited for. It remembers what
	// has not changed, as later releases do.
	collector := controller.New(
		processor.NewFactory(aggregators{}, exporter, processor.WithMemory(true)),
		controller.WithCollectPeriod(0),
		controller.WithResource(resource.NewSchemaless(attribute.String("service.name", "shop"),
			attribute.String("service.instance.id", instance))),
	)
	s := openShop(metric.Must(collector.Meter("shop", metric.WithInstrumentationVersion("1"))), seed)
	until := time.Now().Add(time.Duration(working * float64(time.Second)))
	for ctx.Err() == nil && time.Now().Before(until) {
		for next := time.Now().Add(period); time.Now().Before(next); time.Sleep(2 * time.Millisecond) {
			s.serve(context.Background())
		}
		if err := collectAndPost(collector, exporter, s.own.orders(), mostAttempts); err != nil {
			return err
		}
	}
	if err := collectAndPost(collector, exporter, s.own.orders(), forEver); err != nil {
		return err
	}
	return s.own.write(out, s.queue)
}

// Collects what the SDK has added up since the beginning, and posts it until it is answered, or so many attempts were not.
func collectAndPost(collector *controller.Controller, exporter *exporter, orders int64, most int) error {
	if err := collector.Collect(context.Background()); err != nil {
		return err
	}
	if err := exporter.post(collector.Resource(), collector, most); err != nil {
		return err
	}
	fmt.Println(exporter.posts, exporter.repeats, exporter.dropped, orders)
	return nil
}
