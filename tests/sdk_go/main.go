// A small shop, measured by OpenTelemetry's SDK for Go. It counts the same beside, without the SDK: that is the truth.
package main

import (
	"context"
	"encoding/json"
	"flag"
	"fmt"
	"log"
	"math/rand"
	"os"
	"sync"
	"sync/atomic"
	"time"

	"go.opentelemetry.io/otel"
	"go.opentelemetry.io/otel/attribute"
	"go.opentelemetry.io/otel/metric"
	"go.opentelemetry.io/otel/metric/unit"
	"go.opentelemetry.io/otel/sdk/metric/aggregator/histogram"
	controller "go.opentelemetry.io/otel/sdk/metric/controller/basic"
	processor "go.opentelemetry.io/otel/sdk/metric/processor/basic"
	"go.opentelemetry.io/otel/sdk/metric/selector/simple"
	"go.opentelemetry.io/otel/sdk/resource"
)

// The bounds that the specification gives a histogram, and those of its durations in seconds.
var wholeBounds = []float64{0, 5, 10, 25, 50, 75, 100, 250, 500, 750, 1000, 2500, 5000, 7500, 10000}
var secondBounds = []float64{0.005, 0.01, 0.025, 0.05, 0.075, 0.1, 0.25, 0.5, 0.75, 1, 2.5, 5, 7.5, 10}

// truth is what was counted, by metric and route; times in whole microseconds.
type truth struct {
	mutex   sync.Mutex
	Totals  map[string]int64   `json:"totals"`
	Buckets map[string][]int64 `json:"buckets"`
}

func (t *truth) add(key string, value int64) {
	t.mutex.Lock()
	defer t.mutex.Unlock()
	t.Totals[key] += value
}

// record counts a value as this SDK does: its buckets are [a, b).
func (t *truth) record(key string, total int64, value float64, bounds []float64) {
	t.add(key, total)
	t.mutex.Lock()
	defer t.mutex.Unlock()
	if t.Buckets[key] == nil {
		t.Buckets[key] = make([]int64, len(bounds)+1)
	}
	place := 0
	for place < len(bounds) && value >= bounds[place] {
		place++
	}
	t.Buckets[key][place]++
}

func main() {
	var e exporter
	flag.StringVar(&e.url, "url", "", "where to post")
	flag.StringVar(&e.grpc, "grpc", "", "where to call")
	flag.StringVar(&e.encoding, "encoding", "protobuf", "json, protobuf or grpc")
	flag.BoolVar(&e.gzip, "gzip", false, "packs what it sends")
	flag.IntVar(&e.temporality, "temporality", delta, "1, delta, or 2, cumulative, which is the SDK's default")
	flag.StringVar(&e.sender, "sender", "", "x-sender, if it names itself")
	flag.StringVar(&e.ca, "ca", "", "roots in PEM, for TLS")
	flag.StringVar(&e.cert, "cert", "", "a certificate in PEM to show")
	flag.StringVar(&e.key, "key", "", "its key")
	flag.StringVar(&e.token, "token", "", "a token to send")
	instance := flag.String("instance", "i-1", "service.instance.id")
	inSeconds := flag.Bool("in-seconds", false, "durations in seconds, and counters of doubles")
	seconds := flag.Float64("seconds", 5, "how long")
	descriptors := flag.String("descriptors", "", "OTLP's messages, as a FileDescriptorSet")
	tally := flag.String("tally", "", "file for what was sent and answered so far")
	out := flag.String("out", "", "file for the truth and the answers")
	flag.Parse()
	if err := e.open(*descriptors); err != nil {
		log.Fatal(err)
	}
	e.tally = newTally(*tally)
	otel.SetErrorHandler(otel.ErrorHandlerFunc(func(err error) { log.Print("otel: ", err) }))
	res, err := resource.New(context.Background(), resource.WithTelemetrySDK(), resource.WithAttributes(
		attribute.String("service.name", "shop"), attribute.String("service.instance.id", *instance),
		attribute.StringSlice("zones", []string{"a", "b"}), attribute.Bool("canary", true)))
	if err != nil {
		log.Fatal(err)
	}
	bounds := wholeBounds
	if *inSeconds {
		bounds = secondBounds
	}
	c := controller.New(
		processor.NewFactory(simple.NewWithHistogramDistribution(histogram.WithExplicitBoundaries(bounds)), &e),
		controller.WithExporter(&e), controller.WithCollectPeriod(200*time.Millisecond), controller.WithResource(res))
	t := &truth{Totals: map[string]int64{}, Buckets: map[string][]int64{}}
	work := wholeWork
	if *inSeconds {
		work = secondsWork
	}
	meter := metric.Must(c.Meter("example.org/shop", metric.WithInstrumentationVersion("1.2.3")))
	one, asked := work(meter, t), askedWork(meter, t)
	if err := c.Start(context.Background()); err != nil {
		log.Fatal(err)
	}
	until := time.Now().Add(time.Duration(*seconds * float64(time.Second)))
	var users sync.WaitGroup
	for user := 0; user < 4; user++ {
		users.Add(1)
		go func(chance *rand.Rand) {
			defer users.Done()
			for time.Now().Before(until) {
				one(chance)
				asked(chance)
				time.Sleep(2 * time.Millisecond)
			}
		}(rand.New(rand.NewSource(int64(user))))
	}
	users.Wait()
	// Not c.Stop: in this release it may wait for its ticker, which waits for Stop's lock. The ticker sends the rest.
	for sent := e.sent(); e.sent() < sent+3; {
		time.Sleep(20 * time.Millisecond)
	}
	text, _ := json.Marshal(map[string]interface{}{"totals": t.Totals, "buckets": t.Buckets, "answers": e.answers,
		"rejected": e.rejected, "gave_up": e.gaveUp})
	if err := os.WriteFile(*out, text, 0o644); err != nil {
		log.Fatal(err)
	}
}

var routes = []string{"/", "/orders", "/orders/:id", "/µ \"quoted\" \\ \u2028"}

// wholeWork has instruments of whole numbers, with the bounds that are the default, and one that is foreign.
func wholeWork(meter metric.MeterMust, t *truth) func(*rand.Rand) {
	ctx := context.Background()
	requests := meter.NewInt64Counter("http.server.requests", metric.WithDescription("Requests"))
	sizes := meter.NewInt64Histogram("http.server.request.size", metric.WithUnit(unit.Bytes))
	open := meter.NewInt64UpDownCounter("orders.open")
	money := meter.NewFloat64Counter("money", metric.WithUnit("EUR"))
	return func(chance *rand.Rand) {
		route := routes[chance.Intn(len(routes))]
		labels := []attribute.KeyValue{attribute.String("http.route", route), attribute.Int("http.status_code", 200)}
		requests.Add(ctx, 1, labels...)
		t.add("http.server.requests "+route, 1)
		size := int64(chance.Intn(20000))
		sizes.Record(ctx, size, labels...)
		t.record("http.server.request.size "+route, size, float64(size), wholeBounds)
		change := int64(chance.Intn(7)) - 3
		open.Add(ctx, change, labels...)
		t.add("orders.open "+route, change)
		money.Add(ctx, 1.25)
	}
}

// secondsWork has durations in seconds as the conventions have them, each of whole microseconds.
func secondsWork(meter metric.MeterMust, t *truth) func(*rand.Rand) {
	ctx := context.Background()
	durations := meter.NewFloat64Histogram("http.server.request.duration", metric.WithUnit("s"))
	busy := meter.NewFloat64Counter("worker.busy", metric.WithUnit("s"))
	uptime := meter.NewInt64Counter("worker.ticks", metric.WithUnit("s"))
	return func(chance *rand.Rand) {
		route := routes[chance.Intn(len(routes))]
		label := attribute.String("http.route", route)
		microseconds := int64(chance.ExpFloat64() * 80_000)
		value := float64(microseconds) / 1e6
		durations.Record(ctx, value, label)
		t.record("http.server.request.duration "+route, microseconds, value, secondBounds)
		busy.Add(ctx, value, label)
		t.add("worker.busy "+route, microseconds)
		uptime.Add(ctx, 2, label)
		t.add("worker.ticks "+route, 2)
	}
}

// askedWork has instruments that are asked each time: what was done so far, what is under way, and a gauge.
func askedWork(meter metric.MeterMust, t *truth) func(*rand.Rand) {
	label := attribute.String("http.route", routes[0])
	var done, open int64
	meter.NewInt64CounterObserver("work.done", func(_ context.Context, result metric.Int64ObserverResult) {
		result.Observe(atomic.LoadInt64(&done), label)
	})
	meter.NewInt64UpDownCounterObserver("work.open", func(_ context.Context, result metric.Int64ObserverResult) {
		result.Observe(atomic.LoadInt64(&open), label)
	})
	meter.NewInt64GaugeObserver("queue.length", func(_ context.Context, result metric.Int64ObserverResult) { result.Observe(7) })
	return func(chance *rand.Rand) {
		change := chance.Int63n(7) - 3
		atomic.AddInt64(&done, 1)
		atomic.AddInt64(&open, change)
		t.add("work.done "+routes[0], 1)
		t.add("work.open "+routes[0], change)
	}
}

func init() {
	log.SetFlags(log.Lmicroseconds)
	log.SetPrefix(fmt.Sprintf("%d ", os.Getpid()))
}
