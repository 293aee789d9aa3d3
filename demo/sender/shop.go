// The shop: what it is measured by, and what it does.
package main

import (
	"context"
	"math/rand"

	"go.opentelemetry.io/otel/attribute"
	"go.opentelemetry.io/otel/metric"
	"go.opentelemetry.io/otel/metric/sdkapi"
	"go.opentelemetry.io/otel/metric/unit"
	export "go.opentelemetry.io/otel/sdk/export/metric"
	"go.opentelemetry.io/otel/sdk/metric/aggregator/histogram"
	"go.opentelemetry.io/otel/sdk/metric/selector/simple"
)

const seconds = unit.Unit("s")

var centBounds = []float64{1_000, 5_000, 25_000, 100_000}

// Those that OpenTelemetry's conventions give durations.
var secondBounds = []float64{0.005, 0.01, 0.025, 0.05, 0.075, 0.1, 0.25, 0.5, 0.75, 1, 2.5, 5, 7.5, 10}

// Which bounds a histogram has. This release of the SDK asks for all instruments here.
type aggregators struct{}

func (aggregators) AggregatorFor(of *sdkapi.Descriptor, to ...*export.Aggregator) {
	bounds := centBounds
	if of.Unit() == seconds {
		bounds = secondBounds
	}
	simple.NewWithHistogramDistribution(histogram.WithExplicitBoundaries(bounds)).AggregatorFor(of, to...)
}

type shop struct {
	own      counts
	chance   *rand.Rand
	queue    int64
	orders   metric.Int64Counter
	value    metric.Int64Histogram
	sent     metric.Int64Counter
	duration metric.Float64Histogram
	carts    metric.Int64UpDownCounter
}

func openShop(meter metric.MeterMust, seed int64) *shop {
	s := &shop{
		own:      counts{},
		chance:   rand.New(rand.NewSource(seed)),
		orders:   meter.NewInt64Counter("shop.orders", metric.WithUnit("{order}")),
		value:    meter.NewInt64Histogram("shop.order.value", metric.WithUnit("{cent}")),
		sent:     meter.NewInt64Counter("shop.sent", metric.WithUnit(unit.Bytes)),
		duration: meter.NewFloat64Histogram("shop.request.duration", metric.WithUnit(seconds)),
		carts:    meter.NewInt64UpDownCounter("shop.carts", metric.WithUnit("{cart}")),
	}
	// These are asked each time the SDK collects.
	meter.NewInt64CounterObserver("shop.visits", func(_ context.Context, result metric.Int64ObserverResult) {
		result.Observe(s.own.of("shop.visits", "", "").Total)
	}, metric.WithUnit("{visit}"))
	meter.NewInt64UpDownCounterObserver("shop.stock", func(_ context.Context, result metric.Int64ObserverResult) {
		result.Observe(s.own.of("shop.stock", "", "").Total)
	}, metric.WithUnit("{piece}"))
	meter.NewInt64GaugeObserver("shop.queue", func(_ context.Context, result metric.Int64ObserverResult) {
		s.queue = s.chance.Int63n(50)
		result.Observe(s.queue)
	}, metric.WithUnit("{customer}"))
	return s
}

// A customer comes, orders and reads some pages: told to the SDK, and counted.
func (s *shop) serve(ctx context.Context) {
	s.own.add("shop.visits", "", "", 1)
	payment := []string{"card", "cash", "invoice"}[s.chance.Intn(3)]
	s.orders.Add(ctx, 1, attribute.String("payment", payment))
	s.own.add("shop.orders", "payment", payment, 1)
	cents := int64(s.chance.ExpFloat64()*1_500)*10 + 99
	s.value.Record(ctx, cents, attribute.String("payment", payment))
	s.own.record("shop.order.value", "payment", payment, float64(cents), cents, centBounds)
	carts, pieces := s.chance.Int63n(7)-3, s.chance.Int63n(9)-4
	s.carts.Add(ctx, carts)
	s.own.add("shop.carts", "", "", carts)
	s.own.add("shop.stock", "", "", pieces)
	for page := 0; page < 3; page++ {
		s.showPage(ctx)
	}
}

func (s *shop) showPage(ctx context.Context) {
	route := []string{"/", "/cart", "/item"}[s.chance.Intn(3)]
	bytes := s.chance.Int63n(20_000)
	s.sent.Add(ctx, bytes, attribute.String("route", route))
	s.own.add("shop.sent", "route", route, bytes)
	microseconds := int64(s.chance.ExpFloat64() * 80_000)
	took := float64(microseconds) / 1e6
	s.duration.Record(ctx, took, attribute.String("route", route))
	s.own.record("shop.request.duration", "route", route, took, microseconds, secondBounds)
}
