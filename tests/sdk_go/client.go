// How a batch gets to the service: by HTTP, or by gRPC's own client.
package main

import (
	"bytes"
	"compress/gzip"
	"context"
	"crypto/tls"
	"crypto/x509"
	"fmt"
	"io"
	"net/http"
	"os"
	"time"

	"google.golang.org/genproto/googleapis/rpc/errdetails"
	"google.golang.org/grpc"
	"google.golang.org/grpc/backoff"
	"google.golang.org/grpc/codes"
	"google.golang.org/grpc/credentials"
	grpcgzip "google.golang.org/grpc/encoding/gzip"
	"google.golang.org/grpc/metadata"
	"google.golang.org/grpc/status"
)

const method = "/opentelemetry.proto.collector.metrics.v1.MetricsService/Export"

// answer is what one try was answered: in a few words, whether it is made again, and the body of what was taken.
type answer struct {
	what    string
	isAgain bool
	body    []byte
}

type client interface {
	try(body []byte) answer
}

// secure is how a connection is made to who has a certificate of the roots, with our own where we have one; or nil.
func (e *exporter) secure() (*tls.Config, error) {
	if e.ca == "" {
		return nil, nil
	}
	roots, err := os.ReadFile(e.ca)
	if err != nil {
		return nil, err
	}
	config := &tls.Config{RootCAs: x509.NewCertPool()}
	config.RootCAs.AppendCertsFromPEM(roots)
	if e.cert != "" {
		own, err := tls.LoadX509KeyPair(e.cert, e.key)
		if err != nil {
			return nil, err
		}
		config.Certificates = []tls.Certificate{own}
	}
	return config, nil
}

func (e *exporter) dial() (client, error) {
	config, err := e.secure()
	if err != nil {
		return nil, err
	}
	if e.encoding != "grpc" {
		transport := &http.Transport{TLSClientConfig: config}
		return &overHTTP{exporter: e, client: &http.Client{Timeout: 3 * time.Second, Transport: transport}}, nil
	}
	security := grpc.WithInsecure()
	if config != nil {
		security = grpc.WithTransportCredentials(credentials.NewTLS(config))
	}
	connection, err := grpc.Dial(e.grpc, security, grpc.WithConnectParams(grpc.ConnectParams{
		Backoff:           backoff.Config{BaseDelay: 50 * time.Millisecond, Multiplier: 1.2, MaxDelay: time.Second},
		MinConnectTimeout: time.Second,
	}))
	return &overGRPC{exporter: e, connection: connection}, err
}

type overHTTP struct {
	*exporter
	client *http.Client
}

func (c *overHTTP) try(body []byte) answer {
	kind := "application/x-protobuf"
	if c.encoding == "json" {
		kind = "application/json"
	}
	if c.gzip {
		var packed bytes.Buffer
		writer := gzip.NewWriter(&packed)
		writer.Write(body)
		writer.Close()
		body = packed.Bytes()
	}
	request, err := http.NewRequest("POST", c.url, bytes.NewReader(body))
	if err != nil {
		return answer{what: err.Error()}
	}
	request.Header.Set("Content-Type", kind)
	if c.gzip {
		request.Header.Set("Content-Encoding", "gzip")
	}
	if c.sender != "" {
		request.Header.Set("x-sender", c.sender)
	}
	if c.token != "" {
		request.Header.Set("Authorization", "Bearer "+c.token)
	}
	response, err := c.client.Do(request)
	if err != nil {
		return answer{what: "no answer", isAgain: true}
	}
	defer response.Body.Close()
	text, err := io.ReadAll(response.Body)
	if err != nil {
		return answer{what: "no whole answer", isAgain: true}
	}
	what := fmt.Sprint(response.StatusCode)
	switch response.StatusCode {
	case 200:
		return answer{what: what, body: text}
	case 429, 502, 503, 504:
		return answer{what: what, isAgain: true}
	}
	return answer{what: fmt.Sprintf("%s %q", what, text)}
}

type overGRPC struct {
	*exporter
	connection *grpc.ClientConn
}

// raw passes messages as they are: they are written and read elsewhere.
type raw struct{}

func (raw) Marshal(v interface{}) ([]byte, error) { return *v.(*[]byte), nil }

func (raw) Unmarshal(data []byte, v interface{}) error {
	*v.(*[]byte) = append([]byte{}, data...)
	return nil
}

func (raw) Name() string { return "proto" }

func (c *overGRPC) try(body []byte) answer {
	ctx, cancel := context.WithTimeout(context.Background(), 3*time.Second)
	defer cancel()
	if c.sender != "" {
		ctx = metadata.AppendToOutgoingContext(ctx, "x-sender", c.sender)
	}
	if c.token != "" {
		ctx = metadata.AppendToOutgoingContext(ctx, "authorization", "Bearer "+c.token)
	}
	options := []grpc.CallOption{grpc.ForceCodec(raw{})}
	if c.gzip {
		options = append(options, grpc.UseCompressor(grpcgzip.Name))
	}
	reply := []byte{}
	err := c.connection.Invoke(ctx, method, &body, &reply, options...)
	said := status.Convert(err)
	what := said.Code().String()
	isRetry := false
	for _, detail := range said.Details() {
		if _, ok := detail.(*errdetails.RetryInfo); ok {
			isRetry = true
			what += " with RetryInfo"
		}
	}
	switch said.Code() {
	case codes.OK:
		return answer{what: what, body: reply}
	case codes.Canceled, codes.DeadlineExceeded, codes.Aborted, codes.OutOfRange, codes.Unavailable, codes.DataLoss:
		return answer{what: what, isAgain: true}
	case codes.ResourceExhausted:
		return answer{what: what, isAgain: isRetry}
	}
	return answer{what: fmt.Sprintf("%s %s", what, said.Message())}
}
