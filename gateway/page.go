package main

import (
	"net"
	"net/http"
	"time"

	"rudderraisin/gateway/metrics"
)

// servePage answers GET /metrics at this listener until that is closed.
func servePage(listener net.Listener, numbers *metrics.Metrics) error {
	pages := http.NewServeMux()
	pages.HandleFunc("/metrics", func(answer http.ResponseWriter, _ *http.Request) {
		answer.Header().Set("Content-Type", "text/plain; version=0.0.4; charset=utf-8")
		numbers.Write(answer)
	})
	server := http.Server{Handler: pages, ReadTimeout: 5 * time.Second, WriteTimeout: 5 * time.Second,
		IdleTimeout: time.Minute, MaxHeaderBytes: 8192}
	return server.Serve(listener)
}
