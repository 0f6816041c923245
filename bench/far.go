// far.go is the server of Go's x/net/http2 that bench/far measures: `far PORT [WINDOW]` listens on 127.0.0.1 for HTTP/2
// without TLS, and sends the body of each request back once all of it has come. WINDOW is that of a connection and of each
// stream, in octets; without it they are Go's own.
package main

import (
	"io"
	"log"
	"net/http"
	"os"
	"strconv"

	"golang.org/x/net/http2"
	"golang.org/x/net/http2/h2c"
)

func echo(answer http.ResponseWriter, request *http.Request) {
	body, err := io.ReadAll(request.Body)
	if err != nil {
		return
	}
	answer.Header().Set("content-length", strconv.Itoa(len(body)))
	answer.Write(body)
}

func main() {
	server := &http2.Server{}
	if len(os.Args) > 2 {
		window, err := strconv.Atoi(os.Args[2])
		if err != nil {
			log.Fatal(err)
		}
		server.MaxUploadBufferPerConnection = int32(window)
		server.MaxUploadBufferPerStream = int32(window)
	}
	log.Fatal(http.ListenAndServe("127.0.0.1:"+os.Args[1], h2c.NewHandler(http.HandlerFunc(echo), server)))
}
