// For those with internet: `go mod tidy && go build`. Debian's packages, which serve/build takes where they are, need no modules.
module gateway

go 1.19

require (
	github.com/prometheus/client_golang v1.14.0
	go.etcd.io/etcd release-3.4 // the newest: before 3.4.21 one member alone might answer before it had synced. These releases have no name as modules
	go.uber.org/zap v1.10.0
	golang.org/x/net v0.7.0 // Debian's: newer ones need a newer golang.org/x/sys
	golang.org/x/sys v0.5.0
	google.golang.org/protobuf v1.28.1
)

replace google.golang.org/grpc => google.golang.org/grpc v1.27.1 // the last that etcd 3.4 goes with
