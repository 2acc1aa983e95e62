// A stand-in for crictl, which Debian has not: it asks the runtime's own endpoint (CRI v1alpha2), and prints of
//
//	ps -a -o json, inspect -o json ID
//
// what crictl 1.20 prints of them, without the fields that tools/record does not read. Before these words it takes
// --runtime-endpoint unix://SOCKET.
package main

import (
	"context"
	"encoding/json"
	"fmt"
	"net"
	"os"
	"strconv"
	"strings"
	"time"

	"google.golang.org/grpc"
	pb "k8s.io/cri-api/pkg/apis/runtime/v1alpha2"
)

var socket = "/run/containerd/containerd.sock"

type object map[string]interface{}

func fail(what string, err error) {
	said := fmt.Sprintf("%s: %v", what, err)
	fmt.Fprintf(os.Stderr, "time=%q level=fatal msg=%q\n", time.Now().Format(time.RFC3339), said)
	os.Exit(1)
}

func show(value object) {
	text, err := json.MarshalIndent(value, "", "  ")
	if err != nil {
		fail("marshal", err)
	}
	fmt.Println(string(text))
}

func moment(nanoseconds int64) string {
	return time.Unix(0, nanoseconds).Format(time.RFC3339Nano)
}

func metadata(of *pb.ContainerMetadata) object {
	return object{"name": of.Name, "attempt": of.Attempt}
}

func list(ctx context.Context, client pb.RuntimeServiceClient) {
	answer, err := client.ListContainers(ctx, &pb.ListContainersRequest{Filter: &pb.ContainerFilter{}})
	if err != nil {
		fail("listing containers", err)
	}
	containers := []object{}
	for _, each := range answer.Containers {
		containers = append(containers, object{
			"id": each.Id, "podSandboxId": each.PodSandboxId, "metadata": metadata(each.Metadata),
			"state": each.State.String(), "createdAt": strconv.FormatInt(each.CreatedAt, 10), "labels": each.Labels})
	}
	show(object{"containers": containers})
}

func inspect(ctx context.Context, client pb.RuntimeServiceClient, id string) {
	answer, err := client.ContainerStatus(ctx, &pb.ContainerStatusRequest{ContainerId: id, Verbose: true})
	if err != nil {
		fail(fmt.Sprintf("getting the status of the container %q", id), err)
	}
	status := answer.Status
	show(object{"status": object{
		"id": status.Id, "metadata": metadata(status.Metadata), "state": status.State.String(),
		"createdAt": moment(status.CreatedAt), "startedAt": moment(status.StartedAt),
		"finishedAt": moment(status.FinishedAt), "exitCode": status.ExitCode, "reason": status.Reason}})
}

func main() {
	ctx, cancel := context.WithTimeout(context.Background(), 10*time.Second)
	defer cancel()
	words := os.Args[1:]
	if len(words) > 1 && words[0] == "--runtime-endpoint" {
		socket, words = strings.TrimPrefix(words[1], "unix://"), words[2:]
	}
	dial := func(ctx context.Context, _ string) (net.Conn, error) {
		return (&net.Dialer{}).DialContext(ctx, "unix", socket)
	}
	connection, err := grpc.DialContext(ctx, socket, grpc.WithInsecure(), grpc.WithBlock(), grpc.WithContextDialer(dial))
	if err != nil {
		fail("connect endpoint", err)
	}
	client := pb.NewRuntimeServiceClient(connection)
	switch said := strings.Join(words, " "); {
	case said == "ps -a -o json":
		list(ctx, client)
	case strings.HasPrefix(said, "inspect -o json ") && len(words) == 4:
		inspect(ctx, client, words[3])
	default:
		fail("words", fmt.Errorf("%q", said))
	}
}
