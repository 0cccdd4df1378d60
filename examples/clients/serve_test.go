// A test over `stsctl serve`, where a fake clientset would stand: STSCTL=PATH go test serve_test.go
// It writes a line and reads a line. The shapes may as well be those of k8s.io/api.
package clients

import (
	"encoding/json"
	"os"
	"os/exec"
	"testing"
)

type meta struct {
	Name            string            `json:"name"`
	Finalizers      []string          `json:"finalizers,omitempty"`
	Labels          map[string]string `json:"labels,omitempty"`
	ResourceVersion string            `json:"resourceVersion,omitempty"`
}

type object struct {
	Kind     string `json:"kind"`
	Metadata meta   `json:"metadata"`
}

type request struct {
	Do     string  `json:"do"`
	Kind   string  `json:"kind,omitempty"`
	Name   string  `json:"name,omitempty"`
	Object *object `json:"object,omitempty"`
}

type reply struct {
	Code            int
	Reason          string
	Object          object
	Items           []object
	ResourceVersion string
}

// serve starts a store of its own for the test, and returns how to ask it.
func serve(t *testing.T) func(request) reply {
	command := exec.Command(os.Getenv("STSCTL"), "serve")
	in, _ := command.StdinPipe()
	out, _ := command.StdoutPipe()
	if err := command.Start(); err != nil {
		t.Fatal(err)
	}
	t.Cleanup(func() { in.Close(); command.Wait() })
	lines, replies := json.NewEncoder(in), json.NewDecoder(out)
	return func(asked request) (told reply) {
		if err := lines.Encode(asked); err != nil {
			t.Fatal(err)
		}
		if err := replies.Decode(&told); err != nil {
			t.Fatal(err)
		}
		return told
	}
}

func TestStaleUpdateConflicts(t *testing.T) {
	ask := serve(t)
	pod := object{"Pod", meta{Name: "web-0", Finalizers: []string{"example.com/hold"}}}
	created := ask(request{Do: "create", Object: &pod})
	found := ask(request{Do: "get", Kind: "Pod", Name: "web-0"})
	if created.Code != 201 || found.Object.Metadata.ResourceVersion != "1" {
		t.Fatalf("created %+v, found %+v", created, found)
	}
	mine, theirs := found.Object, found.Object
	theirs.Metadata.Labels = map[string]string{"by": "them"}
	mine.Metadata.Labels = map[string]string{"by": "me"}
	if told := ask(request{Do: "update", Object: &theirs}); told.Code != 200 {
		t.Fatalf("updated %+v", told)
	}
	if told := ask(request{Do: "update", Object: &mine}); told.Code != 409 || told.Reason != "Conflict" {
		t.Errorf("updated by a stale version: %+v", told)
	}
	listed := ask(request{Do: "list", Kind: "Pod"})
	if listed.ResourceVersion != "2" || len(listed.Items) != 1 || listed.Items[0].Metadata.Labels["by"] != "them" {
		t.Errorf("listed %+v", listed)
	}
	// A delete without "at" removes a pod at once: no grace, and no finalizer holds it.
	ask(request{Do: "delete", Kind: "Pod", Name: "web-0"})
	if told := ask(request{Do: "get", Kind: "Pod", Name: "web-0"}); told.Code != 404 {
		t.Errorf("found after the delete: %+v", told)
	}
}
