package bobbinjade

import (
	"context"
	"fmt"
	"os"
	"strings"
	"sync"
	"sync/atomic"
	"testing"
	"time"
)

// The publications of TestMemoryOfPublications, and the memory that it allows beside twice one engine, in bytes.
const (
	publications  = 100
	memoryAllowed = 32 << 20
)

// residentBytes gives the memory of this process that is resident. The test is skipped where the system does not say it.
func residentBytes(t *testing.T) int64 {
	text, err := os.ReadFile("/proc/self/statm")
	if err != nil {
		t.Skip(err)
	}
	var all, resident int64
	if _, err := fmt.Sscan(string(text), &all, &resident); err != nil {
		t.Fatal(err)
	}
	return resident * int64(os.Getpagesize())
}

// manyEntities gives 500 groups, and 10,000 users with names, each in one of them: 2.1 MB.
func manyEntities() []byte {
	var text strings.Builder
	for at := 0; at < 500; at++ {
		fmt.Fprintf(&text, `,{"uid":{"type":"Group","id":"group%d"}}`, at)
	}
	for at := 0; at < 10000; at++ {
		name := strings.Repeat("x", 100)
		fmt.Fprintf(&text, `,{"uid":{"type":"User","id":"user%d"},"attrs":{"name":"%s"},"parents":[{"type":"Group","id":"group%d"}]}`, at, name, at%500)
	}
	return []byte("[" + text.String()[1:] + "]")
}

// An engine that nobody uses any more is freed, also while requests run: memory does not grow with publications.
func TestMemoryOfPublications(t *testing.T) {
	files := Files{Schema: []byte(`{"":{"entityTypes":{"Group":{},"User":{"memberOfTypes":["Group"],"shape":{"type":"Record","attributes":
		{"name":{"type":"String"}}}}},"actions":{"view":{"appliesTo":{"principalTypes":["User"],"resourceTypes":["Group"]}}}}}`),
		Policies: []byte(`permit(principal in Group::"group7", action, resource);`), Entities: manyEntities()}
	before := residentBytes(t)
	engine := engineOf(t, files)
	defer engine.Close()
	one := residentBytes(t) - before
	var isOver atomic.Bool
	var asking sync.WaitGroup
	for i := 0; i < 16; i++ {
		asking.Add(1)
		go func() {
			defer asking.Done()
			request := Request{Principal: UID{"User", "user7"}, Action: UID{"Action", "view"}, Resource: UID{"Group", "group1"}}
			for !isOver.Load() {
				if isAllowed, err := engine.Decide(context.Background(), request); err != nil || !isAllowed {
					t.Error(isAllowed, err)
					return
				}
				time.Sleep(time.Millisecond)
			}
		}()
	}
	for i := 0; i < publications; i++ {
		if err := engine.PublishEntities(files.Entities); err != nil {
			t.Error(err)
		}
	}
	after := residentBytes(t)
	isOver.Store(true)
	asking.Wait()
	t.Logf("resident: %d MB before, one engine %d MB, %d MB after %d publications", before>>20, one>>20, after>>20, publications)
	if most := before + 2*one + memoryAllowed; after > most {
		t.Errorf("%d MB are resident, and at most %d MB should be", after>>20, most>>20)
	}
}
