package main

import (
	"strings"
	"testing"
)

// The entities can be read back after changes, saved, and published anew.
func TestEntitiesAreReadBack(t *testing.T) {
	it := serveExample(t, "photos")
	read := func() reply { return it.call("GET", "/v1/entities", "", "", it.admin) }
	got := read()
	if got.status != 200 || got.body != content(t, "photos", "entities.json") || got.header.Get("Content-Type") != "application/json" {
		t.Error(got)
	}
	first := got.header.Get("ETag")
	if first != `"`+digestOf([]byte(got.body))+`"` || got.header.Get("Cedar-Version") != "1" {
		t.Error(got.header)
	}
	it.removeAnn()
	got = read()
	if got.status != 200 || strings.Contains(got.body, `{ "uid": { "type": "User", "id": "ann" }`) || got.header.Get("ETag") == first || got.header.Get("Cedar-Version") != "2" {
		t.Error(got)
	}
	if again := it.reload("?force=true"); again.status != 200 || !it.mayView() {
		t.Error(again)
	}
	if again := it.put("/v1/entities", got.body); again.status != 200 || it.mayView() {
		t.Error(again)
	}
	if head := it.call("HEAD", "/v1/entities", "", "", it.admin); head.status != 200 || head.body != "" {
		t.Error(head)
	}
	if got := it.get("/v1/entities"); got.status != 404 {
		t.Error(got)
	}
}

// A call that names the entities that it has read changes nothing where others are current.
func TestEntitiesThatWereReadAreGuarded(t *testing.T) {
	it := serveExample(t, "photos")
	tag := it.call("GET", "/v1/entities", "", "", it.admin).header.Get("ETag")
	send := func(method, body string, tags ...string) reply {
		request := it.request(method, "http://"+it.admin+"/v1/entities", "", strings.NewReader(body))
		request.Header["If-Match"] = tags
		return it.send(request)
	}
	if got := send("PATCH", annIsGone, `"sha256:0"`); got.status != 412 || !it.mayView() {
		t.Error(got)
	}
	if got := send("PATCH", annIsGone, `"sha256:0", `+tag); got.status != 200 || it.mayView() {
		t.Error(got)
	}
	for _, tags := range [][]string{{tag}, {`"sha256:0"`, tag}, {strings.Trim(tag, `"`)}, {"W/" + tag}, {""}} {
		for _, method := range []string{"PATCH", "PUT"} {
			if got := send(method, map[string]string{"PATCH": "{}", "PUT": "[]"}[method], tags...); got.status != 412 || it.metric("version") != "2" {
				t.Error(method, tags, got)
			}
		}
	}
	if got := send("PUT", content(t, "photos", "entities.json"), "*"); got.status != 200 || !it.mayView() {
		t.Error(got)
	}
	// Other files have tags, too: their digests.
	request := it.request("PUT", "http://"+it.admin+"/v1/policies", "", strings.NewReader(content(t, "photos", "policies.cedar")))
	request.Header.Set("If-Match", `"sha256:0"`)
	if got := it.send(request); got.status != 412 {
		t.Error(got)
	}
	request = it.request("PUT", "http://"+it.admin+"/v1/policies", "", strings.NewReader(content(t, "photos", "policies.cedar")))
	request.Header.Set("If-Match", `"`+digestOf([]byte(content(t, "photos", "policies.cedar")))+`"`)
	if got := it.send(request); got.status != 200 {
		t.Error(got)
	}
}

// A body that is compressed is not taken for one that is not.
func TestContentEncodings(t *testing.T) {
	it := serveExample(t, "notes", "--public-validate")
	for _, call := range [][3]string{{"POST", it.address, "/v1/authorize"}, {"POST", it.address, "/v1/validate"}, {"PUT", it.admin, "/v1/policies"},
		{"PATCH", it.admin, "/v1/entities"}} {
		for encoding, wanted := range map[string]bool{"gzip": true, "br, gzip": true, "identity": false, "": false} {
			request := it.request(call[0], "http://"+call[1]+call[2], "application/json", strings.NewReader("{}"))
			request.Header.Set("Content-Encoding", encoding)
			if got := it.send(request); (got.status == 415) != wanted {
				t.Error(call, encoding, got)
			}
		}
	}
}
