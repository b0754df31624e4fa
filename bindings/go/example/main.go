// Publishes the files of a folder, and answers requests: go run ./example FOLDER [LINKS], for example examples/notes.
// LINKS is a file of links.
package main

import (
	"context"
	"errors"
	"fmt"
	"log"
	"os"
	"path/filepath"

	"bobbinjade"
)

// content reads a file of the folder. One that is not there ends the example: an empty text in its place would be other policies.
func content(name string) []byte {
	text, err := os.ReadFile(filepath.Join(os.Args[1], name))
	if err != nil {
		log.Fatal(err)
	}
	return text
}

// links reads the file of links, where the command line names one. A file of no bytes is refused, since the library takes it for no file.
func links() []byte {
	if len(os.Args) < 3 {
		return nil
	}
	text, err := os.ReadFile(os.Args[2])
	if err == nil && len(text) == 0 {
		err = errors.New("a file of links has a list")
	}
	if err != nil {
		log.Fatal(err)
	}
	return text
}

func main() {
	files := bobbinjade.Files{
		Schema: content("schema.json"), Policies: content("policies.cedar"), Links: links(), Entities: content("entities.json"),
	}
	engine, err := bobbinjade.New(files)
	if err != nil {
		log.Fatal(err)
	}
	defer engine.Close()

	// Any number of goroutines may ask, also while another publishes.
	request := bobbinjade.Request{
		Principal: bobbinjade.UID{Type: "User", ID: "ann"},
		Action:    bobbinjade.UID{Type: "Action", ID: "write"},
		Resource:  bobbinjade.UID{Type: "Notebook", ID: "plans"},
	}
	response, err := engine.Authorize(context.Background(), request)
	if err != nil {
		log.Fatal(err)
	}
	fmt.Println(response.Allowed, "determined by", response.Determining)

	// All request lines of the folder, as `cedar authorize` answers them.
	answers, err := engine.Answer(content("requests.jsonl"))
	if err != nil {
		log.Fatal(err)
	}
	fmt.Print(string(answers))

	// Entities that changed are read alone, and the policies are not read again. Goroutines may ask meanwhile.
	if err := engine.PublishEntities(content("entities.json")); err != nil {
		log.Fatal(err)
	}

	// One user is stored, and another is gone. What the changes do not name stays as it is.
	if err := engine.PublishChanges([]byte(`{"upsert":[{"uid":{"type":"User","id":"dora"}}],"remove":[{"type":"User","id":"bob"}]}`)); err != nil {
		log.Fatal(err)
	}

	// A request that brings its entities. No other request sees them.
	once, err := engine.WithChanges([]byte(`{"upsert":[{"uid":{"type":"User","id":"ann"}}]}`))
	if err != nil {
		log.Fatal(err)
	}
	defer once.Close()
	isAllowed, err := once.Decide(context.Background(), request)
	fmt.Println(isAllowed && err == nil)

	// A request line that brings its entities. No other line sees them.
	line := `{"principal":"User::\"ann\"","action":"Action::\"write\"","resource":"Notebook::\"plans\"",` +
		`"entities":[{"uid":{"type":"User","id":"ann"}}]}`
	answers, err = engine.AnswerWithEntities([]byte(line))
	if err != nil {
		log.Fatal(err)
	}
	fmt.Print(string(answers))

	// Policies of others: their report comes in parts, and may be left at any of them. After 100 lines only the counts go on.
	parts := bobbinjade.ValidateParts(files, 100)
	for parts.Next() {
		os.Stdout.Write(parts.Text())
	}
	if err := parts.Err(); err != nil {
		log.Fatal(err)
	}

	// Policies that are refused change nothing.
	files.Policies = []byte("permit(")
	var refusal *bobbinjade.Refusal
	if err := engine.Publish(files); errors.As(err, &refusal) {
		fmt.Println("refused", refusal.Number, "at", refusal.Offset, "in line", refusal.Line)
	}
}
