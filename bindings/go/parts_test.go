package bobbinjade

import (
	"errors"
	"fmt"
	"strings"
	"testing"
)

// A schema of two environments, and policies: a right one, one with a fault in each environment, and one that no request can satisfy.
const (
	partsSchema = `{"":{"entityTypes":{"User":{},"Admin":{},"Doc":{}},"actions":{"view":{"appliesTo":{
		"principalTypes":["User","Admin"],"resourceTypes":["Doc"]}},"read":{}}}}`
	rightPolicy  = "permit(principal, action, resource);\n"
	wrongPolicy  = "permit(principal, action, resource) when { resource.size > 0 };\n"
	vainPolicy   = "forbid(principal, action == Action::\"read\", resource);\n"
	manyPolicies = 3000
)

func partsFiles(policies string) Files {
	return Files{Schema: []byte(partsSchema), Policies: []byte(policies)}
}

func faultLine(policy, principal string) string {
	const line = `{"action":{"id":"view","type":"Action"},"fault":603,"policy":"%s","principal":"%s","resource":"Doc"}` + "\n"
	return fmt.Sprintf(line, policy, principal)
}

func totalsLine(faults, warnings uint64) string {
	return fmt.Sprintf("{\"faults\":%d,\"warnings\":%d}\n", faults, warnings)
}

// reportOf gives the report that Validate makes.
func reportOf(t *testing.T, policies string) Report {
	report, err := Validate(partsFiles(policies))
	if err != nil {
		t.Fatal(err)
	}
	return report
}

// joined gives the parts that are left, one after another.
func joined(t *testing.T, parts *ReportParts) string {
	var text strings.Builder
	for parts.Next() {
		text.Write(parts.Text())
	}
	if parts.Err() != nil {
		t.Fatal(parts.Err())
	}
	return text.String()
}

// areCounts says whether a report has got to these counts.
func areCounts(parts *ReportParts, policies, faults, warnings uint64, isAccepted bool) bool {
	return parts.Policies() == policies && parts.Faults() == faults && parts.Warnings() == warnings && parts.Accepted() == isAccepted
}

func TestShortReportInParts(t *testing.T) {
	parts := ValidateParts(partsFiles(rightPolicy+wrongPolicy+vainPolicy), AllLines)
	if !areCounts(parts, 0, 0, 0, false) || len(parts.Text()) != 0 || parts.Err() != nil {
		t.Error("a report has something before its first part")
	}
	wanted := faultLine("policy1", "Admin") + faultLine("policy1", "User") + `{"policy":"policy2","warning":650}` + "\n" + totalsLine(2, 1)
	if !parts.Next() || string(parts.Text()) != wanted || !areCounts(parts, 3, 2, 1, false) {
		t.Error(string(parts.Text()))
	}
	if parts.Next() || parts.Next() || parts.Err() != nil || len(parts.Text()) != 0 {
		t.Error("a report goes on after its end")
	}
	if text := joined(t, ValidateParts(partsFiles(""), AllLines)); text != totalsLine(0, 0) {
		t.Error(text)
	}
}

func TestPartsAreTheWholeReport(t *testing.T) {
	for _, it := range []struct {
		policy           string
		faults, warnings uint64
		least            int
	}{{rightPolicy, 0, 0, 3}, {wrongPolicy, 2 * manyPolicies, 0, 9}, {vainPolicy, 0, manyPolicies, 3}} {
		policies := strings.Repeat(it.policy, manyPolicies)
		report, parts, text, made := reportOf(t, policies), ValidateParts(partsFiles(policies), AllLines), "", 0
		for parts.Next() {
			made++
			text += string(parts.Text())
			if len(parts.Text()) >= 65536+256 || parts.Policies() > uint64(1000*made) {
				t.Error("a part is too long:", len(parts.Text()), parts.Policies())
			}
		}
		if text != report.Text || !strings.HasSuffix(text, totalsLine(it.faults, it.warnings)) || made < it.least {
			t.Errorf("%d parts of %d bytes in place of %d", made, len(text), len(report.Text))
		}
		if !areCounts(parts, manyPolicies, it.faults, it.warnings, it.faults == 0) || report.Accepted != (it.faults == 0) {
			t.Error("the counts are wrong")
		}
	}
}

func TestLinesOfParts(t *testing.T) {
	policies := strings.Repeat(wrongPolicy, manyPolicies)
	report := reportOf(t, policies).Text
	lines := strings.SplitAfter(report, "\n")
	for count := 0; count <= 5; count++ {
		text := joined(t, ValidateParts(partsFiles(policies), uint64(count)))
		if text != strings.Join(lines[:count], "")+totalsLine(6000, 0) {
			t.Error(count, text)
		}
	}
	if joined(t, ValidateParts(partsFiles(policies), 10000)) != report {
		t.Error("a limit that is not reached changes the report")
	}
}

func TestLeavingParts(t *testing.T) {
	policies := strings.Repeat(wrongPolicy, manyPolicies)
	report, parts := reportOf(t, policies).Text, ValidateParts(partsFiles(policies), AllLines)
	if !parts.Next() {
		t.Fatal(parts.Err())
	}
	first := string(parts.Text())
	if !strings.HasSuffix(first, "\n") || !strings.HasPrefix(report, first) || len(first) == len(report) || parts.Faults() != 2*parts.Policies() {
		t.Error(first)
	}
	if first+joined(t, parts) != report {
		t.Error("the rest is another one")
	}
}

func TestRefusedParts(t *testing.T) {
	for _, it := range []struct {
		files  Files
		file   File
		number uint32
	}{
		{partsFiles("permit("), Policies, 201},
		{Files{Schema: []byte("{"), Policies: []byte(rightPolicy)}, Schema, 301},
		{Files{Schema: []byte(partsSchema), Policies: []byte(rightPolicy), Links: []byte("{}")}, Links, 502},
	} {
		parts := ValidateParts(it.files, 5)
		for range make([]struct{}, 2) {
			var refusal *Refusal
			if parts.Next() || !errors.As(parts.Err(), &refusal) || refusal.File != it.file || refusal.Number != it.number {
				t.Fatal(it.number, parts.Err())
			}
			if !strings.HasPrefix(refusal.Words, fmt.Sprintf("error[%d]: ", it.number)) || !areCounts(parts, 0, 0, 0, false) || len(parts.Text()) != 0 {
				t.Error(refusal.Words)
			}
		}
	}
	files := partsFiles(rightPolicy)
	files.Entities = []byte("no entities")
	if text := joined(t, ValidateParts(files, AllLines)); text != totalsLine(0, 0) {
		t.Error(text)
	}
}
