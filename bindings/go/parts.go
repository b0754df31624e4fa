package bobbinjade

import "math"

// AllLines is no limit of the lines of a report.
const AllLines uint64 = math.MaxUint64

// The room with which a part begins, in bytes: most parts are a little longer than 64 KiB.
const partRoom = 72 << 10

// ReportParts is a report in parts, each of which is made when Next asks for it. A caller may leave at any part: the rest is then never made,
// and there is nothing to close. One goroutine at a time uses it.
//
// A part ends after the policy with which it has 64 KiB, or after 1,000 policies. It may be empty.
type ReportParts struct {
	files             Files
	place             reportPlace
	text              []byte
	hasBegun, hasMore bool
	err               error
}

// ValidateParts validates the policies of files, of which Entities is not read, and gives the report in parts. It is for policies that one does
// not trust, whose report may be a thousand times as long as they are. The files must not change while parts are asked for.
//
//	parts := bobbinjade.ValidateParts(files, 1000)
//	for parts.Next() {
//		os.Stdout.Write(parts.Text())
//	}
//	if err := parts.Err(); err != nil {
//		..
//	}
//
// The parts, one after another, are the text of Validate. With a limit of lines, which may be AllLines, they are its first lines, as many as
// these, and the line of totals, which has all counts.
func ValidateParts(files Files, lines uint64) *ReportParts {
	return &ReportParts{files: files, place: firstPlace(lines)}
}

// Next makes the next part, which Text then gives. It is false where the report has ended, and with an error.
func (p *ReportParts) Next() bool {
	if p.err != nil || (p.hasBegun && !p.hasMore) {
		p.text = nil
		return false
	}
	if p.text == nil {
		p.text = make([]byte, 0, partRoom)
	}
	p.hasBegun = true
	p.text, p.hasMore, p.err = validatedPart(&p.files, &p.place, p.text[:0])
	return p.err == nil
}

// Text gives the last part: whole lines, or none. The next call of Next writes over it.
func (p *ReportParts) Text() []byte {
	return p.text
}

// Err gives why there are no more parts: *Refusal where a file is refused, ErrMemory or ErrLanguage. It is nil where the report has ended.
func (p *ReportParts) Err() error {
	return p.err
}

// Policies says how many policies have been reported on so far.
func (p *ReportParts) Policies() uint64 {
	return uint64(p.place.policy)
}

// Faults says how many faults they have.
func (p *ReportParts) Faults() uint64 {
	return uint64(p.place.faults)
}

// Warnings says how many warnings they have.
func (p *ReportParts) Warnings() uint64 {
	return uint64(p.place.warnings)
}

// Accepted says whether the report has ended, and the policies have no faults.
func (p *ReportParts) Accepted() bool {
	return p.hasBegun && !p.hasMore && p.err == nil && p.place.faults == 0
}
