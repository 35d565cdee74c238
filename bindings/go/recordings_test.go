package rtnlc_test

import (
	"encoding/hex"
	"encoding/json"
	"errors"
	"fmt"
	"net/netip"
	"os"
	"path/filepath"
	"testing"

	"rtnl.invalid/rtnlc"
)

// attrTexts are the attributes of a line of JSON, and foundTexts those that the package finds: the
// numbers, flags and bytes of all, to the innermost.
func attrTexts(t testing.TB, attrs []jsonAttr) string {
	t.Helper()
	text := ""
	for _, it := range attrs {
		text += fmt.Sprint(" ", it.Number, it.Flags)
		var inner []jsonAttr
		var hops []jsonHop
		switch it.Form {
		case "list":
			items(t, it, &inner)
			text += "(" + attrTexts(t, inner) + ")"
		case "hops":
			items(t, it, &hops)
			for _, hop := range hops {
				text += "<" + attrTexts(t, hop.Attrs) + ">"
			}
		case "ipv4", "ipv6":
			text += netip.MustParseAddr(it.Value.(string)).String()
		default:
			text += fmt.Sprint(it.Value)
		}
	}
	return text
}

func foundTexts(forms []jsonAttr, attrs rtnlc.Attrs) string {
	text := ""
	for at := 0; attrs.Next(); at++ {
		it := attrs.Attr()
		flags := []string{}
		if it.Nested() {
			flags = append(flags, "nested")
		}
		if it.Net() {
			flags = append(flags, "net")
		}
		text += fmt.Sprint(" ", it.Number(), flags)
		form := jsonAttr{Form: "none"}
		if at < len(forms) {
			form = forms[at]
		}
		text += foundText(form, it)
	}
	return text
}

// foundText is what an attribute holds, in the form that the line has it in.
func foundText(form jsonAttr, it rtnlc.Attr) string {
	text := ""
	switch it.Sort() {
	case rtnlc.SortList:
		var inner []jsonAttr
		_ = json.Unmarshal(form.Items, &inner)
		return "(" + foundTexts(inner, it.Attrs()) + ")"
	case rtnlc.SortHops:
		var hops []jsonHop
		_ = json.Unmarshal(form.Items, &hops)
		for nextHops, at := it.NextHops(), 0; nextHops.Next() && at < len(hops); at++ {
			text += "<" + foundTexts(hops[at].Attrs, nextHops.NextHop().Attrs()) + ">"
		}
		return text
	}
	switch form.Form {
	case "u8":
		return told(it.Uint8())
	case "u16":
		return told(it.Uint16())
	case "u32":
		return told(it.Uint32())
	case "text":
		return told(it.Text())
	case "ipv4", "ipv6":
		return told(it.Addr())
	}
	return hex.EncodeToString(it.Bytes())
}

// dumped are the entries of the family's table of a session.
func dumped(t testing.TB, s *rtnlc.Session, kind string) (found []rtnlc.Message) {
	t.Helper()
	keep := func(m rtnlc.Message) { found = append(found, m.Clone()) }
	var err error
	switch kind {
	case "link":
		err = s.Links().Each(func(it rtnlc.Link) { keep(it.Message) })
	case "addr":
		err = s.Addresses().Each(func(it rtnlc.Address) { keep(it.Message) })
	case "route":
		err = s.Routes().Each(func(it rtnlc.Route) { keep(it.Message) })
	case "neigh":
		err = s.Neighbours().Each(func(it rtnlc.Neighbour) { keep(it.Message) })
	case "rule":
		err = s.Rules().Each(func(it rtnlc.Rule) { keep(it.Message) })
	}
	equal(t, "error", err, nil)
	return found
}

var kinds = map[string]uint16{
	"link": rtnlc.RTM_GETLINK, "addr": rtnlc.RTM_GETADDR, "route": rtnlc.RTM_GETROUTE,
	"neigh": rtnlc.RTM_GETNEIGH, "rule": rtnlc.RTM_GETRULE,
}

// The table of each family that each recording gives is what `rtnl table` prints of it.
func TestTablesOfRecordings(t *testing.T) {
	for _, path := range recordings(t) {
		datagrams := datagrams(t, path)
		header := firstOf(t, datagrams[0]).Header()
		numbers := []string{fmt.Sprint(header.Seq), fmt.Sprint(header.Port)}
		for kind, messageType := range kinds {
			printed := lines(t, "table", "--format", "json", "--kind", kind, "--seq", numbers[0],
				"--port", numbers[1], path)
			s, err := rtnlc.NewSession(nil)
			if err == nil {
				_, err = s.Begin(messageType, 0, header.Seq, header.Port)
			}
			if err != nil {
				t.Fatal(err)
			}
			for _, datagram := range datagrams {
				if s.Status().State == rtnlc.Waiting {
					_, _ = s.Feed(datagram)
				}
			}
			compareTable(t, filepath.Base(path)+" "+kind, printed, s, kind)
			s.Close()
		}
	}
}

func firstOf(t testing.TB, datagram []byte) rtnlc.Message {
	t.Helper()
	messages, err := rtnlc.Parse(datagram)
	if err != nil || len(messages) == 0 {
		t.Fatal(err)
	}
	return messages[0]
}

// compareTable compares the entries, the attributes and the end of a dump with what is printed.
func compareTable(t testing.TB, name string, printed []jsonLine, s *rtnlc.Session, kind string) {
	t.Helper()
	found := dumped(t, s, kind)
	at := 0
	for _, line := range printed {
		if line.Dump != nil {
			status := s.Status()
			equal(t, name, []any{at, status.Ignored, status.Damaged, status.Interrupted,
				status.Received, status.Visits, status.Complete, status.Code},
				[]any{len(found), line.Ignored, line.Damaged, line.Interrupted, line.Received,
					line.Visits, line.Complete, line.Code})
			equal(t, name, len(found), line.Entries)
			continue
		}
		if line.Entry == 0 || at >= len(found) {
			continue
		}
		view, texts := wanted(t, line)
		equal(t, fmt.Sprint(name, " entry ", line.Entry), views[view](found[at]), texts)
		attrs := object(line).Attrs
		equal(t, fmt.Sprint(name, " attributes ", line.Entry),
			foundTexts(attrs, found[at].Attrs()), attrTexts(t, attrs))
		at++
	}
}

func object(it jsonLine) *jsonObject {
	for _, found := range []*jsonObject{it.Link, it.Addr, it.Route, it.Neigh, it.Rule} {
		if found != nil {
			return found
		}
	}
	return nil
}

// Each broken datagram is refused as `rtnl check` says, and each whole one is taken: by Scan, by
// Check, by a tape, a session and a stream.
func TestBrokenDatagrams(t *testing.T) {
	root := repository(t)
	paths := append(recordings(t), filepath.Join(root, "measure", "broken.hex"),
		filepath.Join(root, "measure", "whole.hex"))
	// The repository's tests name a file with more.
	if more := os.Getenv("RTNL_DATAGRAMS"); more != "" {
		paths = append(paths, more)
	}
	refused := 0
	for _, path := range paths {
		printed := lines(t, "check", "--format", "json", path)
		datagrams := datagrams(t, path)
		if len(printed) != len(datagrams) {
			t.Fatalf("%s: %d lines of %d datagrams", path, len(printed), len(datagrams))
		}
		for at, line := range printed {
			wanted := "taken"
			if line.Refused != nil {
				wanted = fmt.Sprintf("%s at %d", *line.Refused, line.At)
				refused++
			}
			for how, err := range verdicts(t, datagrams[at]) {
				equal(t, fmt.Sprint(path, " ", at+1, " ", how), said(err), wanted)
			}
			canonical, _ := rtnlc.Check(datagrams[at], nil)
			equal(t, "canonical", canonical, line.Canonical)
		}
	}
	if refused < 36 {
		t.Errorf("%d were refused", refused)
	}
}

// verdicts are what each way of reading says of a datagram.
func verdicts(t testing.TB, datagram []byte) map[string]error {
	t.Helper()
	_, scanned := rtnlc.Scan(datagram, nil)
	_, checked := rtnlc.Check(datagram, nil)
	_, parsed := rtnlc.Parse(datagram)
	_, fed := begun(t, nil).Feed(datagram)
	stream, err := rtnlc.NewStream(nil)
	if err == nil {
		_, err = stream.Begin(rtnlc.RTM_GETLINK, 0, seq, port)
	}
	if err != nil {
		t.Fatal(err)
	}
	_, streamed := stream.Feed(datagram)
	return map[string]error{
		"scan": scanned, "check": checked, "parse": parsed, "session": fed, "stream": streamed,
	}
}

// said is an error as `rtnl check` says it.
func said(err error) string {
	var refused *rtnlc.Error
	if errors.As(err, &refused) {
		return fmt.Sprintf("%s at %d", refused.Code.String(), refused.Place)
	}
	return told("taken", err == nil)
}
