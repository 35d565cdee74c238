// Links prints a line for each interface of a dump, by our package: from a table.
package main

import (
	"rtnl.invalid/rtnlc"

	"measure/rtnlc/text"
	"measure/source"
)

func main() { source.Exit(links()) }

func links() error {
	from, err := source.Open()
	if err != nil {
		return err
	}
	session, err := rtnlc.NewSession(nil)
	if err != nil {
		return err
	}
	defer session.Close()
	if err := text.Dump(from, session, rtnlc.RTM_GETLINK, rtnlc.AF_UNSPEC, 1); err != nil {
		return err
	}
	table := session.Links()
	for table.Next() {
		text.PrintLink(table.Entry())
	}
	return table.Err()
}
