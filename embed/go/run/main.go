// run BUNDLE STEPS PRELUDE FLAGS ROOT..: as c/run.c. For tests/embedding.
package main

import (
	"fmt"
	"os"
	"strconv"
	"strings"

	"starload"
)

func main() {
	bundle, err := os.ReadFile(os.Args[1])
	if err != nil {
		os.Exit(3)
	}
	steps, _ := strconv.ParseUint(os.Args[2], 10, 32)
	wants := func(flag string) bool { return strings.Contains(os.Args[4], flag) }
	options := starload.Options{Steps: uint32(steps), Values: wants("v"), Loads: wants("l"), Paid: wants("s"), OnlyRoots: wants("r")}
	if os.Args[3] != "-" {
		options.Prelude = &os.Args[3]
	}
	report, err := starload.Load(bundle, os.Args[5:], options)
	if err != nil {
		fmt.Fprintln(os.Stderr, "starload:", err)
		os.Exit(2)
	}
	os.Stdout.Write(report.JSON)
	if !report.OK {
		os.Exit(1)
	}
}
