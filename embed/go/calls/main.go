// calls N: N calls. For bench/embedding.
package main

import (
	"log"
	"os"
	"strconv"

	"starload"
)

func main() {
	calls := 100000
	if len(os.Args) > 1 {
		calls, _ = strconv.Atoi(os.Args[1])
	}
	bundle := []byte(`{"//:hello.star": "print('Hello')\nx = 1 + 2\n"}`)
	for i := 0; i < calls; i++ {
		if report, err := starload.Load(bundle, []string{"//:hello.star"}, starload.Options{}); err != nil || !report.OK {
			log.Fatal(err)
		}
	}
}
