// The modules of a report with their global `ports`, in Go.
package main

import (
	"encoding/json"
	"fmt"
	"log"
	"os/exec"
)

func main() {
	out, _ := exec.Command("starload", "--with", "values", "--dir", ".", "//app:main.star").Output()
	var report struct {
		Modules []struct {
			Label, Status string
			Values        struct{ Ports []int64 }
		}
	}
	if err := json.Unmarshal(out, &report); err != nil {
		log.Fatal(err)
	}
	for _, m := range report.Modules {
		fmt.Println(m.Label, m.Status, m.Values.Ports)
	}
}
