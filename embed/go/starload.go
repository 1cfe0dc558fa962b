// Package starload runs Starlark files, and tells what each of them defines.
package starload

/*
#cgo CFLAGS: -I${SRCDIR}/..
#cgo LDFLAGS: ${SRCDIR}/../out/libstarload.a
#include <stdlib.h>
#include "starload.h"

// All that the request leads to lies in C's memory: cgo passes no Go pointer that leads to Go pointers. The words lie one after another after the
// bundle: the roots, then the prelude.
static starload_answer ask(const uint8_t *at, size_t bundle, const size_t *lengths, size_t count, size_t prelude, int flags, uint32_t steps, uint8_t *out, size_t room)
{
	starload_bytes *row = malloc((count + 1) * sizeof *row);
	starload_answer none = {STARLOAD_REFUSED, 11, 0};
	if (!row)
		return none;
	starload_asked asked = {.bundle = {at, bundle}, .steps = steps};
	at += bundle;
	for (size_t i = 0; i < count; at += lengths[i], i++)
		row[i] = (starload_bytes){at, lengths[i]};
	asked.roots = (starload_words){row, count};
	asked.prelude = (starload_bytes){at, prelude};
	asked.has_prelude = flags & 1;
	asked.with_values = flags & 2;
	asked.with_loads = flags & 4;
	asked.with_steps = flags & 8;
	asked.only_roots = flags & 16;
	starload_answer answer = starload_run(&asked, out, room);
	free(row);
	return answer;
}
*/
import "C"

import "unsafe"

// Options say how files are run, and what is wanted of each.
type Options struct {
	Prelude                        *string // the label of the file whose names every other file sees
	Steps                          uint32  // of each file, 1 to 100,000,000; 0 stands for 1,000,000
	Values, Loads, Paid, OnlyRoots bool
}

// Report has the report as a line of JSON, and says whether every file is ok.
type Report struct {
	JSON []byte
	OK   bool
}

// Refused says why there is no report, by its number in starload.h.
type Refused uint32

func (r Refused) Error() string { return C.GoString(C.starload_refusal(C.uint32_t(r))) }

func flag(set bool, bit C.int) C.int {
	if set {
		return bit
	}
	return 0
}

// Load gives the report of a bundle, which is a JSON object from labels to texts.
func Load(bundle []byte, roots []string, options Options) (Report, error) {
	steps := options.Steps
	if steps == 0 {
		steps = 1000000
	}
	all := append([]byte{}, bundle...)
	lengths := make([]C.size_t, len(roots)+1)
	for i, root := range roots {
		all = append(all, root...)
		lengths[i] = C.size_t(len(root))
	}
	prelude := ""
	if options.Prelude != nil {
		prelude = *options.Prelude
	}
	bytes := C.CBytes(append(append(all, prelude...), 0))
	defer C.free(bytes)
	flags := flag(options.Prelude != nil, 1) | flag(options.Values, 2) | flag(options.Loads, 4) | flag(options.Paid, 8) | flag(options.OnlyRoots, 16)
	out := make([]byte, 4096+4*len(bundle))
	for {
		answer := C.ask((*C.uint8_t)(bytes), C.size_t(len(bundle)), &lengths[0], C.size_t(len(roots)), C.size_t(len(prelude)), flags, C.uint32_t(steps),
			(*C.uint8_t)(unsafe.Pointer(&out[0])), C.size_t(len(out)))
		switch answer.status {
		case C.STARLOAD_REFUSED:
			return Report{}, Refused(answer.refusal)
		case C.STARLOAD_ROOM:
			out = make([]byte, answer.length)
		default:
			return Report{JSON: out[:answer.length], OK: answer.status == C.STARLOAD_OK}, nil
		}
	}
}
