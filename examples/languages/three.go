// Three nodes elect a coordinator over a log. Here each row is only learned.
package main

/*
#cgo pkg-config: bully
#include <bully.h>
*/
import "C"

import "fmt"

var (
	group         C.bully_replica
	row           [64]C.char
	length, taken C.size_t
)

func must(status C.bully_status) {
	if status != C.BULLY_OK {
		panic(C.GoString(C.bully_status_name(status)))
	}
}

func step(node C.uint16_t) bool {
	must(C.bully_replica_next(&group, node, &row[0], C.size_t(len(row)), &length)) // a length of 0: it rests
	must(C.bully_replica_learn(&group, &row[0], length, &taken))                   // in a store the row is appended first
	return length > 0
}

func elect() {
	setup := C.bully_setup{nodes: 3, partitions: 5, events_max: 1000}
	must(C.bully_header(&setup, nil, 0, &row[0], C.size_t(len(row)), &length))
	must(C.bully_replica_open(&group, &row[0], length))
	for node := C.uint16_t(1); node <= 3; node++ {
		must(C.bully_replica_event(&group, node, C.BULLY_EVENT_RECOVER, &row[0], C.size_t(len(row)), &length))
		must(C.bully_replica_learn(&group, &row[0], length, &taken))
	}
	for step(1) || step(2) || step(3) {
	}
}

func main() {
	elect()
	var state C.bully_state
	for node := C.uint16_t(1); node <= 3; node++ {
		must(C.bully_replica_show(&group, node, &state))
		fmt.Println(node, []string{"down", "election", "reorganization", "normal"}[state.status], state.coordinator)
	}
	var owners [5]C.uint16_t
	must(C.bully_replica_planned(&group, &owners[0], 5, &length))
	text := fmt.Sprint(owners[:length])
	fmt.Println(text[1 : len(text)-1])
	must(C.bully_replica_close(&group))
}
