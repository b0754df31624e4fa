package main

// What the system and the runtime of Go say of the process, under the names that the clients of Prometheus use.

import (
	"bytes"
	"fmt"
	"io"
	"os"
	"runtime"
	"strconv"
	"strings"
	"syscall"
	"time"
)

// The ticks of /proc in a second.
const ticks = 100

// A stat is what /proc/self/stat says: times in ticks, and sizes in bytes.
type stat struct {
	processor, start, threads, virtual, resident uint64
}

// writeProcess writes what the system says of the process. What it does not say is left out.
func writeProcess(to io.Writer) {
	if it, isThere := readStat(); isThere {
		plain(to, "process_resident_memory_bytes", "Resident memory.", "gauge", it.resident)
		plain(to, "process_virtual_memory_bytes", "Virtual memory.", "gauge", it.virtual)
		plain(to, "go_threads", "Threads of the system.", "gauge", it.threads)
		head(to, "process_cpu_seconds_total", "Processor time of the process and the system for it.", "counter")
		fmt.Fprintf(to, "process_cpu_seconds_total %.2f\n", float64(it.processor)/ticks)
		if boot, isThere := bootTime(); isThere {
			head(to, "process_start_time_seconds", "The start of the process, in seconds since 1970.", "gauge")
			fmt.Fprintf(to, "process_start_time_seconds %.2f\n", float64(boot)+float64(it.start)/ticks)
		}
	}
	if open, err := os.ReadDir("/proc/self/fd"); err == nil {
		// Without the one of the folder itself.
		plain(to, "process_open_fds", "Open file descriptors.", "gauge", uint64(len(open)-1))
	}
	var limit syscall.Rlimit
	if syscall.Getrlimit(syscall.RLIMIT_NOFILE, &limit) == nil {
		plain(to, "process_max_fds", "The most file descriptors that may be open.", "gauge", limit.Cur)
	}
}

// readStat reads what the system says of the process; it is false where that is not Linux.
func readStat() (stat, bool) {
	text, err := os.ReadFile("/proc/self/stat")
	// The name of the program is in brackets, and may have any bytes. The state is the third field.
	fields := strings.Fields(string(text[bytes.LastIndexByte(text, ')')+1:]))
	if err != nil || len(fields) < 22 {
		return stat{}, false
	}
	field := func(number int) uint64 {
		value, _ := strconv.ParseUint(fields[number-3], 10, 64)
		return value
	}
	return stat{processor: field(14) + field(15), threads: field(20), start: field(22), virtual: field(23),
		resident: field(24) * uint64(os.Getpagesize())}, true
}

// bootTime gives the start of the system, in seconds since 1970.
func bootTime() (uint64, bool) {
	text, err := os.ReadFile("/proc/stat")
	_, rest, isThere := strings.Cut(string(text), "\nbtime ")
	line, _, _ := strings.Cut(rest, "\n")
	boot, parseErr := strconv.ParseUint(line, 10, 64)
	return boot, err == nil && isThere && parseErr == nil
}

// writeGo writes what the runtime of Go says.
func writeGo(to io.Writer) {
	var memory runtime.MemStats
	runtime.ReadMemStats(&memory)
	head(to, "go_info", "The version of Go.", "gauge")
	fmt.Fprintf(to, "go_info{version=%q} 1\n", runtime.Version())
	plain(to, "go_goroutines", "Goroutines.", "gauge", uint64(runtime.NumGoroutine()))
	plain(to, "go_memstats_alloc_bytes", "Memory of objects of Go.", "gauge", memory.Alloc)
	plain(to, "go_memstats_heap_inuse_bytes", "Memory of the heap of Go that has objects.", "gauge", memory.HeapInuse)
	plain(to, "go_memstats_sys_bytes", "Memory that the runtime of Go has taken from the system.", "gauge", memory.Sys)
	head(to, "go_gc_duration_seconds", "Pauses for the collector of Go.", "summary")
	fmt.Fprintf(to, "go_gc_duration_seconds_sum %g\n", time.Duration(memory.PauseTotalNs).Seconds())
	fmt.Fprintf(to, "go_gc_duration_seconds_count %d\n", memory.NumGC)
	one(to, "engine_bytes", "Memory that the engine has, of all versions that requests use; 0 where the C library does not count it.",
		"gauge", engineBytes())
	one(to, "go_bytes", "Memory that the Go runtime has taken from the system.", "gauge", memory.Sys)
}
