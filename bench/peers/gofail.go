// Times passes of failpoints of gofail, by the clock: see bench/README.md.
//
//	gofail KIND THREADS PASSES
//
// prints nanoseconds a pass, over all goroutines, and the bytes that a pass takes more of memory. With
// the kind `serve` it stays, for whoever asks the endpoint that GOFAIL_HTTP names.
package main

import (
	"fmt"
	"os"
	"strconv"
	"strings"
	"sync"
	"time"

	"go.etcd.io/gofail/runtime"
	"passed"
)

const mostPoints = 256

var points [mostPoints]*runtime.Failpoint

// What `gofail enable` makes of a comment, of any of the points.
func at(point *runtime.Failpoint) int {
	if v, err := point.Acquire(); err == nil {
		defer point.Release()
		if _, ok := v.(struct{}); ok {
			return 1
		}
	}
	return 0
}

// One point, by every goroutine.
func passOne(_ int, passes int) (failed int) {
	for i := 0; i < passes; i++ {
		failed += passed.One()
	}
	return failed
}

// A point of its own for each goroutine. They lie apart, so that no two are in one line of the
// processors' memory.
func passOwn(worker int, passes int) (failed int) {
	point := points[worker*mostPoints/64]
	for i := 0; i < passes; i++ {
		failed += at(point)
	}
	return failed
}

// All points in turn.
func passMany(_ int, passes int) (failed int) {
	for i := 0; i < passes; i++ {
		failed += at(points[i%mostPoints])
	}
	return failed
}

func enable(path, terms string) {
	if err := runtime.Enable(path, terms); err != nil {
		stop(err.Error())
	}
}

func enableOne(terms string) {
	enable("passed/other", "return")
	if terms != "" {
		enable("passed/one", terms)
	}
}

func enableMany(terms string) {
	for i := range points {
		name := "p" + strconv.Itoa(i)
		points[i] = runtime.NewFailpoint("passed", name, false)
		enable("passed/"+name, terms)
	}
}

func enableNothing(_ string) {}

var kinds = map[string]struct {
	enable func(string)
	terms  string
	pass   func(int, int) int
}{
	"nothing-set": {enableNothing, "", passOne},
	"unset":       {enableOne, "", passOne},
	"uncounted":   {enableOne, "return", passOne},
	"counted":     {enableOne, "1000000000*return", passOne},
	"chance":      {enableOne, "50.0%return", passOne},
	"own":         {enableMany, "return", passOwn},
	"many":        {enableMany, "return", passMany},
}

func stop(why string) {
	fmt.Fprintln(os.Stderr, why)
	os.Exit(1)
}

func number(word string) int {
	found, err := strconv.Atoi(word)
	if err != nil {
		stop(err.Error())
	}
	return found
}

func bytesResident() float64 {
	text, err := os.ReadFile("/proc/self/statm")
	if err != nil {
		stop(err.Error())
	}
	return float64(number(strings.Fields(string(text))[1]) * os.Getpagesize())
}

func main() {
	if len(os.Args) != 4 {
		stop("usage: gofail KIND THREADS PASSES")
	}
	if os.Args[1] == "serve" {
		enableOne("return")
		select {}
	}
	kind, is := kinds[os.Args[1]]
	if !is {
		stop("no such kind")
	}
	workers := number(os.Args[2])
	each := number(os.Args[3]) / workers
	kind.enable(kind.terms)
	resident, begun := bytesResident(), time.Now()
	var all sync.WaitGroup
	for worker := 1; worker < workers; worker++ {
		all.Add(1)
		go func(worker int) {
			kind.pass(worker, each)
			all.Done()
		}(worker)
	}
	kind.pass(0, each)
	all.Wait()
	made := float64(each * workers)
	took := float64(time.Since(begun).Nanoseconds())
	fmt.Printf("%.2f %.2f\n", took/made, (bytesResident()-resident)/made)
}
