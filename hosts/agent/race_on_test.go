//go:build race

package main

// The race detector empties pools at random, so that calls allocate.
const isRaced = true
