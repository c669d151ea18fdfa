// Package passed has failpoints as a program has them: comments, which `gofail enable` makes code of.
package passed

// One passes a failpoint.
func One() int {
	// gofail: var one struct{}
	// return 1
	return 0
}

// Other passes another one.
func Other() int {
	// gofail: var other struct{}
	// return 1
	return 0
}
