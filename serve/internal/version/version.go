// Package version is the version of the programs, outside the proof.
package version

// Number is the version. serve/build sets it from the file VERSION.
var Number = "unknown"
