//go:build !unproved

package dcsctp

// #cgo pkg-config: dcsctp
import "C"
