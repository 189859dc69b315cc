//go:build unproved

package dcsctp

// #cgo pkg-config: dcsctp-unproved
import "C"
