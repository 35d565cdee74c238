//go:build !cgo

// What stands here in place of the package's name, the command go says where there is no cgo.
package rtnlc_is_for_C__set_CGO_ENABLED_1_and_have_a_compiler_of_C
