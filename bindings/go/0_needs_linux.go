//go:build cgo && !(linux && amd64)

// What stands here in place of the package's name, the command go says on other systems.
package rtnlc_is_for_Linux_on_amd64
