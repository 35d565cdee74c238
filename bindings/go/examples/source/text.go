package source

import "fmt"

// Or is a value's text, or a dash where there is none. A name may have any bytes: those that a
// terminal doesn't just print are written as \x1b is.
func Or(value any, found bool) string {
	text := ""
	for _, it := range []byte(fmt.Sprint(value)) {
		if it > ' ' && it < 0x7f && it != '\\' {
			text += string(it)
		} else {
			text += fmt.Sprintf(`\x%02x`, it)
		}
	}
	if found && text != "" {
		return text
	}
	return "-"
}
